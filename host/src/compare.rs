//! Comparing: a run of calls of one function, the slices that are lent to it, what is written of a difference, and
//! the report over all functions.

use crate::functions::{chosen, Function};
use crate::judge;
use crate::rng::Rng;
use std::collections::BTreeMap;
use std::sync::atomic::{AtomicU64, Ordering};
use std::sync::Mutex;
use std::time::Instant;

/// The calls of each function where no number is given.
pub const CALLS: u64 = 1_000_000;
/// The parts of a comparison, each with a seed of its own; they are shared out among the processors.
const PARTS: u64 = 8;
/// What makes one part's seed another than the next one's.
const PART_SEED: u64 = 0xD1B5_4A32_D192_ED03;
/// From so many calls on, every number that a function can answer must have been met.
const CALLS_TO_MEET_ALL: u64 = 20_000;
/// The differences that are written out.
const SHOWN: usize = 3;
/// The seed of each function's maps.
pub const SEED: u64 = 0x7261_7665_6C6D_6170;
/// Numbers of an answer: 0 to 12.
const NUMBERS: usize = 13;

/// The calls of one function, and what came of them.
pub struct Run {
    /// What the inputs are made from.
    pub rng: Rng,
    goal: u64,
    /// Is it enough to know that some call differs?
    pub until_wrong: bool,
    /// Calls made.
    pub calls: u64,
    /// Calls that differed.
    pub wrong: u64,
    /// The first differences, with their inputs.
    pub shown: Vec<String>,
    met: [u64; NUMBERS],
    kinds: BTreeMap<&'static str, u64>,
    start: Instant,
}

impl Run {
    /// A run of so many calls with the inputs of this seed.
    pub fn new(seed: u64, goal: u64) -> Run {
        Run {
            rng: Rng::new(seed),
            goal,
            until_wrong: false,
            calls: 0,
            wrong: 0,
            shown: Vec::new(),
            met: [0; NUMBERS],
            kinds: BTreeMap::new(),
            start: Instant::now(),
        }
    }

    /// Are there calls left to be made?
    pub fn goes_on(&self) -> bool {
        self.calls < self.goal && !(self.until_wrong && self.wrong > 0)
    }

    /// Counts one call: the number that is due, whether all was as it should be, and how to tell it if not.
    pub fn count(&mut self, number: u8, same: bool, tell: impl FnOnce() -> String) {
        self.calls += 1;
        self.met[usize::from(number)] += 1;
        if !same {
            self.wrong += 1;
            if self.shown.len() < SHOWN {
                self.shown.push(format!("call {}: {}", self.calls, tell()));
            }
        }
    }

    /// Takes in what came of another part of the same comparison.
    fn take_in(&mut self, part: Run) {
        self.calls += part.calls;
        self.wrong += part.wrong;
        self.shown.extend(part.shown);
        self.shown.truncate(SHOWN);
        let met = self.met.iter_mut().zip(part.met);
        met.for_each(|(all, here)| *all += here);
        for (name, count) in part.kinds {
            *self.kinds.entry(name).or_default() += count;
        }
    }

    /// Counts an input of this kind.
    pub fn kind(&mut self, name: &'static str) {
        *self.kinds.entry(name).or_default() += 1;
    }

    /// Which of these numbers were never due?
    pub fn not_met(&self, numbers: &[u8]) -> Vec<u8> {
        let never = |n: &&u8| self.met[usize::from(**n)] == 0;
        numbers.iter().filter(never).copied().collect()
    }

    /// Writes the run's line, with how often each number was due, and its first differences. Is all as it should be?
    pub fn report(&self, name: &str, numbers: &[u8]) -> bool {
        let met = self.met.iter().enumerate().filter(|(_, &calls)| calls > 0);
        let met: String = met
            .map(|(number, calls)| format!(" {number}:{calls}"))
            .collect();
        println!(
            "{name}: {} calls, {} different, {:.1} s, numbers due{met}",
            self.calls,
            self.wrong,
            self.start.elapsed().as_secs_f64()
        );
        if !self.kinds.is_empty() {
            let kinds = self
                .kinds
                .iter()
                .map(|(name, count)| format!("{name}: {count}"));
            println!("  inputs: {}", kinds.collect::<Vec<_>>().join("; "));
        }
        for shown in &self.shown {
            println!("  {shown}");
        }
        let never = match self.calls >= CALLS_TO_MEET_ALL {
            true => self.not_met(numbers),
            false => Vec::new(),
        };
        if !never.is_empty() {
            println!("  never due, so not compared: numbers {never:?}");
        }
        self.wrong == 0 && self.calls > 0 && never.is_empty()
    }
}

/// A result slice to be lent, in the midst of a buffer; all of it has other contents.
#[derive(Clone, PartialEq)]
pub struct Lent {
    numbers: Vec<i16>,
    length: usize,
}

impl Lent {
    /// What stands before and behind the slice.
    const BESIDE: usize = 4;

    /// A slice of this length.
    pub fn new(rng: &mut Rng, length: usize) -> Lent {
        let all = length + 2 * Lent::BESIDE;
        let mut numbers = Vec::with_capacity(all + 3);
        while numbers.len() < all {
            let bits = rng.bits();
            numbers.extend([0, 16, 32, 48].map(|shift| (bits >> shift) as i16));
        }
        numbers.truncate(all);
        Lent { numbers, length }
    }

    /// The slice.
    pub fn slice(&mut self) -> &mut [i16] {
        &mut self.numbers[Lent::BESIDE..][..self.length]
    }

    /// Where two buffers differ, with their first differing numbers, the place counted in the slice.
    pub fn difference(&self, other: &Lent) -> String {
        let pairs = self.numbers.iter().zip(&other.numbers);
        match pairs.enumerate().find(|(_, (a, b))| a != b) {
            None => "results are as they should be".to_string(),
            Some((at, (due, given))) => format!(
                "result[{}] (length {}) should be {due} and is {given}",
                at as isize - Lent::BESIDE as isize,
                self.length
            ),
        }
    }
}

/// Two answers as text.
pub fn answers(due: u64, given: u64) -> String {
    format!(
        "should be {due:#018x} (number {}) and is {given:#018x} (number {})",
        judge::number(due),
        judge::number(given)
    )
}

/// Makes so many calls in parts, on all processors; the inputs do not depend on how many there are.
pub fn in_parts(compare: fn(&mut Run), calls: u64) -> Run {
    let next = AtomicU64::new(0);
    let whole = Mutex::new(Run::new(SEED, calls));
    let work = || loop {
        let part = next.fetch_add(1, Ordering::Relaxed);
        if part >= PARTS {
            return;
        }
        let goal = calls / PARTS + u64::from(part < calls % PARTS);
        let mut run = Run::new(SEED ^ part.wrapping_mul(PART_SEED), goal);
        compare(&mut run);
        if let Ok(mut whole) = whole.lock() {
            whole.take_in(run);
        }
    };
    std::thread::scope(|scope| {
        let threads = std::thread::available_parallelism().map_or(1, |n| n.get());
        (0..threads).for_each(|_| drop(scope.spawn(work)));
    });
    whole
        .into_inner()
        .unwrap_or_else(|broken| broken.into_inner())
}

/// Compares one function in so many calls, and in all calls of its short list of cases where the run is a long one,
/// and reports. The calls made, if all is as it should be.
fn compare_one(function: &Function, calls: u64) -> Option<u64> {
    let run = in_parts(function.compare, calls);
    let mut good = run.report(function.name, function.numbers) && run.calls >= calls;
    let mut made = run.calls;
    if let (Some(every), true) = (function.every, calls >= CALLS_TO_MEET_ALL) {
        let mut run = Run::new(SEED, 0);
        every(&mut run);
        good &= run.report(&format!("{}, every case", function.name), &[judge::DONE]);
        made += run.calls;
    }
    good.then_some(made)
}

/// Compares every function, or those that are named, and writes the last line. Is all as it should be?
pub fn compare(calls: u64, names: &[String]) -> bool {
    let chosen = chosen(names);
    let good: Vec<String> = chosen
        .iter()
        .filter_map(|f| Some(format!("{} {}", f.name, compare_one(f, calls)?)))
        .collect();
    let differ = chosen.len() - good.len();
    match differ == 0 && !chosen.is_empty() {
        true => println!("all as it should be; calls: {}", good.join(", ")),
        false => println!("{differ} of {} functions differ", chosen.len()),
    }
    differ == 0 && !chosen.is_empty()
}
