//! The self-test: the judge against the worked examples and the definitions, right libraries that must pass, and
//! wrong ones that the comparison must report.

mod examples;
mod judges;
mod liars;
mod tables;
mod texts;

use crate::compare::{self, Lent, Run};
use crate::functions::*;
use crate::judge::Known;
use crate::{plain, rng::Rng};
use std::cell::RefCell;
use std::collections::BTreeSet;
use std::sync::Mutex;

/// Calls of a wrong library; it must be reported within them.
const CALLS: u64 = 6_000;
/// Calls of a right library.
const HONEST_CALLS: u64 = 20_000;
/// The seeds of wrong and right libraries.
const SEED: u64 = 0x6C69_6172;
const HONEST_SEED: u64 = 0x7472_7565;

/// A join as it is called.
type Join = fn(u32, &[i16], &[i16], &mut [i16]) -> u64;
/// The joins of ordinary Rust.
const JOINS: [(&str, Join); 2] = [
    ("rows of bits", plain::join),
    ("lists", plain::join_by_lists),
];

/// What was tested, and what failed.
pub struct Test {
    tested: usize,
    failed: usize,
}

impl Test {
    /// Tests that something holds.
    pub fn holds(&mut self, name: &str, holds: bool) {
        self.tested += 1;
        if !holds {
            self.failed += 1;
            println!("failed: {name}");
        }
    }

    /// Tests that the comparison reports a wrong library, with its inputs.
    pub fn reports(&mut self, name: &str, compare: impl FnOnce(&mut Run)) {
        let mut run = Run::new(SEED, CALLS);
        run.until_wrong = true;
        compare(&mut run);
        let shown = run.shown.first().is_some_and(|text| text.contains("for "));
        self.holds(&format!("not reported: {name}"), run.wrong > 0 && shown);
    }

    /// Tests that the comparison reports nothing of a right library, and meets every number it can answer.
    fn passes(&mut self, name: &str, numbers: &[u8], compare: impl FnOnce(&mut Run)) {
        let mut run = Run::new(HONEST_SEED, HONEST_CALLS);
        compare(&mut run);
        run.shown.iter().for_each(|text| println!("  {text}"));
        let all_met = run.not_met(numbers).is_empty();
        self.holds(
            &format!("reported, or not tried: {name}"),
            run.wrong == 0 && run.calls >= HONEST_CALLS && all_met,
        );
    }
}

/// The judge itself and the ordinary Rust versions pass.
fn honest(test: &mut Test) {
    let known = |list: &[i16]| Known::new(list.to_vec());
    test.passes("judge, cell", cell::NUMBERS, |run| {
        cell::compare(|list, asked| cell::judge(&known(list), asked), run)
    });
    test.passes("judge, program", program::NUMBERS, |run| {
        program::compare(|input| program::judge(input).1.into_bytes(), run)
    });
    test.passes("check", check::NUMBERS, |run| {
        check::compare(plain::check, run)
    });
    test.passes("box", make_box::NUMBERS, |run| {
        make_box::compare(plain::make_box, run)
    });
    test.passes("cell", cell::NUMBERS, |run| cell::compare(plain::cell, run));
    test.passes("corner", corner::NUMBERS, |run| {
        corner::compare(plain::corner, run)
    });
    test.passes("plane", plane::NUMBERS, |run| {
        plane::compare(plain::plane, run)
    });
    test.passes("section", section::NUMBERS, |run| {
        section::compare(plain::section, run)
    });
    test.passes("split", split::NUMBERS, |run| {
        split::compare(plain::split, run)
    });
    test.passes("join", join::NUMBERS, |run| join::compare(plain::join, run));
    test.passes("join by lists", join::NUMBERS, |run| {
        join::compare(plain::join_by_lists, run)
    });
    test.passes("nearest", nearest::NUMBERS, |run| {
        nearest::compare(plain::nearest, run)
    });
    test.passes("distance", nearest_distance::NUMBERS, |run| {
        nearest_distance::compare(plain::nearest_distance, run)
    });
    test.passes("nearest many", nearest_many::NUMBERS, |run| {
        nearest_many::compare(plain::nearest_many, run)
    });
    test.passes("nearest by a tree", nearest::NUMBERS, |run| {
        nearest::compare(by_tree, run)
    });
}

/// Nearest by an r-tree, which is kept for the next wish to the same list.
fn by_tree(list: &[i16], wish: [i16; 3]) -> u64 {
    thread_local! {
        static KEPT: RefCell<Option<(Vec<i16>, plain::Tree)>> = const { RefCell::new(None) };
    }
    if list.is_empty() || plain::check(list) != 0 {
        return plain::nearest(list, wish);
    }
    KEPT.with_borrow_mut(|kept| {
        let tree = match kept.take() {
            Some((same, tree)) if same == list => tree,
            _ => plain::Tree::new(list),
        };
        let [x, y, z] = tree.best(wish).1.map(|n| u64::from(n as u16));
        *kept = Some((list.to_vec(), tree));
        x << 32 | y << 16 | z
    })
}

/// A comparison in parts makes all calls, with other inputs in each part, and loses no difference.
fn parts(test: &mut Test) {
    let honest = |run: &mut Run| check::compare(check::judge, run);
    let run = compare::in_parts(honest, CALLS + 1);
    let all = run.calls == CALLS + 1 && run.wrong == 0;
    test.holds(
        "all calls in parts",
        all && run.not_met(check::NUMBERS).is_empty(),
    );
    static ASKED: Mutex<BTreeSet<u64>> = Mutex::new(BTreeSet::new());
    let run = compare::in_parts(
        |run| {
            let first = run.rng.bits();
            let known = ASKED.lock().map_or(true, |mut asked| !asked.insert(first));
            run.count(0, !known, || "the same inputs for two parts".into());
        },
        0,
    );
    test.holds("other inputs in each part", run.wrong == 0 && run.calls > 1);
    let wrong = |run: &mut Run| {
        let mut last = 0;
        while run.goes_on() {
            last = run.rng.bits();
            run.count(0, true, || "".into());
        }
        run.count(0, last % 2 == 0, || "the last call of some parts".into());
    };
    let run = compare::in_parts(wrong, CALLS);
    test.holds(
        "a difference in some parts",
        run.wrong > 0 && !run.shown.is_empty(),
    );
}

/// Every join of small sets of cells is made, and right joins pass.
fn every_join(test: &mut Test) {
    for (name, call) in JOINS {
        let mut run = Run::new(SEED, 0);
        join::compare_every(call, &mut run);
        run.shown.iter().for_each(|text| println!("  {text}"));
        let all = run.calls == 4 * 256 * 256 && run.wrong == 0;
        test.holds(&format!("every small join, {name}"), all);
    }
}

/// A comparison of corner reports, a tenth as long as it is by default, asks for each of the 256 masks.
fn every_mask(test: &mut Test) {
    let met = RefCell::new([false; 256]);
    let mut run = Run::new(compare::SEED, compare::CALLS / 10);
    let call = |list: &[i16], asked| {
        let answer = plain::corner(list, asked);
        met.borrow_mut()[(answer & 255) as usize] = true;
        answer
    };
    corner::compare(call, &mut run);
    let masks = met.borrow().iter().filter(|&&met| met).count();
    test.holds(&format!("{masks} of 256 masks are met"), masks == 256);
}

/// Runs all tests and writes what failed. Did all hold?
pub fn selftest() -> bool {
    let mut test = Test {
        tested: 0,
        failed: 0,
    };
    examples::examples(&mut test);
    judges::judges(&mut test);
    honest(&mut test);
    every_mask(&mut test);
    every_join(&mut test);
    parts(&mut test);
    liars::liars(&mut test);
    texts::texts(&mut test);
    tables::tables(&mut test);
    println!("{} tests, {} failed", test.tested, test.failed);
    test.failed == 0
}

/// A slice to be lent, with the seed's contents.
fn lent(length: usize) -> Lent {
    Lent::new(&mut Rng::new(SEED), length)
}
