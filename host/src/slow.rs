//! Looks for slow maps of every function: families of maps with many knobs, of which those that took long are changed a
//! little and tried again. Every map is made from the numbers that are written with it (families.rs), so that a find can
//! be kept (finds.rs). What is tried depends on the seed, and on which maps were slow.

use crate::cases::{Case, SIZES, SLOW_SIZES};
use crate::families::{Recipe, FAMILIES, KNOBS};
use crate::functions::{chosen, Function, FUNCTIONS};
use crate::map::MOST_VERTICES;
use crate::rng::Rng;
use crate::summary::{power, table, Line};
use crate::table::{Pace, Table};
use std::collections::BTreeMap;
use std::time::{Duration, Instant};

/// The seconds of a search where no number is given.
pub const SECONDS: u64 = 120;
/// The seed of what is tried.
const SEED: u64 = 0x736C_6F77;
/// The maps whose answers differ that are written out.
const SHOWN: usize = 5;
/// The function that has no map.
const WITHOUT_MAP: &str = "travelmap_box";

/// Two maps; the second is for joins alone.
type Maps = [Recipe; 2];

/// What took longest, or longest beside ordinary Rust: the maps, and the vertices that were asked for.
#[derive(Clone)]
struct Found {
    maps: Maps,
    vertices: usize,
    line: Line,
}

/// The finds of one kind of call: the slowest with the most vertices, and the worst ratio of any size.
#[derive(Clone, Default)]
struct Finds {
    slowest: Option<Found>,
    worst: Option<Found>,
}

/// A search under way.
struct Search {
    function: &'static Function,
    rng: Rng,
    /// The finds of each kind of call.
    finds: BTreeMap<String, Finds>,
    tried: usize,
    /// The maps that are tried first: those that were slow for other functions.
    first: Vec<Maps>,
    /// The maps whose answers differ.
    wrong: Vec<String>,
}

/// Every family in turn, alone and with far cells; the second map has the shifts the other way round.
fn simple(at: usize) -> Option<Maps> {
    let mut knobs = [0; KNOBS];
    knobs[1] = (at / FAMILIES.len()) as u8;
    let one = Recipe {
        family: at % FAMILIES.len(),
        knobs,
    };
    knobs[0] = 1;
    (at < 2 * FAMILIES.len()).then_some([one, Recipe { knobs, ..one }])
}

/// A recipe of any family with any knobs.
fn any(rng: &mut Rng) -> Recipe {
    Recipe {
        family: rng.below(FAMILIES.len()),
        knobs: [0; KNOBS].map(|_| rng.bits() as u8 % 60),
    }
}

/// A recipe that differs from another in one or two knobs, now and then in its family.
fn like(rng: &mut Rng, mut recipe: Recipe) -> Recipe {
    for _ in 0..1 + rng.below(2) {
        let knob = &mut recipe.knobs[rng.below(KNOBS)];
        *knob = match rng.below(3) {
            0 => rng.bits() as u8 % 60,
            1 => knob.saturating_add(1),
            _ => knob.saturating_sub(1),
        };
    }
    if rng.once_in(12) {
        recipe.family = rng.below(FAMILIES.len());
    }
    recipe
}

/// The maps in words: the second only where there are joins.
fn words(function: &Function, maps: &Maps) -> String {
    match function.name.ends_with("join") {
        true => format!("{} with {}", maps[0].text(), maps[1].text()),
        false => maps[0].text(),
    }
}

impl Search {
    /// A search for the slow maps of a function, with maps that are tried first.
    fn new(function: &'static Function, first: &[Maps]) -> Search {
        Search {
            function,
            rng: Rng::new(SEED),
            finds: BTreeMap::new(),
            tried: 0,
            first: first.to_vec(),
            wrong: Vec::new(),
        }
    }

    /// The maps that are tried next, and their vertices: first those that are given, and every family, alone and with far
    /// cells; then any, or some like a find.
    fn next(&mut self) -> (Maps, usize) {
        if let Some(maps) = self.first.get(self.tried) {
            return (*maps, MOST_VERTICES);
        }
        if let Some(maps) = simple(self.tried - self.first.len()) {
            return (maps, MOST_VERTICES);
        }
        let (rng, way) = (&mut self.rng, self.tried % 4);
        let finds = self.finds.values().nth(rng.below(self.finds.len().max(1)));
        let found = finds.and_then(|finds| match way {
            0 => None,
            1 => finds.worst.as_ref(),
            _ => finds.slowest.as_ref(),
        });
        let size = rng.pick(&SIZES);
        match found {
            None => ([any(rng), any(rng)], rng.pick(&[size, MOST_VERTICES])),
            Some(found) => {
                let mut maps = found.maps;
                let at = rng.below(maps.len());
                maps[at] = like(rng, maps[at]);
                (maps, if way == 1 { size } else { MOST_VERTICES })
            }
        }
    }

    /// What calls on these maps take.
    fn lines(&mut self, maps: &Maps, vertices: usize, pace: Pace) -> Vec<Line> {
        let name = words(self.function, maps);
        let Some(case) = Case::slow(&name, *maps, vertices) else {
            return Vec::new();
        };
        let mut table = Table::of_times(pace);
        (self.function.time)(&[case], &mut table);
        self.wrong.extend(table.wrong);
        let joins = table.joins.iter().map(|join| join.beside(join.lists));
        table.lines.into_iter().chain(joins).collect()
    }

    /// Is the line a find?
    fn is_find(&self, line: &Line, vertices: usize) -> [bool; 2] {
        let Some(finds) = self.finds.get(&line.function) else {
            return [vertices == MOST_VERTICES, true];
        };
        let slower = |found: &Found| line.ours > found.line.ours;
        let worse = |found: &Found| line.ratio() > found.line.ratio();
        [
            vertices == MOST_VERTICES && finds.slowest.as_ref().is_none_or(slower),
            finds.worst.as_ref().is_none_or(worse),
        ]
    }

    /// Tries maps; what seems to be a find is timed again, and well, and kept if it is one still.
    fn step(&mut self) {
        let (maps, vertices) = self.next();
        self.tried += 1;
        let first = self.lines(&maps, vertices, Pace::SEARCH);
        let found = |search: &Search, line: &Line| search.is_find(line, vertices) != [false; 2];
        if !first.iter().any(|line| found(self, line)) {
            return;
        }
        for line in self.lines(&maps, vertices, Pace::SURE) {
            if !first
                .iter()
                .any(|l| l.function == line.function && found(self, l))
            {
                continue;
            }
            let [slower, worse] = self.is_find(&line, vertices);
            let found = Some(Found {
                maps,
                vertices,
                line: line.clone(),
            });
            let finds = self.finds.entry(line.function).or_default();
            if slower {
                finds.slowest = found.clone();
            }
            if worse {
                finds.worst = found;
            }
        }
    }

    /// The line of a kind of call on some maps, timed well: the slowest of them, or the one with the worst ratio.
    fn timed(
        &mut self,
        name: &str,
        found: &Found,
        vertices: usize,
        by: fn(&Line) -> f64,
    ) -> Option<Line> {
        let lines = self.lines(&found.maps, vertices, Pace::SURE);
        let same = lines.into_iter().filter(|line| line.function == name);
        same.max_by(|a, b| by(a).total_cmp(&by(b)))
    }

    /// The row of a kind of call: the slowest, how it grows, how it stands to the check, and the worst ratio.
    fn row(&mut self, name: &str, finds: &Finds) -> Option<String> {
        let ours = |line: &Line| line.ours;
        let slowest = finds.slowest.as_ref()?;
        let worst = finds.worst.as_ref()?;
        let [_, low, high] = SLOW_SIZES.map(|size| self.timed(name, slowest, size, ours));
        let (low, high) = (low?, high?);
        let mut check = Search::new(&FUNCTIONS[0], &[]);
        let check = check.timed("check", slowest, MOST_VERTICES, ours)?;
        let worst = self.timed(name, worst, worst.vertices, Line::ratio)?;
        Some(format!(
            "| {name} | {} | {:.0} | {:.2} | {:.1} | {:.2} | {}, {} |",
            high.map_asked(),
            high.ours,
            power(&low, &high),
            high.ours / check.ours,
            worst.ratio(),
            worst.map_asked(),
            worst.vertices,
        ))
    }

    /// Writes the rows of all kinds of call.
    fn rows(&mut self) -> Vec<String> {
        let finds = self.finds.clone();
        let rows = finds
            .iter()
            .filter_map(|(name, finds)| self.row(name, finds));
        rows.collect()
    }
}

/// How many shares of the time a function has.
fn shares(function: &Function) -> u32 {
    match function.name {
        "travelmap_nearest" | "travelmap_join" => 4,
        _ => 1,
    }
}

/// Looks for slow maps of the functions that are named, or of all, for so many seconds. Were all answers the same?
pub fn slow(seconds: u64, names: &[String]) -> bool {
    let mut functions = chosen(names);
    functions.retain(|function| function.name != WITHOUT_MAP);
    let all: u32 = functions.iter().map(|function| shares(function)).sum();
    let mut rows = Vec::new();
    let mut wrong = Vec::new();
    let mut slow_maps: Vec<Maps> = Vec::new();
    for function in functions {
        let (start, mut search) = (Instant::now(), Search::new(function, &slow_maps));
        let time = Duration::from_secs(seconds) * shares(function) / all;
        while start.elapsed() < time {
            search.step();
        }
        eprintln!("{}: {} maps tried", function.name, search.tried);
        rows.extend(search.rows());
        let slowest = search.finds.values().flat_map(|finds| &finds.slowest);
        slow_maps.extend(slowest.map(|found| found.maps));
        wrong.extend(search.wrong);
    }
    let head = "| function | slowest at | ns | power | times the check | worst ratio | at |";
    println!("{}", table(head, rows.into_iter()));
    for wrong in wrong.iter().take(SHOWN) {
        eprintln!("answers differ: {wrong}");
    }
    wrong.is_empty()
}
