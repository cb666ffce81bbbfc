//! The maps that are timed: of several shapes and sizes, each valid and refused, with numbers to ask, wishes, and for
//! each another map to be joined with it; and the slow maps that were found.

use crate::families::{self, recipe, Recipe, KNOBS};
use crate::finds;
use crate::functions::program::MOST_WISHES;
use crate::make::{lump_of, slabs};
use crate::make_text;
use crate::map::{list, permits, Cell, Corner, Grid, Paint, AXES, MOST_VERTICES};
use crate::rng::Rng;

/// Vertices of the maps that are timed.
pub const SIZES: [usize; 4] = [8, 64, 256, MOST_VERTICES];
/// Vertices of the slow maps that are timed: growth is seen between the last two.
pub const SLOW_SIZES: [usize; 3] = [64, 256, MOST_VERTICES];
/// Numbers that are asked of a map in turn.
pub const ASKED: usize = 16;
/// The seed of the maps.
const SEED: u64 = 0x62_656E_6368;

/// Where a wish lies.
#[derive(Clone, Copy)]
pub enum Wish {
    /// In a permitted cell.
    Inside,
    /// At most three codes beside a vertex, in a cell that is not permitted.
    Near,
    /// At the ends of the 16-bit numbers.
    Far,
}

/// All places of a wish, in words.
const PLACES: [(&str, Wish); 3] = [
    ("inside", Wish::Inside),
    ("near", Wish::Near),
    ("far", Wish::Far),
];

/// A map to be timed.
#[derive(Clone)]
pub struct Case {
    pub name: String,
    pub vertices: usize,
    pub refused: bool,
    /// The list.
    pub list: Vec<i16>,
    /// A map to be joined with it.
    pub other: Vec<i16>,
    asked: Vec<[i16; 3]>,
    /// Wishes, by where they lie.
    pub wishes: Vec<(&'static str, Vec<[i16; 3]>)>,
    /// What is asked of a slow map, in words; the slowest is looked for. Of other maps all is asked in turn.
    pub points: Vec<String>,
}

impl Case {
    /// A case without a list.
    pub fn named(name: &str, vertices: usize) -> Case {
        Case {
            name: name.to_string(),
            vertices,
            refused: false,
            list: Vec::new(),
            other: Vec::new(),
            asked: Vec::new(),
            wishes: Vec::new(),
            points: Vec::new(),
        }
    }

    /// The numbers that are asked in this turn.
    pub fn asked(&self, turn: usize) -> [i16; 3] {
        self.asked[turn % self.asked.len()]
    }

    /// Inputs of the program with this map and as many wishes as there may be: of a slow map one for each wish, that wish
    /// and no other; else one, with wishes of every place.
    pub fn inputs(&self) -> Vec<Vec<u8>> {
        let input = |wish: &dyn Fn(usize) -> [i16; 3]| {
            make_text::text(&self.list, (0..MOST_WISHES).map(wish).collect()).concat()
        };
        match self.points.len() {
            0 => vec![input(&|turn| {
                let (_, wishes) = &self.wishes[turn % self.wishes.len()];
                wishes[turn % wishes.len()]
            })],
            _ => self.asked.iter().map(|wish| input(&|_| *wish)).collect(),
        }
    }

    /// Wishes as slices of many, three numbers each: of a slow map one for each wish, that wish and no other; else one of
    /// all.
    pub fn slices(&self, wishes: &[[i16; 3]]) -> Vec<Vec<i16>> {
        match self.points.len() {
            0 => vec![wishes.concat()],
            _ => wishes.iter().map(|wish| wish.repeat(ASKED)).collect(),
        }
    }

    /// The case of two maps; codes between those of the first map's vertices are asked.
    fn of(name: &str, [one, other]: [Vec<Corner>; 2], rng: &mut Rng) -> Case {
        let asked = (0..ASKED)
            .map(|_| [0, 1, 2].map(|axis| one[rng.below(one.len())].0[axis].min(511) as i16));
        let asked = asked.collect();
        let mut wishes = |place| (0..ASKED).map(|_| wish(rng, &one, place)).collect();
        Case {
            asked,
            wishes: PLACES.map(|(word, place)| (word, wishes(place))).into(),
            list: list(&one),
            other: list(&other),
            ..Case::named(name, one.len())
        }
    }

    /// The case of two maps that may be slow; nothing where the first of them is empty.
    pub fn slow(name: &str, maps: [Recipe; 2], vertices: usize) -> Option<Case> {
        let [one, other] = maps.map(|recipe| recipe.map(vertices));
        if one.is_empty() {
            return None;
        }
        let (points, asked): (_, Vec<_>) = families::points(&one).into_iter().unzip();
        Some(Case {
            points,
            wishes: vec![("slow", asked.clone())],
            asked,
            list: list(&one),
            other: list(&other),
            ..Case::named(name, one.len())
        })
    }

    /// The same map without its last two vertices: the lines that they lay on are odd, but for one.
    fn odd(&self) -> Case {
        Case {
            name: format!("{}, refused 5", self.name),
            vertices: self.vertices - 2,
            refused: true,
            list: self.list[..self.list.len() - 6].to_vec(),
            ..self.clone()
        }
    }
}

/// A wish to a map.
fn wish(rng: &mut Rng, map: &[Corner], place: Wish) -> [i16; 3] {
    let far = [0; AXES].map(|_| rng.pick(&[-32768, 32767]));
    loop {
        let vertex = map[rng.below(map.len())].0;
        let cell = match place {
            Wish::Inside => vertex.map(|n| n - rng.between(0, 1)),
            Wish::Near => vertex.map(|n| n + rng.between(-3, 3)),
            Wish::Far => return far,
        };
        if permits(map, Cell(cell)) == matches!(place, Wish::Inside) {
            return cell.map(|n| n as i16);
        }
    }
}

/// Boxes that do not touch, one in each block of the whole range.
fn boxes(rng: &mut Rng, count: usize) -> Vec<Corner> {
    let across = [1, 2, 4, 8]
        .into_iter()
        .find(|a| a * a * a >= count)
        .unwrap_or(8);
    let width = 1024 / across as i32;
    let mut found = Vec::new();
    for at in 0..count {
        let block = [at / across / across, at / across % across, at % across];
        let ends = block.map(|b| {
            let low = -512 + b as i32 * width + rng.between(1, width / 2 - 1);
            vec![low, low + rng.between(1, width / 2 - 1)]
        });
        let mut one = Grid::empty(ends);
        one.paint([1; 3], [2; 3], Paint::Permit);
        found.extend(one.list());
    }
    found.sort_unstable();
    found
}

/// A run of numbers, so many stretches from `low` on.
fn run(low: i32, stretches: usize) -> Vec<i32> {
    (low..=low + stretches as i32).collect()
}

/// Slabs across an axis, each one code thick, one code apart.
fn combs(count: usize, axis: usize) -> Vec<Corner> {
    let long = run(-(count as i32), 2 * count - 1);
    match axis {
        0 => slabs([long, vec![-200, 200], vec![0, 1]], 0).list(),
        _ => slabs([vec![-200, 200], long, vec![0, 1]], 1).list(),
    }
}

/// Boxes in boxes, of which every second one is a hole: the ends of each, from the outermost on. No two boxes have an
/// end in common, so the list is all their corners.
fn nested(ends: impl Iterator<Item = [i32; 2]>) -> Vec<Corner> {
    let mut found: Vec<Corner> = ends
        .flat_map(|ends| {
            (0..8).map(move |at| Corner([ends[at >> 2], ends[at >> 1 & 1], ends[at & 1]]))
        })
        .collect();
    found.sort_unstable();
    found
}

/// Nested shells one code thick, one code apart, as many vertices as asked.
fn shells(low: i32, count: i32) -> Vec<Corner> {
    nested((0..count).map(|at| [low + at, low + 2 * count - 1 - at]))
}

/// So many shells that are three codes apart fit into the range.
const MOST_APART: i32 = 256;

/// Nested shells one code thick, three codes apart; `gap` is 0 or 2, and the two do not touch each other.
fn shells_apart(gap: i32, count: i32) -> Vec<Corner> {
    nested((0..count).map(|at| {
        let depth = 4 * (at / 2) + at % 2 + gap;
        [-512 + depth, 511 - depth]
    }))
}

/// Two maps of each shape with so many vertices.
fn shapes(rng: &mut Rng, vertices: usize) -> Vec<Case> {
    let count = vertices / 8;
    let two_boxes = [0; 2].map(|_| boxes(rng, count));
    let two_lumps = [0; 2].map(|_| lump_of(rng, vertices));
    let mut cases = vec![
        Case::of("boxes", two_boxes, rng),
        Case::of("lump", two_lumps, rng),
    ];
    if count > 1 {
        let two_combs = [combs(count, 0), combs(count, 1)];
        cases.push(Case::of("slabs", two_combs, rng));
        let two_shells = [0, 1].map(|up| shells(up - count as i32, count as i32));
        cases.push(Case::of("nested shells", two_shells, rng));
    }
    cases
}

/// Pairs of maps that are timed for joins alone: shells with themselves; shells in the gaps of others, where all
/// planes and lines are different and every plane sees most of the lines; and the crosswise slabs of example 11.
fn pairs(rng: &mut Rng, vertices: usize) -> Vec<Case> {
    let count = (vertices / 8) as i32;
    if count < 2 {
        return Vec::new();
    }
    let same = shells(-count, count);
    let apart = [0, 2].map(|gap| shells_apart(gap, count.min(MOST_APART)));
    vec![
        Case::of("nested shells, twice the same", [same.clone(), same], rng),
        Case::of("shells in the gaps of shells", apart, rng),
    ]
}

/// All cases: each map valid, and refused.
fn cases() -> Vec<Case> {
    let mut rng = Rng::new(SEED);
    let valid = SIZES.into_iter().flat_map(|size| shapes(&mut rng, size));
    valid
        .flat_map(|case| {
            let odd = case.odd();
            [case, odd]
        })
        .collect()
}

/// The slow cases of the check, valid and refused.
fn slow_checks() -> Vec<Case> {
    let mut rng = Rng::new(SEED);
    let valid = SLOW_SIZES.map(|vertices| {
        let map = recipe("crowded", [0; KNOBS]).map(vertices);
        Case::of("crowded", [map.clone(), map], &mut rng)
    });
    let with_refused = |case: Case| [case.clone(), case.odd()];
    valid.into_iter().flat_map(with_refused).collect()
}

/// The cases for functions other than the check: of the refused ones, the lumps.
fn fewer(cases: &[Case]) -> Vec<Case> {
    let kept = |c: &&Case| !c.refused || c.name.starts_with("lump");
    cases.iter().filter(kept).cloned().collect()
}

/// The cases of joins: those of other functions, and pairs that are for joins alone.
fn for_joins(cases: &[Case]) -> Vec<Case> {
    let mut rng = Rng::new(SEED);
    let mut found = fewer(cases);
    for size in SIZES {
        found.extend(pairs(&mut rng, size));
    }
    let crossed = [0, 1].map(|axis| combs(11, axis));
    found.push(Case::of("slabs of example 11", crossed, &mut rng));
    found
}

/// The maps with the most vertices that are valid.
fn full(cases: &[Case]) -> Vec<Case> {
    let most = SIZES.iter().max();
    let kept = |c: &&Case| !c.refused && Some(&c.vertices) == most;
    cases.iter().filter(kept).cloned().collect()
}

/// The slow maps that were found.
fn slow_maps() -> Vec<Case> {
    let sizes = |find| SLOW_SIZES.map(|vertices| finds::case(find, vertices));
    finds::FINDS.iter().flat_map(sizes).flatten().collect()
}

/// The cases of each function, by its name.
pub struct Cases {
    check: Vec<Case>,
    join: Vec<Case>,
    program: Vec<Case>,
    others: Vec<Case>,
}

impl Cases {
    /// All cases.
    pub fn new() -> Cases {
        let mut cases = Cases::ordinary();
        let slow = slow_maps();
        cases.check.extend_from_slice(&slow);
        cases.join.extend_from_slice(&slow);
        cases.others.extend_from_slice(&slow);
        cases.program.extend(slow);
        cases
    }

    /// All cases but the slow maps that were found.
    pub fn ordinary() -> Cases {
        let all = cases();
        Cases {
            join: for_joins(&all),
            program: full(&all),
            others: fewer(&all),
            check: [all, slow_checks()].concat(),
        }
    }

    /// The cases of a function.
    pub fn of(&self, name: &str) -> &[Case] {
        match name {
            "travelmap_check" => &self.check,
            "travelmap_join" => &self.join,
            "travel" => &self.program,
            _ => &self.others,
        }
    }
}
