//! The judge against the definitions themselves: cell by cell, corner by corner and line by line, on short maps.

use super::Test;
use crate::damage;
use crate::functions::corner::kind;
use crate::judge::check;
use crate::make;
use crate::map::{corners, distance, permits, Cell, Corner, Grid, AXES};
use crate::rng::Rng;

/// Maps that are tried.
const MAPS: usize = 3_000;
/// The widest window of which every cell is looked at.
const WIDEST: i32 = 12;
/// The most numbers of a list of which every line is counted.
const LONGEST: usize = 300;

/// All tests of the judge.
pub fn judges(test: &mut Test) {
    let masks = (0..=255).map(kind);
    let mut found = [0; 9];
    masks.for_each(|kind| found[usize::from(kind)] += 1);
    test.holds(
        "masks of each kind",
        found == [38, 64, 24, 48, 24, 24, 16, 16, 2],
    );
    let mut rng = Rng::new(1);
    let mut narrow = 0;
    let mut short = 0;
    for _ in 0..MAPS {
        let map = make::map(&mut rng);
        grid_means_list(test, &mut rng, &map);
        if let Some(cuts) = every_number(&map) {
            narrow += 1;
            same_cell_by_cell(test, &mut rng, &map, cuts);
        }
        let list = damage::any_list(&mut rng);
        if list.len() <= LONGEST {
            short += 1;
            check_line_by_line(test, &list);
        }
    }
    test.holds("short lists", short > MAPS / 10);
    test.holds("narrow maps", narrow > MAPS / 10);
}

/// The grid permits what the list permits, and gives the list back; listed corners have an odd number of cells.
fn grid_means_list(test: &mut Test, rng: &mut Rng, map: &[Corner]) {
    let grid = Grid::of(map);
    test.holds("list of a grid", grid.list() == map);
    let asked = make::asked(rng, map).map(i32::from);
    test.holds(
        "cell of a grid",
        grid.permits(Cell(asked)) == permits(map, Cell(asked)),
    );
    let round = (0..8).filter(|bit| {
        let less = [bit >> 2, bit >> 1 & 1, bit & 1];
        permits(map, Cell([0, 1, 2].map(|axis| asked[axis] - less[axis])))
    });
    let listed = map.contains(&Corner(asked));
    test.holds("eight cells", (round.count() % 2 == 1) == listed);
}

/// Every number from the lowest to the highest of each axis, where they are few.
fn every_number(map: &[Corner]) -> Option<[Vec<i32>; AXES]> {
    let ends = [0, 1, 2].map(|axis| {
        let numbers = map.iter().map(|v| v.0[axis]);
        (
            numbers.clone().min().unwrap_or(0),
            numbers.max().unwrap_or(0),
        )
    });
    let narrow = ends.iter().all(|(low, high)| high - low <= WIDEST);
    narrow.then(|| ends.map(|(low, high)| (low..=high).collect()))
}

/// Sections, halves and nearest are those of a grid with one bool for every single cell.
fn same_cell_by_cell(test: &mut Test, rng: &mut Rng, map: &[Corner], cuts: [Vec<i32>; AXES]) {
    let grid = Grid::of(map);
    let mut plain = Grid::empty(cuts.clone());
    plain.fill(|at| permits(map, Cell([0, 1, 2].map(|axis| cuts[axis][at[axis] - 1]))));
    test.holds("list, cell by cell", plain.list() == map);
    let wish = make::asked(rng, map).map(i32::from);
    let cells = cuts[0].iter().flat_map(|&x| {
        let rows = cuts[1].iter().map(move |&y| (x, y));
        rows.flat_map(|(x, y)| cuts[2].iter().map(move |&z| Cell([x, y, z])))
    });
    let permitted = cells.filter(|&cell| permits(map, cell));
    let nearest = permitted.min_by_key(|&cell| (distance(wish, cell), cell));
    test.holds("nearest, cell by cell", grid.nearest(wish) == nearest);
    for axis in 0..AXES {
        let code = wish[axis];
        let pairs = grid.section(axis, code) == plain.section(axis, code);
        test.holds("section, cell by cell", pairs);
        let at = cuts[axis][rng.below(cuts[axis].len())];
        let halves = [|n: i32, at: i32| n < at, |n: i32, at: i32| n >= at].map(|keeps| {
            let mut half = Grid::empty(cuts.clone());
            half.fill(|stretch| {
                let cell = [0, 1, 2].map(|a| cuts[a][stretch[a] - 1]);
                keeps(cell[axis], at) && permits(map, Cell(cell))
            });
            half.list()
        });
        let (low, high) = plain.split(axis, at);
        test.holds("split, cell by cell", [low.list(), high.list()] == halves);
    }
}

/// The check's refusals, each by its definition: every line is counted for every vertex.
fn check_line_by_line(test: &mut Test, list: &[i16]) {
    let vertices = corners(list);
    let on_line = |v: &Corner, w: &Corner, axis| (0..AXES).all(|a| a == axis || v.0[a] == w.0[a]);
    let count = |v: &Corner, axis| vertices.iter().filter(|w| on_line(v, w, axis)).count();
    let odd = |v: &Corner| (0..AXES).any(|axis| count(v, axis) % 2 == 1);
    let out = |v: &Corner| v.0.iter().any(|n| !(-512..=512).contains(n));
    let place_of = |p: Option<usize>, number| p.map(|place| (number, place));
    let falls = (1..vertices.len()).find(|&at| vertices[at].0 <= vertices[at - 1].0);
    let due = match list.len() % 3 {
        0 => place_of(vertices.iter().position(out), 3)
            .or(place_of(falls, 4))
            .or(place_of(vertices.iter().position(odd), 5))
            .unwrap_or((0, 0)),
        _ => (1, 0),
    };
    let given = check(list, 1);
    let same = (given.number, usize::from(given.place)) == due;
    test.holds(
        "check, line by line",
        same && (given.operand == 1) == (due.0 != 0),
    );
}
