//! Generated inputs: valid maps of many shapes, pairs of maps to join, numbers to ask, and lengths of result slices.

use crate::damage;
use crate::map::{list, Corner, Grid, Paint, AXES, HIGHEST, HIGHEST_CODE, LOWEST, MOST_VERTICES};
use crate::rng::Rng;

/// Numbers that are asked beside those near the map.
const ASKED_NUMBERS: [i32; 14] = [
    -32768, -32767, 32767, 32766, -513, -512, -511, 510, 511, 512, 513, 0, -1, 1,
];
/// Steps from a number of the map to one that is asked.
const NEAR: [i16; 8] = [0, 0, 0, 0, 0, -1, 1, -2];
/// One map in so many is long: up to the most vertices.
const LONG_ONE_IN: usize = 40;
/// One long map in so many has nested shells as deep as they go, whose grid is the largest.
const DEEP_ONE_IN: usize = 30;
/// The most shells or slabs of a map: each has eight vertices.
const MOST_BOXES: usize = MOST_VERTICES / 8;

/// Rising corner numbers, `stretches` + 1 of them: a run anywhere or at an end, or scattered.
fn cuts(rng: &mut Rng, stretches: usize) -> Vec<i32> {
    let width = stretches as i32;
    let run = |low: i32| (low..=low + width).collect();
    match rng.below(8) {
        0 => run(LOWEST),
        1 => run(HIGHEST - width),
        2 => run(-width / 2),
        3 => run(rng.between(LOWEST, HIGHEST - width)),
        4 => scattered(rng, stretches + 1, -width - 4, width + 4),
        5 => scattered(rng, stretches + 1, LOWEST, HIGHEST),
        _ => {
            let mut numbers = scattered(rng, stretches + 1, LOWEST, HIGHEST);
            numbers[0] = LOWEST;
            numbers[stretches] = HIGHEST;
            numbers
        }
    }
}

/// So many different numbers from `low` to `high`, rising.
fn scattered(rng: &mut Rng, count: usize, low: i32, high: i32) -> Vec<i32> {
    let mut numbers: Vec<i32> = Vec::with_capacity(count);
    while numbers.len() < count {
        while numbers.len() < count {
            numbers.push(rng.between(low, high));
        }
        numbers.sort_unstable();
        numbers.dedup();
    }
    numbers
}

/// An empty grid with so many stretches on each axis to be painted.
fn window(rng: &mut Rng, sizes: [usize; AXES]) -> Grid {
    Grid::empty(sizes.map(|size| cuts(rng, size)))
}

/// A block of stretches anywhere in the window.
fn block(rng: &mut Rng, sizes: [usize; AXES]) -> ([usize; AXES], [usize; AXES]) {
    let from = sizes.map(|size| 1 + rng.below(size));
    let to = [0, 1, 2].map(|axis| from[axis] + 1 + rng.below(sizes[axis] + 1 - from[axis]));
    (from, to)
}

/// Paints so many blocks, some of them holes.
fn boxes(rng: &mut Rng, grid: &mut Grid, sizes: [usize; AXES], count: usize) {
    for _ in 0..count {
        let (from, to) = block(rng, sizes);
        let paint = rng.pick(&[Paint::Permit, Paint::Permit, Paint::Forbid, Paint::Flip]);
        grid.paint(from, to, paint);
    }
}

/// Slabs across one axis, with every other stretch left free.
pub fn slabs(cuts: [Vec<i32>; AXES], axis: usize) -> Grid {
    let mut grid = Grid::empty(cuts);
    let mut to = [0, 1, 2].map(|a| grid.stretches(a) - 1);
    let mut from = [1; AXES];
    for at in (1..to[axis]).step_by(2) {
        from[axis] = at;
        to[axis] = at + 1;
        grid.paint(from, to, Paint::Permit);
    }
    grid
}

/// Boxes in boxes: a cell is permitted when an even number of cells lies between it and the outside, so that shells
/// and gaps alternate.
pub fn shells(cuts: [Vec<i32>; AXES]) -> Grid {
    let mut grid = Grid::empty(cuts);
    let ends = [0, 1, 2].map(|axis| grid.stretches(axis) - 1);
    let depth = |axis: usize, at: usize| (at - 1).min(ends[axis] - 1 - at);
    grid.fill(|at| {
        (0..AXES)
            .map(|axis| depth(axis, at[axis]))
            .min()
            .unwrap_or(0)
            % 2
            == 0
    });
    grid
}

/// Cells that are permitted or not at random, so many of a hundred.
fn lump(rng: &mut Rng, grid: &mut Grid, percent: usize) {
    grid.fill(|_| rng.below(100) < percent);
}

/// Cells that touch at edges (two of three numbers change) or at corners alone, as on a chequered board.
fn touching(rng: &mut Rng, grid: &mut Grid) {
    let corner_contact = rng.once_in(2);
    grid.fill(|[i, j, k]| match corner_contact {
        true => i % 2 == j % 2 && j % 2 == k % 2,
        false => (i + j + k) % 2 == 0,
    });
}

/// A lump with exactly so many vertices (an even number that is not 2, 4 or 6): cells of a cube are flipped, where
/// that gives no more corners with an odd number of cells than asked, until their number is met.
pub fn lump_of(rng: &mut Rng, vertices: usize) -> Vec<Corner> {
    let mut size = 2;
    while (size + 1usize).pow(3) * 9 < vertices * 20 {
        size += 1;
    }
    let side = size + 1;
    let mut odd = vec![false; side.pow(3)];
    let mut grid = window(rng, [size; AXES]);
    let mut count = 0;
    while count != vertices {
        let [i, j, k] = [0; AXES].map(|_| rng.below(size));
        let round: [usize; 8] = std::array::from_fn(|corner| {
            let [a, b, c] = [i + (corner >> 2), j + (corner >> 1 & 1), k + (corner & 1)];
            (a * side + b) * side + c
        });
        let fewer = round.iter().filter(|&&at| odd[at]).count();
        if count + 8 - 2 * fewer <= vertices {
            count = count + 8 - 2 * fewer;
            round.iter().for_each(|&at| odd[at] = !odd[at]);
            grid.paint([i + 1, j + 1, k + 1], [i + 2, j + 2, k + 2], Paint::Flip);
        }
    }
    grid.list()
}

/// A window of up to `most` stretches on each axis.
fn sizes(rng: &mut Rng, most: usize) -> [usize; AXES] {
    [0; AXES].map(|_| 1 + rng.below(most))
}

/// A short map of any shape.
fn short_map(rng: &mut Rng) -> Vec<Corner> {
    let size = sizes(rng, 5);
    let mut grid = window(rng, size);
    match rng.below(16) {
        0 => {}
        1..=3 => boxes(rng, &mut grid, size, 1),
        4..=7 => {
            let count = 2 + rng.below(5);
            boxes(rng, &mut grid, size, count);
        }
        8 => grid = slabs(size.map(|s| cuts(rng, s)), rng.below(AXES)),
        9 => {
            let depth = 1 + 2 * rng.below(4);
            grid = shells([depth; AXES].map(|d| cuts(rng, d)));
        }
        10..=11 => touching(rng, &mut grid),
        _ => {
            let percent = rng.pick(&[10, 30, 50, 50, 50, 70, 90]);
            lump(rng, &mut grid, percent);
        }
    }
    grid.list()
}

/// A long map: slabs or shells by the hundred, large lumps, or exactly the most vertices.
fn long_map(rng: &mut Rng) -> Vec<Corner> {
    match rng.below(6) {
        0 => {
            let axis = rng.below(AXES);
            let mut size = [1; AXES];
            size[axis] = 2 * (1 + rng.below(MOST_BOXES)) - 1;
            slabs(size.map(|s| cuts(rng, s)), axis).list()
        }
        1 => {
            let deep = rng.once_in(DEEP_ONE_IN);
            let shell_count = if deep { MOST_BOXES } else { 1 + rng.below(24) };
            shells([2 * shell_count - 1; AXES].map(|s| cuts(rng, s))).list()
        }
        2 => {
            let size = sizes(rng, 12);
            let mut grid = window(rng, size);
            boxes(rng, &mut grid, size, 30);
            grid.list()
        }
        3 => {
            let size = [0; AXES].map(|_| 6 + rng.below(5));
            let mut grid = window(rng, size);
            lump(rng, &mut grid, 50);
            grid.list()
        }
        4 => {
            let vertices = MOST_VERTICES - 2 * rng.below(5);
            lump_of(rng, vertices)
        }
        _ => lump_of(rng, MOST_VERTICES),
    }
}

/// The vertices of a valid map.
pub fn map(rng: &mut Rng) -> Vec<Corner> {
    loop {
        let made = match rng.once_in(LONG_ONE_IN) {
            true => long_map(rng),
            false => short_map(rng),
        };
        if made.len() <= MOST_VERTICES {
            return made;
        }
    }
}

/// The lists of two valid maps to join: equal, stacked, crossed, apart, or in the same window.
pub fn pair(rng: &mut Rng) -> [Vec<i16>; 2] {
    match rng.below(16) {
        0 => {
            let one = list(&map(rng));
            [one.clone(), one]
        }
        1..=2 => stacked(rng),
        3 if rng.once_in(3) => crossed(rng),
        3..=4 => [list(&map(rng)), list(&map(rng))],
        _ => same_window(rng),
    }
}

/// Two maps of one window; where they are long, often with different cuts, so that the result may be too long.
fn same_window(rng: &mut Rng) -> [Vec<i16>; 2] {
    let long = rng.once_in(LONG_ONE_IN);
    let size = if long { [8; AXES] } else { sizes(rng, 5) };
    let mut frame = size.map(|s| cuts(rng, s));
    let percent = rng.pick(&[10, 50, 90]);
    [0; 2].map(|_| {
        let mut grid = Grid::empty(frame.clone());
        match rng.below(2) {
            0 => boxes(rng, &mut grid, size, 3),
            _ => lump(rng, &mut grid, percent),
        }
        if long && rng.once_in(2) {
            frame = size.map(|s| cuts(rng, s));
        }
        list(&grid.list())
    })
}

/// Two boxes with a common face on any axis: the first ends where the second begins.
fn stacked(rng: &mut Rng) -> [Vec<i16>; 2] {
    let axis = rng.below(AXES);
    let mut size = [1; AXES];
    size[axis] = 2;
    let frame = size.map(|s| cuts(rng, s));
    [0, 1].map(|half| {
        let mut grid = Grid::empty(frame.clone());
        let mut from = [1; AXES];
        from[axis] += half;
        grid.paint(from, from.map(|f| f + 1), Paint::Permit);
        list(&grid.list())
    })
}

/// Slabs on one axis and slabs crosswise; their overlap has eight vertices for each pair of slabs.
fn crossed(rng: &mut Rng) -> [Vec<i16>; 2] {
    let count = rng.pick(&[1, 2, 3, 5, 8, 11, 12, 13]);
    let frame = [2 * count - 1, 2 * count - 1, 1].map(|s| cuts(rng, s));
    [0, 1].map(|axis| list(&slabs(frame.clone(), axis).list()))
}

/// A list of any kind, a chequered board, or a lump round whose corners every set of eight cells is as likely.
pub fn many_corners(rng: &mut Rng) -> Vec<i16> {
    if rng.once_in(2) {
        return damage::mostly_valid(rng);
    }
    let mut grid = window(rng, [4; AXES]);
    match rng.once_in(8) {
        true => touching(rng, &mut grid),
        false => lump(rng, &mut grid, 50),
    }
    list(&grid.list())
}

/// A vertex of the map, or one near the middle where there is none.
pub fn some_vertex(rng: &mut Rng, vertices: &[Corner]) -> Corner {
    match vertices.is_empty() {
        true => Corner([0; AXES].map(|_| rng.between(-2, 2))),
        false => vertices[rng.below(vertices.len())],
    }
}

/// Three numbers to ask of a map: those of a vertex or near it, on each axis those of some vertex or near it, at the
/// ends of the ranges, or anywhere.
pub fn asked(rng: &mut Rng, vertices: &[Corner]) -> [i16; AXES] {
    let one = some_vertex(rng, vertices);
    let way = rng.below(5);
    [0, 1, 2].map(|axis| {
        let any = some_vertex(rng, vertices).0[axis] as i16;
        match (way, rng.below(6)) {
            (0, _) => any,
            (1, _) => any.wrapping_add(rng.pick(&NEAR)),
            (4, 0..=1) => rng.pick(&ASKED_NUMBERS) as i16,
            (4, 2) => rng.bits() as i16,
            (4, 3) => rng.between(LOWEST, HIGHEST_CODE) as i16,
            _ => (one.0[axis] as i16).wrapping_add(rng.pick(&NEAR)),
        }
    })
}

/// The length of a result slice for a result of so many numbers: just enough, one too short, longer, or none.
pub fn room(rng: &mut Rng, need: usize) -> usize {
    match rng.below(12) {
        0 => 0,
        1..=2 => need.saturating_sub(1),
        3 => rng.below(need + 1),
        4..=6 => need,
        7 => need + 1,
        8 => AXES * MOST_VERTICES,
        _ => need + rng.below(40),
    }
}
