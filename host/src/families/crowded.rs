//! The family that is slow for the check: it is made for the table of lines that the library has.

use super::{Block, WIDTH};
use std::collections::HashSet;

/// The number by which the library spreads lines over its table, and the slots of that table.
const SPREAD: u64 = 3_266_489_909;
const SLOTS: u64 = 2_048;

/// The slot at which the library's search for a line of the focus begins.
fn slot(first: i32, second: i32) -> u64 {
    let key = first as u64 * 2_048 + second as u64;
    (key * SPREAD % (1 << 32) * SLOTS) >> 32
}

/// The step along the first or the second shift that moves a line least in the table.
fn least_step(of: impl Fn(i32) -> u64) -> i32 {
    let moved = |step: &i32| of(*step).min(SLOTS - of(*step));
    (1..WIDTH / 2).min_by_key(moved).unwrap_or(1)
}

/// Boxes behind each other whose lines along the focus crowd one part of the library's table of lines, so that the
/// search there gives up: the slow case of the check. It is so only where the map is not turned and not moved.
pub fn crowded(count: i32) -> Vec<Block> {
    let window = 2 * count as u64;
    let zero = slot(0, 0);
    let steps = [
        least_step(|step| slot(step, 0).wrapping_sub(zero) % SLOTS),
        least_step(|step| slot(0, step).wrapping_sub(zero) % SLOTS),
    ];
    let mut taken = HashSet::new();
    let mut found = Vec::new();
    let mut at = 0;
    for (first, second) in (0..=WIDTH - steps[0])
        .flat_map(|first| (0..=WIDTH - steps[1]).map(move |second| (first, second)))
    {
        let ends = [[first, first + steps[0]], [second, second + steps[1]]];
        let lines: Vec<[i32; 2]> = (0..4).map(|i| [ends[0][i >> 1], ends[1][i & 1]]).collect();
        let good = |l: &[i32; 2]| slot(l[0], l[1]) < window && !taken.contains(l);
        if found.len() as i32 == count {
            break;
        }
        if !lines.iter().all(good) {
            continue;
        }
        found.push([[at, at + 1], ends[0], ends[1]]);
        taken.extend(lines);
        at += 3;
    }
    found
}
