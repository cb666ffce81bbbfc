//! The corner report: the mask of the eight cells, how many are permitted, and the kind.

use super::{compare_asked, time_asked};
use crate::cases::Case;
use crate::compare::Run;
use crate::judge::{number, Known};
use crate::map::{permits, Cell};
use crate::table::Table;
use crate::{make, plain};

/// The numbers that the report can answer.
pub const NUMBERS: &[u8] = &[0, 1, 2, 3, 4, 5];

/// The mask of the cells round a corner: bit 4i+2j+k has the corner's numbers, less 1 where i, j or k is 0.
fn mask(known: &Known, corner: [i16; 3]) -> u8 {
    let permitted = |bit: &u8| {
        let less = [bit >> 2 & 1, bit >> 1 & 1, bit & 1].map(|b| 1 - i32::from(b));
        let codes = [0, 1, 2].map(|axis| i32::from(corner[axis]) - less[axis]);
        permits(&known.vertices, Cell(codes))
    };
    (0..8).filter(permitted).map(|bit| 1 << bit).sum()
}

/// The kind of a mask, by counting the edges that meet at the corner.
pub fn kind(mask: u8) -> u8 {
    let (mut two_manifold, mut non_manifold) = (0, 0);
    for axis in 0..3 {
        for side in [0, 1] {
            match cells_round(mask, axis, side) {
                [true, false, true, false] | [false, true, false, true] => non_manifold += 1,
                four if four.iter().filter(|&&c| c).count() % 2 == 1 => two_manifold += 1,
                _ => {}
            }
        }
    }
    match (two_manifold, non_manifold) {
        (0, 0) | (2, 0) | (0, 2) => 0,
        (3, 0) => 1,
        (4, 0) => 2,
        (3, 1) => 3,
        (2, 2) => 4,
        (4, 1) => 5,
        (6, 0) => 6,
        (3, 3) => 7,
        (0, 6) => 8,
        other => unreachable!("no kind has the edges {other:?}"),
    }
}

/// The four cells round the half-edge to one side of an axis, in the order of a walk round it.
fn cells_round(mask: u8, axis: usize, side: u8) -> [bool; 4] {
    [[0, 0], [0, 1], [1, 1], [1, 0]].map(|[p, q]| {
        let [i, j, k] = [[side, p, q], [p, side, q], [p, q, side]][axis];
        mask >> (4 * i + 2 * j + k) & 1 == 1
    })
}

/// The answer due: the list's refusal, or mask, how many and kind from the lowest bits up.
pub fn judge(known: &Known, asked: [i16; 3]) -> u64 {
    if !known.valid() {
        return known.verdict.packed();
    }
    let mask = mask(known, asked);
    u64::from(mask) | u64::from(mask.count_ones()) << 8 | u64::from(kind(mask)) << 16
}

/// Compares a corner report with the judge's.
pub fn compare(call: impl Fn(&[i16], [i16; 3]) -> u64, run: &mut Run) {
    compare_asked(make::many_corners, call, judge, number, run);
}

/// Times a corner report.
pub fn time(call: impl Fn(&[i16], [i16; 3]) -> u64, cases: &[Case], table: &mut Table) {
    time_asked("corner", call, plain::corner, cases, table);
}
