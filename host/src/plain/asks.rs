//! Ordinary Rust: the box, the cell query, the corner report and the plane query.

use super::check::verdict;
use super::{refusal, vertices, HIGH, LOW};

/// The map of a box.
#[inline(never)]
pub fn make_box(ends: [[i16; 2]; 3], result: &mut [i16]) -> u64 {
    if ends
        .iter()
        .any(|&[low, high]| low < LOW || high <= low || high > HIGH)
    {
        return refusal(9, 0, 0);
    }
    let Some(list) = result.first_chunk_mut::<24>() else {
        return refusal(6, 0, 0);
    };
    for (at, vertex) in list.chunks_exact_mut(3).enumerate() {
        vertex[0] = ends[0][at >> 2];
        vertex[1] = ends[1][at >> 1 & 1];
        vertex[2] = ends[2][at & 1];
    }
    8
}

/// Is the cell permitted?
#[inline(never)]
pub fn cell(list: &[i16], asked: [i16; 3]) -> u64 {
    let verdict = verdict(list, 1);
    if verdict != 0 || asked.iter().any(|n| !(LOW..HIGH).contains(n)) {
        return verdict;
    }
    let mut odd = false;
    for v in vertices(list) {
        if v[0] > asked[0] {
            break;
        }
        odd ^= (v[1] <= asked[1]) & (v[2] <= asked[2]);
    }
    odd.into()
}

/// The kinds of all masks.
const KINDS: [u8; 256] = kinds();

/// The kind of each mask, by counting half-edges.
const fn kinds() -> [u8; 256] {
    // For each half-edge the bits of its four cells, in the order of a walk round it.
    const ROUND: [[u8; 4]; 6] = [
        [0, 1, 3, 2],
        [4, 5, 7, 6],
        [0, 1, 5, 4],
        [2, 3, 7, 6],
        [0, 2, 6, 4],
        [1, 3, 7, 5],
    ];
    let mut table = [0; 256];
    let mut mask = 0;
    while mask < 256 {
        let (mut two, mut non, mut edge) = (0, 0, 0);
        while edge < 6 {
            let [a, b, c, d] = ROUND[edge];
            let (a, b, c, d) = (mask >> a & 1, mask >> b & 1, mask >> c & 1, mask >> d & 1);
            two += (a + b + c + d) % 2;
            non += (a == c && b == d && a != b) as usize;
            edge += 1;
        }
        table[mask] = match (two, non) {
            (3, 0) => 1,
            (4, 0) => 2,
            (3, 1) => 3,
            (2, 2) => 4,
            (4, 1) => 5,
            (6, 0) => 6,
            (3, 3) => 7,
            (0, 6) => 8,
            _ => 0,
        };
        mask += 1;
    }
    table
}

/// Those of the eight cells of a corner number that a vertex number is not above: all, the upper half or none.
fn reach(number: i16, corner: i16, upper: u8) -> u8 {
    match number.cmp(&corner) {
        std::cmp::Ordering::Less => 0xFF,
        std::cmp::Ordering::Equal => upper,
        std::cmp::Ordering::Greater => 0,
    }
}

/// The corner report.
#[inline(never)]
pub fn corner(list: &[i16], asked: [i16; 3]) -> u64 {
    let verdict = verdict(list, 1);
    if verdict != 0 || asked.iter().any(|n| !(LOW..=HIGH).contains(n)) {
        return verdict;
    }
    let mut mask = 0;
    for v in vertices(list) {
        if v[0] > asked[0] {
            break;
        }
        let shifts = reach(v[1], asked[1], 0xCC) & reach(v[2], asked[2], 0xAA);
        mask ^= reach(v[0], asked[0], 0xF0) & shifts;
    }
    let kind = KINDS[usize::from(mask)];
    u64::from(mask) | u64::from(mask.count_ones()) << 8 | u64::from(kind) << 16
}

/// The part of the list at a focus number.
#[inline(never)]
pub fn plane(list: &[i16], focus: i16) -> u64 {
    if verdict(list, 1) != 0 {
        return 0;
    }
    let all = vertices(list);
    let start = all.partition_point(|v| v[0] < focus);
    let length = all[start..].partition_point(|v| v[0] == focus);
    match length {
        0 => 0,
        _ => ((3 * start as u64) << 32) | (3 * length as u64),
    }
}
