//! Ordinary Rust: the check, in one pass with parity bits; places are searched only on failure.

use super::{key, refusal, vertices, HIGH, LOW, MOST};
use std::cell::RefCell;

/// Numbers an axis.
const NUMBERS: usize = 1025;
/// Words of parity bits for the lines of the first axis.
const FIRST_WORDS: usize = (NUMBERS * NUMBERS).div_ceil(64);
/// Words of parity bits for the lines of the middle axis in one plane.
const MIDDLE_WORDS: usize = NUMBERS.div_ceil(64);

thread_local! {
    /// Parity bits for the first axis, all zero between calls.
    static FIRST: RefCell<Vec<u64>> = RefCell::new(vec![0; FIRST_WORDS]);
}

/// Checks a list.
#[inline(never)]
pub fn check(list: &[i16]) -> u64 {
    verdict(list, 1)
}

/// The refusal of a list that is this operand, or 0.
pub fn verdict(list: &[i16], operand: u64) -> u64 {
    if !list.len().is_multiple_of(3) {
        return refusal(1, operand, 0);
    }
    if list.len() > 3 * MOST {
        return refusal(2, operand, 0);
    }
    let good = |n: i16| (LOW..=HIGH).contains(&n);
    if !list.iter().fold(true, |all, &n| all & good(n)) {
        let place = vertices(list)
            .iter()
            .position(|v| !v.iter().all(|&n| good(n)));
        return refusal(3, operand, place.unwrap_or(0));
    }
    let all = vertices(list);
    if let Some(before) = all.windows(2).position(|w| key(w[0]) >= key(w[1])) {
        return refusal(4, operand, before + 1);
    }
    match FIRST.with_borrow_mut(|first| odd_place(all, first)) {
        Some(place) => refusal(5, operand, place),
        None => 0,
    }
}

/// The word and the bit of a line of the first axis.
fn first_bit(v: [i16; 3]) -> (usize, u64) {
    let [_, y, z] = v.map(|n| (i32::from(n) + 512) as usize);
    let at = y * NUMBERS + z;
    (at / 64, 1 << (at % 64))
}

/// The word and the bit of a line of the middle axis in its plane.
fn middle_bit(v: [i16; 3]) -> (usize, u64) {
    let z = (i32::from(v[2]) + 512) as usize;
    (z / 64, 1 << (z % 64))
}

/// The first vertex on an odd line, if there is one. Leaves `first` all zero.
fn odd_place(all: &[[i16; 3]], first: &mut [u64]) -> Option<usize> {
    let mut middle = [0u64; MIDDLE_WORDS];
    let (mut first_ones, mut middle_ones) = (0i32, 0i32);
    let mut good = all.len().is_multiple_of(2);
    let mut plane = LOW;
    for pair in all.chunks(2) {
        good &= pair[0][..2] == pair[pair.len() - 1][..2];
        if pair[0][0] != plane {
            good &= middle_ones == 0;
            plane = pair[0][0];
        }
        for &v in pair {
            let (word, bit) = first_bit(v);
            first[word] ^= bit;
            first_ones += if first[word] & bit != 0 { 1 } else { -1 };
            let (word, bit) = middle_bit(v);
            middle[word] ^= bit;
            middle_ones += if middle[word] & bit != 0 { 1 } else { -1 };
        }
    }
    if good && first_ones == 0 && middle_ones == 0 {
        return None;
    }
    let place = search(all, first);
    all.iter().for_each(|&v| first[first_bit(v).0] = 0);
    place
}

/// The first vertex on an odd line, where `first` has the parity of the lines of the first axis.
fn search(all: &[[i16; 3]], first: &[u64]) -> Option<usize> {
    let on_first = all.iter().position(|&v| {
        let (word, bit) = first_bit(v);
        first[word] & bit != 0
    });
    let places = [on_first, odd_middle(all), odd_last(all)];
    places.into_iter().flatten().min()
}

/// The first vertex on an odd line of the middle axis.
fn odd_middle(all: &[[i16; 3]]) -> Option<usize> {
    let mut start = 0;
    for plane in all.chunk_by(|a, b| a[0] == b[0]) {
        let mut middle = [0u64; MIDDLE_WORDS];
        for &v in plane {
            let (word, bit) = middle_bit(v);
            middle[word] ^= bit;
        }
        let odd = |&v: &[i16; 3]| middle[middle_bit(v).0] & middle_bit(v).1 != 0;
        if let Some(at) = plane.iter().position(odd) {
            return Some(start + at);
        }
        start += plane.len();
    }
    None
}

/// The first vertex on an odd line of the last axis.
fn odd_last(all: &[[i16; 3]]) -> Option<usize> {
    let mut start = 0;
    for line in all.chunk_by(|a, b| a[..2] == b[..2]) {
        if line.len() % 2 == 1 {
            return Some(start);
        }
        start += line.len();
    }
    None
}
