//! Ordinary Rust: section and split, the numbers that occur an odd number of times after sorting.

use super::check::verdict;
use super::{key, refusal, unkey, vertices, HIGH, LOW};

/// Sorts the keys and keeps, once, those that occur an odd number of times.
fn cancel<T: Ord + Copy>(keys: &mut Vec<T>) {
    keys.sort_unstable();
    let mut kept = 0;
    for at in 0..keys.len() {
        if kept > 0 && keys[kept - 1] == keys[at] {
            kept -= 1;
        } else {
            keys[kept] = keys[at];
            kept += 1;
        }
    }
    keys.truncate(kept);
}

/// The section at a code of an axis.
#[inline(never)]
pub fn section(list: &[i16], axis: u32, code: i16, result: &mut [i16]) -> u64 {
    if axis > 2 || !(LOW..HIGH).contains(&code) {
        return refusal(9, 0, 0);
    }
    let verdict = verdict(list, 1);
    if verdict != 0 {
        return verdict;
    }
    let [one, other] = [[1, 2], [0, 2], [0, 1]][axis as usize];
    let mut pairs: Vec<u32> = Vec::with_capacity(list.len() / 3);
    for v in vertices(list) {
        if v[axis as usize] <= code {
            let [p, q] = [v[one], v[other]].map(|n| (i32::from(n) + 512) as u32);
            pairs.push(p << 16 | q);
        } else if axis == 0 {
            break;
        }
    }
    cancel(&mut pairs);
    if 2 * pairs.len() > result.len() {
        return refusal(6, 0, 0);
    }
    for (to, pair) in result.chunks_exact_mut(2).zip(&pairs) {
        to[0] = (pair >> 16) as i16 + LOW;
        to[1] = (pair & 0xFFFF) as i16 + LOW;
    }
    pairs.len() as u64
}

/// What stands in one of two rising lists, but not in both.
pub fn either<T: Ord + Copy>(one: &[T], other: &[T]) -> Vec<T> {
    let mut found = Vec::with_capacity(one.len());
    let (mut i, mut j) = (0, 0);
    while i < one.len() && j < other.len() {
        match one[i].cmp(&other[j]) {
            std::cmp::Ordering::Less => {
                found.push(one[i]);
                i += 1;
            }
            std::cmp::Ordering::Greater => {
                found.push(other[j]);
                j += 1;
            }
            std::cmp::Ordering::Equal => {
                i += 1;
                j += 1;
            }
        }
    }
    found.extend_from_slice(&one[i..]);
    found.extend_from_slice(&other[j..]);
    found
}

/// Writes the vertices of the keys to the front of the result.
fn write(keys: &[u64], result: &mut [i16]) {
    for (to, &key) in result.as_chunks_mut::<3>().0.iter_mut().zip(keys) {
        *to = unkey(key);
    }
}

/// The two halves at a corner number of an axis.
#[inline(never)]
pub fn split(list: &[i16], axis: u32, at: i16, low: &mut [i16], high: &mut [i16]) -> u64 {
    if axis > 2 || !(LOW..=HIGH).contains(&at) {
        return refusal(9, 0, 0);
    }
    let verdict = verdict(list, 1);
    if verdict != 0 {
        return verdict;
    }
    let mut whole = Vec::with_capacity(list.len() / 3);
    let mut upper = Vec::with_capacity(list.len() / 3);
    for &v in vertices(list) {
        let mut raised = v;
        raised[axis as usize] = v[axis as usize].max(at);
        whole.push(key(v));
        upper.push(key(raised));
    }
    cancel(&mut upper);
    let lower = either(&whole, &upper);
    if 3 * lower.len() > low.len() {
        return refusal(6, 1, 0);
    }
    if 3 * upper.len() > high.len() {
        return refusal(6, 2, 0);
    }
    write(&lower, low);
    write(&upper, high);
    (upper.len() as u64) << 16 | lower.len() as u64
}
