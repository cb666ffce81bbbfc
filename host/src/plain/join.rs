//! Ordinary Rust: the join by rows of bits, a sweep over the planes of both maps with sections as rows of bits. It is
//! timed beside the join by lists, which is the bar (docs/DECISIONS.md, 41).

use super::check::verdict;
use super::rows::{Axis, Part, Rows};
use super::{refusal, vertices, MOST};

/// The vertices put out so far.
struct Out {
    numbers: Vec<i16>,
    room: usize,
}

/// Joins two maps.
#[inline(never)]
pub fn join(operation: u32, one: &[i16], other: &[i16], result: &mut [i16]) -> u64 {
    joined(
        operation,
        one,
        other,
        result,
        |lists, room| match operation {
            1 => sweep(lists, room, |a, b| a | b),
            2 => sweep(lists, room, |a, b| a & b),
            3 => sweep(lists, room, |a, b| a & !b),
            _ => sweep(lists, room, |a, b| a ^ b),
        },
    )
}

/// Joins two maps by a sweep, which gives the numbers of the result where there is room for them.
pub fn joined(
    operation: u32,
    one: &[i16],
    other: &[i16],
    result: &mut [i16],
    sweep: impl Fn([&[[i16; 3]]; 2], usize) -> Option<Vec<i16>>,
) -> u64 {
    if !(1..=4).contains(&operation) {
        return refusal(8, 0, 0);
    }
    for (list, operand) in [(one, 1), (other, 2)] {
        let verdict = verdict(list, operand);
        if verdict != 0 {
            return verdict;
        }
    }
    match sweep([vertices(one), vertices(other)], result.len().min(3 * MOST)) {
        None => refusal(6, 0, 0),
        Some(numbers) => {
            result[..numbers.len()].copy_from_slice(&numbers);
            numbers.len() as u64 / 3
        }
    }
}

/// The numbers of the result, if there is room.
fn sweep(lists: [&[[i16; 3]]; 2], room: usize, op: impl Fn(u64, u64) -> u64) -> Option<Vec<i16>> {
    let (first, second) = (Axis::new(&lists, 1), Axis::new(&lists, 2));
    let mut sections = [Rows::new(&first, &second), Rows::new(&first, &second)];
    let mut joined = Rows::new(&first, &second);
    let words = joined.words;
    let mut out = Out {
        numbers: Vec::with_capacity(room.min(numbers_of(lists))),
        room,
    };
    let mut rest = lists;
    let mut before = vec![0; words];
    while let Some(x) = rest.iter().filter_map(|r| r.first()).map(|v| v[0]).min() {
        let mut changed: Option<Part> = None;
        for (section, rest) in sections.iter_mut().zip(&mut rest) {
            let length = rest.iter().take_while(|v| v[0] == x).count();
            if length > 0 {
                let (plane, behind) = rest.split_at(length);
                let part = section.flip(plane, &first, &second);
                changed = Some(match changed {
                    None => part,
                    Some(other) => other.and(part),
                });
                *rest = behind;
            }
        }
        let part = changed?;
        before[part.words.clone()].fill(0);
        for row in part.rows.clone() {
            let mut carry = 0;
            for word in part.words.clone() {
                let at = row * words + word;
                let now = op(sections[0].bits[at], sections[1].bits[at]);
                let change = now ^ joined.bits[at];
                joined.bits[at] = now;
                let edge = change ^ before[word];
                before[word] = change;
                if edge | carry != 0 {
                    let xy = [x, first.numbers[row]];
                    out.put(edge, &mut carry, xy, &second.numbers[word * 64..])?;
                }
            }
        }
        let mut carry = 0;
        for word in part.words {
            let xy = [x, first.numbers[part.rows.end]];
            out.put(before[word], &mut carry, xy, &second.numbers[word * 64..])?;
        }
    }
    Some(out.numbers)
}

/// How many numbers both lists have.
fn numbers_of(lists: [&[[i16; 3]]; 2]) -> usize {
    3 * (lists[0].len() + lists[1].len())
}

impl Out {
    /// Puts out a vertex for each change within a word of a row; nothing where there is no room.
    fn put(&mut self, edge: u64, carry: &mut u64, xy: [i16; 2], second: &[i16]) -> Option<()> {
        let mut ends = edge ^ (edge << 1 | *carry);
        *carry = edge >> 63;
        while ends != 0 {
            if self.numbers.len() + 3 > self.room {
                return None;
            }
            let z = second[ends.trailing_zeros() as usize];
            self.numbers.extend([xy[0], xy[1], z]);
            ends &= ends - 1;
        }
        Some(())
    }
}
