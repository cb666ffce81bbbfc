//! Ordinary Rust: the join by lists, the bar for the library's join (docs/DECISIONS.md, 41). It is the report's sweep
//! (section 4): the section of each map is a rising list of keys, each plane is merged into it, the two sections are
//! joined line by line in the same way one dimension lower, and what is put out is the exclusive or of neighbouring
//! sections of the result. Beside it stands the report's loop read word for word, which is wrong: the self-test must
//! see it reported.

use super::join::joined;
use super::LOW;

/// The numbers of a pair in one number that keeps the order: the second shift has so many bits.
const BITS: u32 = 11;
/// The bits of the second shift.
const SECOND: u32 = (1 << BITS) - 1;

/// Joins two maps.
#[inline(never)]
pub fn join_by_lists(operation: u32, one: &[i16], other: &[i16], result: &mut [i16]) -> u64 {
    by_planes::<true>(operation, one, other, result)
}

/// Joins two maps as the report's loop does if it is read word for word: where both maps have a plane at the same
/// focus number, two planes are put out. This is wrong.
pub fn join_word_for_word(operation: u32, one: &[i16], other: &[i16], result: &mut [i16]) -> u64 {
    by_planes::<false>(operation, one, other, result)
}

/// Joins two maps; planes at the same focus number are taken together, or one after the other.
fn by_planes<const TOGETHER: bool>(
    operation: u32,
    one: &[i16],
    other: &[i16],
    result: &mut [i16],
) -> u64 {
    joined(
        operation,
        one,
        other,
        result,
        |lists, room| match operation {
            1 => sweep::<TOGETHER>(lists, room, |a, b| a | b),
            2 => sweep::<TOGETHER>(lists, room, |a, b| a & b),
            3 => sweep::<TOGETHER>(lists, room, |a, b| a & !b),
            _ => sweep::<TOGETHER>(lists, room, |a, b| a ^ b),
        },
    )
}

/// The key of a vertex in its plane.
fn pair(v: &[i16; 3]) -> u32 {
    let [y, z] = [v[1], v[2]].map(|n| (i32::from(n) + 512) as u32);
    y << BITS | z
}

/// The numbers of the result, if there is room.
fn sweep<const TOGETHER: bool>(
    lists: [&[[i16; 3]]; 2],
    room: usize,
    op: impl Fn(bool, bool) -> bool,
) -> Option<Vec<i16>> {
    let mut rest = lists;
    let mut sections = [Vec::new(), Vec::new()];
    let (mut plane, mut merged) = (Vec::new(), Vec::new());
    let (mut before, mut now) = (Vec::new(), Vec::new());
    let mut lines = Lines::default();
    let mut out = Vec::with_capacity(room.min(3 * (lists[0].len() + lists[1].len())));
    while let Some(x) = rest.iter().filter_map(|r| r.first()).map(|v| v[0]).min() {
        for (section, rest) in sections.iter_mut().zip(&mut rest) {
            let length = rest.iter().take_while(|v| v[0] == x).count();
            if length == 0 {
                continue;
            }
            plane.clear();
            plane.extend(rest[..length].iter().map(pair));
            *rest = &rest[length..];
            merged.clear();
            either(section, &plane, |key| merged.push(key));
            std::mem::swap(section, &mut merged);
            if !TOGETHER {
                break;
            }
        }
        now.clear();
        lines.join(&sections, &op, &mut now);
        either(&before, &now, |key| {
            if out.len() <= room {
                out.extend([x, (key >> BITS) as i16 + LOW, (key & SECOND) as i16 + LOW]);
            }
        });
        if out.len() > room {
            return None;
        }
        std::mem::swap(&mut before, &mut now);
    }
    Some(out)
}

/// The lists that the join of two sections works with.
#[derive(Default)]
struct Lines {
    sections: [Vec<u32>; 2],
    line: Vec<u32>,
    merged: Vec<u32>,
    before: Vec<u32>,
    now: Vec<u32>,
}

impl Lines {
    /// Joins two sections, line by line.
    fn join(
        &mut self,
        planes: &[Vec<u32>; 2],
        op: impl Fn(bool, bool) -> bool,
        out: &mut Vec<u32>,
    ) {
        let mut rest = [&planes[0][..], &planes[1][..]];
        self.sections.iter_mut().for_each(Vec::clear);
        self.before.clear();
        while let Some(y) = rest
            .iter()
            .filter_map(|r| r.first())
            .map(|k| k >> BITS)
            .min()
        {
            for (section, rest) in self.sections.iter_mut().zip(&mut rest) {
                let length = rest.iter().take_while(|&&key| key >> BITS == y).count();
                if length == 0 {
                    continue;
                }
                self.line.clear();
                self.line
                    .extend(rest[..length].iter().map(|key| key & SECOND));
                *rest = &rest[length..];
                self.merged.clear();
                either(section, &self.line, |z| self.merged.push(z));
                std::mem::swap(section, &mut self.merged);
            }
            self.now.clear();
            stretches(&self.sections, &op, &mut self.now);
            either(&self.before, &self.now, |z| out.push(y << BITS | z));
            std::mem::swap(&mut self.before, &mut self.now);
        }
    }
}

/// Joins two lists of the ends of stretches.
fn stretches([one, other]: &[Vec<u32>; 2], op: impl Fn(bool, bool) -> bool, out: &mut Vec<u32>) {
    let (mut i, mut j) = (0, 0);
    let mut was = false;
    while i < one.len() || j < other.len() {
        let [a, b] = [one.get(i), other.get(j)].map(|z| z.copied().unwrap_or(u32::MAX));
        i += usize::from(a <= b);
        j += usize::from(b <= a);
        let is = op(i % 2 == 1, j % 2 == 1);
        if is != was {
            out.push(a.min(b));
        }
        was = is;
    }
}

/// Tells what stands in one of two rising lists, but not in both, rising.
fn either(one: &[u32], other: &[u32], mut tell: impl FnMut(u32)) {
    let (mut i, mut j) = (0, 0);
    while i < one.len() && j < other.len() {
        let (a, b) = (one[i], other[j]);
        if a != b {
            tell(a.min(b));
        }
        i += usize::from(a <= b);
        j += usize::from(b <= a);
    }
    one[i..]
        .iter()
        .chain(&other[j..])
        .for_each(|&key| tell(key));
}
