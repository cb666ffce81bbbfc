//! Ordinary Rust: the section of a map as rows of bits, for join. There is a row for each stretch of the
//! first shift, and a bit for each stretch of the second. A plane of vertices flips part of it.

use std::ops::Range;

/// Words for one bit a corner number.
const WORDS: usize = 1025usize.div_ceil(64);

/// The numbers that occur on one axis, with the rank of each.
pub struct Axis {
    bits: [u64; WORDS],
    before: [u16; WORDS],
    /// The numbers, rising.
    pub numbers: Vec<i16>,
}

impl Axis {
    /// The numbers of some lists on an axis.
    pub fn new(lists: &[&[[i16; 3]]], axis: usize) -> Axis {
        let mut bits = [0u64; WORDS];
        for v in lists.iter().copied().flatten() {
            let at = (i32::from(v[axis]) + 512) as usize;
            bits[at / 64] |= 1 << (at % 64);
        }
        let mut before = [0; WORDS];
        let mut numbers = Vec::new();
        for (word, &set) in bits.iter().enumerate() {
            before[word] = numbers.len() as u16;
            let mut left = set;
            while left != 0 {
                numbers.push((word * 64) as i16 + left.trailing_zeros() as i16 - 512);
                left &= left - 1;
            }
        }
        Axis {
            bits,
            before,
            numbers,
        }
    }

    /// The rank of a number that occurs.
    pub fn rank(&self, number: i16) -> usize {
        let at = (i32::from(number) + 512) as usize;
        let below = self.bits[at / 64] & ((1 << (at % 64)) - 1);
        usize::from(self.before[at / 64]) + below.count_ones() as usize
    }
}

/// A section.
#[derive(Clone)]
pub struct Rows {
    /// Words a row.
    pub words: usize,
    /// The rows, one behind the other.
    pub bits: Vec<u64>,
    flip: Vec<u64>,
}

impl Rows {
    /// An empty section for these numbers.
    pub fn new(first: &Axis, second: &Axis) -> Rows {
        let words = second.numbers.len().div_ceil(64);
        Rows {
            words,
            bits: vec![0; words * first.numbers.len()],
            flip: vec![0; words],
        }
    }

    /// Flips what a plane of vertices flips; says where that is.
    pub fn flip(&mut self, plane: &[[i16; 3]], first: &Axis, second: &Axis) -> Part {
        let from = first.rank(plane[0][1]);
        let mut row = from;
        let words = Part::words(plane, second);
        for line in plane.chunk_by(|a, b| a[1] == b[1]) {
            let next = first.rank(line[0][1]);
            let flip = &self.flip[words.clone()];
            for cells in self.bits[row * self.words..next * self.words].chunks_exact_mut(self.words)
            {
                let cells = &mut cells[words.clone()];
                cells.iter_mut().zip(flip).for_each(|(c, f)| *c ^= f);
            }
            row = next;
            for ends in line.chunks_exact(2) {
                flip_stretch(
                    &mut self.flip,
                    second.rank(ends[0][2]),
                    second.rank(ends[1][2]),
                );
            }
        }
        Part {
            rows: from..row,
            words,
        }
    }
}

/// A part of a section: some rows, and some words of each.
pub struct Part {
    pub rows: Range<usize>,
    pub words: Range<usize>,
}

impl Part {
    /// The words that a plane of vertices names.
    fn words(plane: &[[i16; 3]], second: &Axis) -> Range<usize> {
        let (low, high) = plane.iter().fold((i16::MAX, i16::MIN), |(low, high), v| {
            (low.min(v[2]), high.max(v[2]))
        });
        second.rank(low) / 64..second.rank(high) / 64 + 1
    }

    /// The least part that holds both.
    pub fn and(self, other: Part) -> Part {
        let hull = |a: Range<usize>, b: Range<usize>| a.start.min(b.start)..a.end.max(b.end);
        Part {
            rows: hull(self.rows, other.rows),
            words: hull(self.words, other.words),
        }
    }
}

/// Flips the bits from `from` to before `to`.
fn flip_stretch(row: &mut [u64], from: usize, to: usize) {
    let (first, last) = (from / 64, to / 64);
    let head = !0 << (from % 64);
    let tail = (1 << (to % 64)) - 1;
    if first == last {
        row[first] ^= head & tail;
    } else {
        row[first] ^= head;
        row[first + 1..last].iter_mut().for_each(|word| *word ^= !0);
        row[last] ^= tail;
    }
}
