//! Ordinary Rust: the cells of a map as boxes of which no two overlap. Between two planes the section is always the same;
//! its squares are taken apart into rectangles in the same way, between two lines. What goes on unchanged from one slab to
//! the next is one box.

use super::cuts::either;
use super::rank::Ends;

/// What is there from one number up to another.
type Span<T> = (T, [i16; 2]);

/// How long each thing is there, where those that are there change at some numbers: at each of these, rising, stands what
/// is there from it on, in order, and at the last of them there is nothing left.
fn spans<T: Ord + Copy>(changes: impl Iterator<Item = (i16, Vec<T>)>) -> Vec<Span<T>> {
    let mut found = Vec::new();
    let mut open: Vec<(T, i16)> = Vec::new();
    for (number, things) in changes {
        let mut before = open.iter().peekable();
        let mut next = Vec::with_capacity(things.len());
        for thing in things {
            while let Some(ended) = before.next_if(|(other, _)| *other < thing) {
                found.push((ended.0, [ended.1, number]));
            }
            let same = before.next_if(|(other, _)| *other == thing);
            next.push((thing, same.map_or(number, |(_, from)| *from)));
        }
        found.extend(before.map(|(thing, from)| (*thing, [*from, number])));
        open = next;
    }
    found
}

/// The rectangles of a section, in order.
fn rectangles(section: &[[i16; 2]]) -> Vec<Span<[i16; 2]>> {
    let mut row: Vec<i16> = Vec::new();
    let lines = section.chunk_by(|a, b| a[0] == b[0]);
    let mut found = spans(lines.map(|line| {
        let numbers: Vec<i16> = line.iter().map(|pair| pair[1]).collect();
        row = either(&row, &numbers);
        (line[0][0], row.as_chunks().0.to_vec())
    }));
    found.sort_unstable();
    found
}

/// The boxes of a map.
pub fn boxes(all: &[[i16; 3]]) -> Vec<Ends> {
    let mut section: Vec<[i16; 2]> = Vec::new();
    let planes = all.chunk_by(|a, b| a[0] == b[0]);
    let found = spans(planes.map(|plane| {
        let pairs: Vec<[i16; 2]> = plane.iter().map(|v| [v[1], v[2]]).collect();
        section = either(&section, &pairs);
        (plane[0][0], rectangles(&section))
    }));
    found.into_iter().map(|((z, y), x)| [x, y, z]).collect()
}
