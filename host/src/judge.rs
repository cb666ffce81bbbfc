//! What document 01 says of a list and of an answer: the refusals with their order and places, the packing of an
//! answer into 64 bits, and what is known of one list while questions are put to it.

use crate::map::{corners, Corner, Grid, AXES, HIGHEST, LOWEST, MOST_VERTICES};
use std::cell::OnceCell;

/// The numbers of an answer.
pub const DONE: u8 = 0;
pub const NOT_THREES: u8 = 1;
pub const TOO_MANY: u8 = 2;
pub const OUT_OF_RANGE: u8 = 3;
pub const NOT_RISING: u8 = 4;
pub const ODD_LINE: u8 = 5;
pub const NO_ROOM: u8 = 6;
pub const EMPTY: u8 = 7;
pub const BAD_OPERATION: u8 = 8;
pub const BAD_NUMBER: u8 = 9;
pub const ILL_FORMED: u8 = 10;
pub const WRONG_SUM: u8 = 11;
pub const TOO_LONG: u8 = 12;

/// An answer: its number, the operand, the place and the counts.
#[derive(Clone, Copy, Debug, Default, PartialEq, Eq)]
pub struct Answer {
    pub number: u8,
    pub operand: u8,
    pub place: u16,
    pub second: u16,
    pub count: u16,
}

impl Answer {
    /// A refusal that names neither operand nor place.
    pub fn refused(number: u8) -> Answer {
        Answer {
            number,
            ..Answer::default()
        }
    }

    /// The answer as 64 bits: number, operand, place, second count, count, from the top.
    pub fn packed(self) -> u64 {
        u64::from(self.number) << 56
            | u64::from(self.operand) << 48
            | u64::from(self.place) << 32
            | u64::from(self.second) << 16
            | u64::from(self.count)
    }
}

/// The refusal number of a packed answer.
pub fn number(packed: u64) -> u8 {
    (packed >> 56) as u8
}

/// The check: refusals 1 to 5, each over the whole list before the next. `operand` names the list.
pub fn check(list: &[i16], operand: u8) -> Answer {
    let at = |number, place: usize| Answer {
        number,
        operand,
        place: place as u16,
        ..Answer::default()
    };
    if !list.len().is_multiple_of(AXES) {
        return at(NOT_THREES, 0);
    }
    let vertices = corners(list);
    if vertices.len() > MOST_VERTICES {
        return at(TOO_MANY, 0);
    }
    let out = |v: &Corner| v.0.iter().any(|n| !(LOWEST..=HIGHEST).contains(n));
    if let Some(place) = vertices.iter().position(out) {
        return at(OUT_OF_RANGE, place);
    }
    if let Some(before) = vertices.windows(2).position(|w| w[1] <= w[0]) {
        return at(NOT_RISING, before + 1);
    }
    if let Some(place) = first_on_odd_line(&vertices) {
        return at(ODD_LINE, place);
    }
    Answer::default()
}

/// The first vertex that lies on an odd line of any axis.
fn first_on_odd_line(vertices: &[Corner]) -> Option<usize> {
    let firsts = [0, 1, 2].map(|axis| {
        let odd = odd_lines(vertices, axis);
        let on_odd = |v: &Corner| odd.binary_search(&line(v, axis)).is_ok();
        (!odd.is_empty()).then(|| vertices.iter().position(on_odd))?
    });
    firsts.into_iter().flatten().min()
}

/// The line of an axis that the vertex lies on: its two other numbers.
fn line(vertex: &Corner, axis: usize) -> [i32; 2] {
    let [x, y, z] = vertex.0;
    [[y, z], [x, z], [x, y]][axis]
}

/// The lines of an axis that hold an odd number of the vertices, rising.
fn odd_lines(vertices: &[Corner], axis: usize) -> Vec<[i32; 2]> {
    let mut lines: Vec<[i32; 2]> = vertices.iter().map(|v| line(v, axis)).collect();
    lines.sort_unstable();
    let runs = lines.chunk_by(|a, b| a == b);
    runs.filter(|run| run.len() % 2 == 1)
        .map(|run| run[0])
        .collect()
}

/// A list with what the judge knows of it.
pub struct Known {
    /// The list that is lent.
    pub list: Vec<i16>,
    kept: Vec<i16>,
    /// The check's answer.
    pub verdict: Answer,
    /// The vertices; none where the list is not valid.
    pub vertices: Vec<Corner>,
    grid: OnceCell<Grid>,
}

impl Known {
    /// Judges a list that is the only one of a call.
    pub fn new(list: Vec<i16>) -> Known {
        Known::operand(list, 1)
    }

    /// Judges the list that is this operand of a call. It has no spare room, so that a tool that watches memory sees a
    /// step beyond it.
    pub fn operand(mut list: Vec<i16>, operand: u8) -> Known {
        list.shrink_to_fit();
        let verdict = check(&list, operand);
        let vertices = match verdict.number {
            DONE => corners(&list),
            _ => Vec::new(),
        };
        Known {
            kept: list.clone(),
            list,
            verdict,
            vertices,
            grid: OnceCell::new(),
        }
    }

    /// Does the list that was lent still hold what it held?
    pub fn untouched(&self) -> bool {
        self.list == self.kept
    }

    /// The list as text.
    pub fn text(&self) -> String {
        let written = match self.untouched() {
            true => "",
            false => " (which was written to)",
        };
        format!("the list {:?}{written}", self.kept)
    }

    /// Is the list valid?
    pub fn valid(&self) -> bool {
        self.verdict.number == DONE
    }

    /// The grid of the list; it permits nothing where the list is not valid.
    pub fn grid(&self) -> &Grid {
        self.grid.get_or_init(|| Grid::of(&self.vertices))
    }
}

/// Does a list of so many numbers fit, with so many to an entry?
pub fn fits(numbers: usize, entry: usize, room: usize) -> bool {
    numbers <= room && numbers <= entry * MOST_VERTICES
}

/// Writes the list to the front of the result.
pub fn put(list: &[i16], result: &mut [i16]) {
    result[..list.len()].copy_from_slice(list);
}
