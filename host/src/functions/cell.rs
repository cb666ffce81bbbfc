//! Is a cell permitted?

use super::{compare_asked, time_asked};
use crate::cases::Case;
use crate::compare::Run;
use crate::judge::{number, Known};
use crate::map::{permits, Cell};
use crate::table::Table;
use crate::{damage, plain};

/// The numbers that the query can answer.
pub const NUMBERS: &[u8] = &[0, 1, 2, 3, 4, 5];

/// The answer due: the list's refusal, or 1 for yes and 0 for no.
pub fn judge(known: &Known, asked: [i16; 3]) -> u64 {
    match known.valid() {
        false => known.verdict.packed(),
        true => permits(&known.vertices, Cell(asked.map(i32::from))).into(),
    }
}

/// Compares a cell query with the judge's.
pub fn compare(call: impl Fn(&[i16], [i16; 3]) -> u64, run: &mut Run) {
    compare_asked(damage::mostly_valid, call, judge, number, run);
}

/// Times a cell query.
pub fn time(call: impl Fn(&[i16], [i16; 3]) -> u64, cases: &[Case], table: &mut Table) {
    time_asked("cell", call, plain::cell, cases, table);
}
