//! The nearest permitted cell to a wish.

use super::{compare_asked, time_wishes};
use crate::cases::Case;
use crate::compare::Run;
use crate::judge::{number, Answer, Known, EMPTY};
use crate::map::Cell;
use crate::table::Table;
use crate::{damage, plain};

/// The numbers that nearest can answer.
pub const NUMBERS: &[u8] = &[0, 1, 2, 3, 4, 5, 7];

/// The nearest cell, or the refusal's number.
pub fn cell(known: &Known, wish: [i16; 3]) -> Result<Cell, u8> {
    if !known.valid() {
        return Err(known.verdict.number);
    }
    known.grid().nearest(wish.map(i32::from)).ok_or(EMPTY)
}

/// The answer due: the three codes, focus highest; or number, operand and place.
pub fn judge(known: &Known, wish: [i16; 3]) -> u64 {
    match cell(known, wish) {
        Ok(cell) => {
            let [x, y, z] = cell.0.map(|code| u64::from(code as i16 as u16));
            x << 32 | y << 16 | z
        }
        Err(_) if !known.valid() => known.verdict.packed(),
        Err(number) => Answer::refused(number).packed(),
    }
}

/// Compares nearest with the judge's.
pub fn compare(call: impl Fn(&[i16], [i16; 3]) -> u64, run: &mut Run) {
    compare_asked(damage::mostly_valid, call, judge, number, run);
}

/// Times nearest.
pub fn time(call: impl Fn(&[i16], [i16; 3]) -> u64, cases: &[Case], table: &mut Table) {
    time_wishes("nearest", call, plain::nearest, cases, table);
}
