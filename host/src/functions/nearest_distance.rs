//! The distance from a wish to the nearest permitted cell.

use super::nearest::cell;
use super::{compare_asked, time_wishes};
use crate::cases::Case;
use crate::compare::Run;
use crate::judge::{number, Answer, Known};
use crate::map::distance;
use crate::table::Table;
use crate::{damage, plain};

/// The numbers that the distance can answer.
pub const NUMBERS: &[u8] = super::nearest::NUMBERS;

/// The answer due: number, operand and place, and the distance in the low 32 bits.
pub fn judge(known: &Known, wish: [i16; 3]) -> u64 {
    match cell(known, wish) {
        Ok(cell) => distance(wish.map(i32::from), cell).into(),
        Err(_) if !known.valid() => known.verdict.packed(),
        Err(number) => Answer::refused(number).packed(),
    }
}

/// Compares a distance with the judge's.
pub fn compare(call: impl Fn(&[i16], [i16; 3]) -> u64, run: &mut Run) {
    compare_asked(damage::mostly_valid, call, judge, number, run);
}

/// Times a distance.
pub fn time(call: impl Fn(&[i16], [i16; 3]) -> u64, cases: &[Case], table: &mut Table) {
    time_wishes("distance", call, plain::nearest_distance, cases, table);
}
