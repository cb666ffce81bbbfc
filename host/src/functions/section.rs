//! The section at a code of an axis.

use super::QUESTIONS;
use crate::cases::Case;
use crate::compare::{answers, Lent, Run};
use crate::judge::{fits, number, put, Answer, Known, BAD_NUMBER, NO_ROOM};
use crate::map::{HIGHEST_CODE, LOWEST, MOST_VERTICES};
use crate::rng::Rng;
use crate::table::Table;
use crate::{damage, make, plain};

/// The numbers that a section can answer.
pub const NUMBERS: &[u8] = &[0, 1, 2, 3, 4, 5, 6, 9];
/// Axes that are refused; some are good when they are cut short.
const BAD_AXES: [u32; 6] = [3, 4, 256, 257, 0x1_0002, 0x8000_0001];

/// An axis to ask: mostly a good one.
pub fn axis_asked(rng: &mut Rng) -> u32 {
    match rng.once_in(12) {
        true => rng.pick(&BAD_AXES),
        false => rng.below(3) as u32,
    }
}

/// The section's list, or the refusal of what is asked.
fn pairs(known: &Known, axis: u32, code: i16) -> Result<Vec<i16>, Answer> {
    if axis > 2 || !(LOWEST..=HIGHEST_CODE).contains(&code.into()) {
        return Err(Answer::refused(BAD_NUMBER));
    }
    if !known.valid() {
        return Err(known.verdict);
    }
    let pairs = known.grid().section(axis as usize, code.into());
    Ok(pairs.into_iter().flatten().map(|n| n as i16).collect())
}

/// The answer due, and the result.
pub fn judge(known: &Known, axis: u32, code: i16, result: &mut [i16]) -> u64 {
    match pairs(known, axis, code) {
        Err(refusal) => refusal.packed(),
        Ok(list) if !fits(list.len(), 2, result.len()) => Answer::refused(NO_ROOM).packed(),
        Ok(list) => {
            put(&list, result);
            Answer {
                count: (list.len() / 2) as u16,
                ..Answer::default()
            }
            .packed()
        }
    }
}

/// Compares a section with the judge's.
pub fn compare(call: impl Fn(&[i16], u32, i16, &mut [i16]) -> u64, run: &mut Run) {
    while run.goes_on() {
        let known = Known::new(damage::mostly_valid(&mut run.rng));
        for _ in 0..QUESTIONS {
            let axis = axis_asked(&mut run.rng);
            let code = make::asked(&mut run.rng, &known.vertices)[axis as usize % 3];
            let need = pairs(&known, axis, code).map_or(12, |list| list.len());
            let length = make::room(&mut run.rng, need);
            let mut due_result = Lent::new(&mut run.rng, length);
            let mut result = due_result.clone();
            let due = judge(&known, axis, code, due_result.slice());
            let given = call(&known.list, axis, code, result.slice());
            let same = given == due && result == due_result && known.untouched();
            run.count(number(due), same, || {
                format!(
                    "{}, {}, for axis {axis} code {code} of {}",
                    answers(due, given),
                    due_result.difference(&result),
                    known.text()
                )
            });
        }
    }
}

/// Times a section on each axis.
pub fn time(call: impl Fn(&[i16], u32, i16, &mut [i16]) -> u64, cases: &[Case], table: &mut Table) {
    for case in cases {
        for (axis, name) in ["section, axis 0", "section, axis 1", "section, axis 2"]
            .into_iter()
            .enumerate()
        {
            let code = |turn| case.asked(turn)[axis];
            let (mut one, mut other) = ([0; 2 * MOST_VERTICES], [0; 2 * MOST_VERTICES]);
            table.row(
                name,
                case,
                |turn| call(&case.list, axis as u32, code(turn), &mut one),
                |turn| plain::section(&case.list, axis as u32, code(turn), &mut other),
            );
        }
    }
}
