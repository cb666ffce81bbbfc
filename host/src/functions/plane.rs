//! The plane of vertices at a focus number, as a part of the list.

use super::QUESTIONS;
use crate::cases::Case;
use crate::compare::Run;
use crate::judge::Known;
use crate::table::Table;
use crate::{damage, make, plain};

/// The plane query answers with its part alone.
pub const NUMBERS: &[u8] = &[0, 1, 2, 3, 4, 5];

/// The answer due: start and length of the part, in numbers; 0 where it is empty or the list is not valid.
pub fn judge(known: &Known, focus: i16) -> u64 {
    let at_focus = |v: &crate::map::Corner| v.0[0] == i32::from(focus);
    match known.vertices.iter().position(at_focus) {
        None => 0,
        Some(start) => {
            let count = known.vertices.iter().filter(|v| at_focus(v)).count();
            ((3 * start as u64) << 32) | (3 * count as u64)
        }
    }
}

/// Compares a plane query with the judge's; the numbers that are counted are those of the check.
pub fn compare(call: impl Fn(&[i16], i16) -> u64, run: &mut Run) {
    while run.goes_on() {
        let known = Known::new(damage::mostly_valid(&mut run.rng));
        for _ in 0..QUESTIONS {
            let [focus, _, _] = make::asked(&mut run.rng, &known.vertices);
            let due = judge(&known, focus);
            let given = call(&known.list, focus);
            let same = given == due && known.untouched();
            run.count(known.verdict.number, same, || {
                let list = known.text();
                format!("should be {due:#x} and is {given:#x} for focus {focus} of {list}")
            });
        }
    }
}

/// Times a plane query.
pub fn time(call: impl Fn(&[i16], i16) -> u64, cases: &[Case], table: &mut Table) {
    for case in cases {
        table.row(
            "plane",
            case,
            |turn| call(&case.list, case.asked(turn)[0]),
            |turn| plain::plane(&case.list, case.asked(turn)[0]),
        );
    }
}
