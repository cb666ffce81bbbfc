//! The check of a list.

use crate::cases::Case;
use crate::compare::{answers, Run};
use crate::judge::{number, Known};
use crate::table::Table;
use crate::{damage, plain};

/// The numbers that a check can answer.
pub const NUMBERS: &[u8] = &[0, 1, 2, 3, 4, 5];

/// The answer due: the first refusal, or 0.
pub fn judge(list: &[i16]) -> u64 {
    crate::judge::check(list, 1).packed()
}

/// Compares a check with the judge's.
pub fn compare(call: impl Fn(&[i16]) -> u64, run: &mut Run) {
    while run.goes_on() {
        let known = Known::new(damage::any_list(&mut run.rng));
        let due = known.verdict.packed();
        let given = call(&known.list);
        run.count(number(due), given == due && known.untouched(), || {
            format!("{} for {}", answers(due, given), known.text())
        });
    }
}

/// Times a check.
pub fn time(call: impl Fn(&[i16]) -> u64, cases: &[Case], table: &mut Table) {
    for case in cases {
        table.row(
            "check",
            case,
            |_| call(&case.list),
            |_| plain::check(&case.list),
        );
    }
}
