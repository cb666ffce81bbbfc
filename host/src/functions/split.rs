//! The two halves of a map at a corner number of an axis.

use super::section::axis_asked;
use crate::cases::Case;
use crate::compare::{answers, Lent, Run};
use crate::judge::{fits, number, put, Answer, Known, BAD_NUMBER, NO_ROOM};
use crate::map::{cuts_of, list, Grid, HIGHEST, LOWEST, MOST_VERTICES};
use crate::table::Table;
use crate::{damage, make, plain};

/// The numbers that a split can answer.
pub const NUMBERS: &[u8] = &[0, 1, 2, 3, 4, 5, 6, 9];
/// The splits that are asked of one list.
const SPLITS: usize = 3;

/// The lists of the two halves, or the refusal of what is asked.
fn halves(known: &Known, axis: u32, at: i16) -> Result<[Vec<i16>; 2], Answer> {
    if axis > 2 || !(LOWEST..=HIGHEST).contains(&at.into()) {
        return Err(Answer::refused(BAD_NUMBER));
    }
    if !known.valid() {
        return Err(known.verdict);
    }
    let axis = axis as usize;
    let mut cuts = cuts_of(&[&known.vertices]);
    if let Err(place) = cuts[axis].binary_search(&at.into()) {
        cuts[axis].insert(place, at.into());
    }
    let (low, high) = Grid::with_cuts(&known.vertices, cuts).split(axis, at.into());
    Ok([list(&low.list()), list(&high.list())])
}

/// The answer due, and the two results.
pub fn judge(known: &Known, axis: u32, at: i16, low: &mut [i16], high: &mut [i16]) -> u64 {
    let no_room = |operand| Answer {
        number: NO_ROOM,
        operand,
        ..Answer::default()
    };
    match halves(known, axis, at) {
        Err(refusal) => refusal.packed(),
        Ok([first, _]) if !fits(first.len(), 3, low.len()) => no_room(1).packed(),
        Ok([_, second]) if !fits(second.len(), 3, high.len()) => no_room(2).packed(),
        Ok([first, second]) => {
            put(&first, low);
            put(&second, high);
            Answer {
                count: (first.len() / 3) as u16,
                second: (second.len() / 3) as u16,
                ..Answer::default()
            }
            .packed()
        }
    }
}

/// Compares a split with the judge's.
pub fn compare(call: impl Fn(&[i16], u32, i16, &mut [i16], &mut [i16]) -> u64, run: &mut Run) {
    while run.goes_on() {
        let known = Known::new(damage::mostly_valid(&mut run.rng));
        for _ in 0..SPLITS {
            let axis = axis_asked(&mut run.rng);
            let at = make::asked(&mut run.rng, &known.vertices)[axis as usize % 3];
            let need = halves(&known, axis, at).map_or([12; 2], |h| h.map(|l| l.len()));
            let mut due_results = need.map(|n| {
                let length = make::room(&mut run.rng, n);
                Lent::new(&mut run.rng, length)
            });
            let mut results = due_results.clone();
            let [low, high] = &mut due_results;
            let due = judge(&known, axis, at, low.slice(), high.slice());
            let [low, high] = &mut results;
            let given = call(&known.list, axis, at, low.slice(), high.slice());
            let same = given == due && results == due_results && known.untouched();
            run.count(number(due), same, || {
                format!(
                    "{}, low {}, high {}, for axis {axis} at {at} of {}",
                    answers(due, given),
                    due_results[0].difference(&results[0]),
                    due_results[1].difference(&results[1]),
                    known.text()
                )
            });
        }
    }
}

/// Times a split on each axis.
pub fn time(
    call: impl Fn(&[i16], u32, i16, &mut [i16], &mut [i16]) -> u64,
    cases: &[Case],
    table: &mut Table,
) {
    const ROOM: usize = 3 * MOST_VERTICES;
    for case in cases {
        for (axis, name) in ["split, axis 0", "split, axis 1", "split, axis 2"]
            .into_iter()
            .enumerate()
        {
            let at = |turn| case.asked(turn)[axis];
            let (mut low, mut high) = ([0; ROOM], [0; ROOM]);
            let (mut low_too, mut high_too) = ([0; ROOM], [0; ROOM]);
            table.row(
                name,
                case,
                |turn| call(&case.list, axis as u32, at(turn), &mut low, &mut high),
                |turn| {
                    plain::split(
                        &case.list,
                        axis as u32,
                        at(turn),
                        &mut low_too,
                        &mut high_too,
                    )
                },
            );
        }
    }
}
