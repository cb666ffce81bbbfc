//! Two maps joined.

use crate::cases::Case;
use crate::compare::{answers, Lent, Run};
use crate::judge::{fits, number, put, Answer, Known, BAD_OPERATION, DONE, NO_ROOM};
use crate::map::{cuts_of, list, Grid, MOST_VERTICES};
use crate::table::Table;
use crate::{damage, make, plain};

/// The numbers that a join can answer.
pub const NUMBERS: &[u8] = &[0, 1, 2, 3, 4, 5, 6, 8];
/// Operations to ask: good ones, and some that are good only when they are cut short.
const OPERATIONS: [u32; 20] = [
    1,
    2,
    3,
    4,
    1,
    2,
    3,
    4,
    1,
    2,
    3,
    4,
    1,
    2,
    3,
    4,
    0,
    5,
    257,
    0xFFFF_FFFF,
];
/// The joins that are asked of one pair of maps.
const JOINS: usize = 4;

/// Does the operation hold of the two memberships?
fn holds(operation: u32, one: bool, other: bool) -> bool {
    match operation {
        1 => one || other,
        2 => one && other,
        3 => one && !other,
        _ => one != other,
    }
}

/// The list of the result, or the refusal of what is asked.
fn joined(operation: u32, one: &Known, other: &Known) -> Result<Vec<i16>, Answer> {
    if !(1..=4).contains(&operation) {
        return Err(Answer::refused(BAD_OPERATION));
    }
    if !one.valid() {
        return Err(one.verdict);
    }
    if !other.valid() {
        return Err(other.verdict);
    }
    let cuts = cuts_of(&[&one.vertices, &other.vertices]);
    let first = Grid::with_cuts(&one.vertices, cuts.clone());
    let second = Grid::with_cuts(&other.vertices, cuts);
    let result = first.join(&second, |a, b| holds(operation, a, b));
    Ok(list(&result.list()))
}

/// The answer due, and the result.
pub fn judge(operation: u32, one: &Known, other: &Known, result: &mut [i16]) -> u64 {
    answer(&joined(operation, one, other), result)
}

/// The answer to what was joined, written to the result where it fits.
fn answer(joined: &Result<Vec<i16>, Answer>, result: &mut [i16]) -> u64 {
    match joined {
        Err(refusal) => refusal.packed(),
        Ok(list) if !fits(list.len(), 3, result.len()) => Answer::refused(NO_ROOM).packed(),
        Ok(list) => {
            put(list, result);
            Answer {
                count: (list.len() / 3) as u16,
                ..Answer::default()
            }
            .packed()
        }
    }
}

/// Compares a join with the judge's.
pub fn compare(call: impl Fn(u32, &[i16], &[i16], &mut [i16]) -> u64, run: &mut Run) {
    while run.goes_on() {
        let [one, other] = make::pair(&mut run.rng);
        let one = Known::operand(damage::maybe_damaged(&mut run.rng, one), 1);
        let other = Known::operand(damage::maybe_damaged(&mut run.rng, other), 2);
        for _ in 0..JOINS {
            let operation = run.rng.pick(&OPERATIONS);
            let joined = joined(operation, &one, &other);
            let need = joined.as_ref().map_or(24, |list| list.len());
            let length = make::room(&mut run.rng, need);
            let mut due_result = Lent::new(&mut run.rng, length);
            let mut result = due_result.clone();
            let due = answer(&joined, due_result.slice());
            let given = call(operation, &one.list, &other.list, result.slice());
            let untouched = one.untouched() && other.untouched();
            let same = given == due && result == due_result && untouched;
            run.count(number(due), same, || {
                format!(
                    "{}, {}, for operation {operation} of {} and {}",
                    answers(due, given),
                    due_result.difference(&result),
                    one.text(),
                    other.text()
                )
            });
        }
    }
}

/// The list of a set of cells of a block of two by two by two, one bit a cell.
fn list_of_cells(cells: u8) -> Vec<i16> {
    let mut grid = Grid::empty([0; 3].map(|_| vec![-1, 0, 1]));
    grid.fill(|[i, j, k]| cells >> (4 * (i - 1) + 2 * (j - 1) + (k - 1)) & 1 == 1);
    list(&grid.list())
}

/// Does an operation on two sets of cells, one bit a cell.
fn cells_joined(operation: u32, one: u8, other: u8) -> u8 {
    let bits = (0..8).filter(|bit| holds(operation, one >> bit & 1 == 1, other >> bit & 1 == 1));
    bits.map(|bit| 1 << bit).sum()
}

/// Compares every join of two sets of cells of a block of two by two by two, in results that just fit.
pub fn compare_every(call: impl Fn(u32, &[i16], &[i16], &mut [i16]) -> u64, run: &mut Run) {
    let lists: Vec<Vec<i16>> = (0..=255).map(list_of_cells).collect();
    let kept = lists.clone();
    for (one, other) in (0..=255).flat_map(|one| (0..=255).map(move |other| (one, other))) {
        for operation in 1..=4 {
            let due_list = &lists[usize::from(cells_joined(operation, one, other))];
            let mut due_result = Lent::new(&mut run.rng, due_list.len());
            let mut result = due_result.clone();
            put(due_list, due_result.slice());
            let due = due_list.len() as u64 / 3;
            let [a, b] = [one, other].map(|cells| &lists[usize::from(cells)]);
            let given = call(operation, a, b, result.slice());
            run.count(number(due), given == due && result == due_result, || {
                format!(
                    "{}, {}, for operation {operation} of {a:?} and {b:?}",
                    answers(due, given),
                    due_result.difference(&result)
                )
            });
        }
    }
    if lists != kept {
        run.count(DONE, false, || {
            "a list was written to, for some operation".into()
        });
    }
}

/// Times each operation on each pair of maps.
pub fn time(
    call: impl Fn(u32, &[i16], &[i16], &mut [i16]) -> u64,
    cases: &[Case],
    table: &mut Table,
) {
    const ROOM: usize = 3 * MOST_VERTICES;
    for case in cases {
        for (operation, name) in [
            (1, "union"),
            (2, "overlap"),
            (3, "without"),
            (4, "exclusive or"),
        ] {
            let (one, other) = (&case.list, &case.other);
            let [mut ours, mut lists, mut rows] = [[0; ROOM]; 3];
            let answer = plain::join(operation, one, other, &mut rows);
            let result = match number(answer) {
                DONE => answer.to_string(),
                refused => format!("refused {refused}"),
            };
            table.join_row(
                name,
                case,
                &result,
                |_| call(operation, one, other, &mut ours),
                |_| plain::join_by_lists(operation, one, other, &mut lists),
                |_| plain::join(operation, one, other, &mut rows),
            );
        }
    }
}
