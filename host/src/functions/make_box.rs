//! The map of a box.

use crate::cases::Case;
use crate::compare::{answers, Lent, Run};
use crate::judge::{fits, number, put, Answer, BAD_NUMBER, NO_ROOM};
use crate::map::{list, Grid, Paint, HIGHEST, LOWEST};
use crate::rng::Rng;
use crate::table::Table;
use crate::{make, plain};

/// The numbers that a box can answer.
pub const NUMBERS: &[u8] = &[0, 6, 9];
/// The numbers of a box's list.
const BOX_NUMBERS: usize = 24;
/// Ends at and beyond the borders.
const ENDS: [i16; 12] = [
    -32768, -513, -512, -511, -1, 0, 1, 511, 512, 513, 514, 32767,
];

/// Are these the low and the high end of a box on one axis?
fn good_ends([low, high]: [i16; 2]) -> bool {
    i32::from(low) >= LOWEST && high > low && i32::from(high) <= HIGHEST
}

/// The answer due, and the result.
pub fn judge(ends: [[i16; 2]; 3], result: &mut [i16]) -> u64 {
    if !ends.iter().all(|&pair| good_ends(pair)) {
        return Answer::refused(BAD_NUMBER).packed();
    }
    let mut grid = Grid::empty(ends.map(|pair| pair.map(i32::from).to_vec()));
    grid.paint([1; 3], [2; 3], Paint::Permit);
    let numbers = list(&grid.list());
    if !fits(numbers.len(), 3, result.len()) {
        return Answer::refused(NO_ROOM).packed();
    }
    put(&numbers, result);
    Answer {
        count: 8,
        ..Answer::default()
    }
    .packed()
}

/// Two ends: good ones, or, where `bad` says so, any.
fn ends(rng: &mut Rng, bad: bool) -> [i16; 2] {
    match rng.below(if bad { 6 } else { 1 }) {
        1 => [rng.pick(&ENDS), rng.pick(&ENDS)],
        2 => [rng.bits() as i16, rng.bits() as i16],
        3 => [0; 2].map(|_| rng.between(-520, 520) as i16),
        4 => {
            let low = rng.between(LOWEST, HIGHEST) as i16;
            [low, low + rng.between(-1, 1) as i16]
        }
        _ => good_pair(rng),
    }
}

/// Good ends, now and then at the ends of the range.
fn good_pair(rng: &mut Rng) -> [i16; 2] {
    let low = match rng.below(4) {
        0 => LOWEST,
        1 => HIGHEST - 1,
        _ => rng.between(LOWEST, HIGHEST - 1),
    };
    let high = match rng.below(4) {
        0 => low + 1,
        1 => HIGHEST,
        _ => rng.between(low + 1, HIGHEST),
    };
    [low as i16, high as i16]
}

/// Compares a box with the judge's.
pub fn compare(call: impl Fn([[i16; 2]; 3], &mut [i16]) -> u64, run: &mut Run) {
    while run.goes_on() {
        let bad = run.rng.once_in(2);
        let ends = [0; 3].map(|_| ends(&mut run.rng, bad));
        let length = make::room(&mut run.rng, BOX_NUMBERS);
        let mut due_result = Lent::new(&mut run.rng, length);
        let mut result = due_result.clone();
        let due = judge(ends, due_result.slice());
        let given = call(ends, result.slice());
        let same = given == due && result == due_result;
        run.count(number(due), same, || {
            let difference = due_result.difference(&result);
            format!(
                "{}, {difference}, for the ends {ends:?}",
                answers(due, given)
            )
        });
    }
}

/// Times a box: one that is done, one that is refused.
pub fn time(call: impl Fn([[i16; 2]; 3], &mut [i16]) -> u64, _cases: &[Case], table: &mut Table) {
    let good = [[-512, 512], [-3, 4], [0, 1]];
    let bad = [[-512, 512], [-3, 4], [0, 513]];
    for (name, ends) in [("one box", good), ("one box, refused 9", bad)] {
        let (mut one, mut other) = ([0; BOX_NUMBERS], [0; BOX_NUMBERS]);
        table.row(
            "box",
            &Case::named(name, 8),
            |_| call(ends, &mut one),
            |_| plain::make_box(ends, &mut other),
        );
    }
}
