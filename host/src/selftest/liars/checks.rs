//! Wrong checks.

use crate::functions::check;
use crate::judge::number;
use crate::map::{corners, Corner};
use crate::selftest::Test;

/// The place of a packed answer.
const PLACE: u64 = 0xFFFF << 32;

/// A check that looks at the lines of only some axes: the vertices are moved so that the others are even.
fn check_without_axis(list: &[i16], axis: usize) -> u64 {
    let honest = check::judge(list);
    if number(honest) != 5 {
        return honest;
    }
    let vertices = corners(list);
    let same_line = |v: &Corner, w: &Corner, a| (0..3).all(|b| b == a || v.0[b] == w.0[b]);
    let odd = |v: &Corner| {
        let other_axes = (0..3).filter(|&a| a != axis);
        let mut counts = other_axes.map(|a| vertices.iter().filter(|w| same_line(v, w, a)).count());
        counts.any(|count| count % 2 == 1)
    };
    match vertices.iter().position(odd) {
        Some(place) => honest & !PLACE | (place as u64) << 32,
        None => 0,
    }
}

/// Faults of the check.
pub fn checks(test: &mut Test) {
    test.reports("refuses everything", |run| {
        check::compare(|_| 1 << 56 | 1 << 48, run)
    });
    test.reports("accepts everything", |run| check::compare(|_| 0, run));
    for axis in 0..3 {
        test.reports("lines of two axes only", |run| {
            check::compare(|list| check_without_axis(list, axis), run)
        });
    }
    test.reports("511 is the highest corner number", |run| {
        let call = |list: &[i16]| match check::judge(list) {
            answer if list.contains(&512) && matches!(number(answer), 0 | 4 | 5) => {
                let place = list.iter().position(|&n| n == 512).unwrap_or(0) / 3;
                3 << 56 | 1 << 48 | (place as u64) << 32
            }
            answer => answer,
        };
        check::compare(call, run)
    });
    test.reports("places from 1", |run| {
        let call = |list: &[i16]| match check::judge(list) {
            answer if number(answer) == 5 => answer + (1 << 32),
            answer => answer,
        };
        check::compare(call, run)
    });
    for (before, first) in [(3, 4), (4, 5), (1, 2)] {
        test.reports(&format!("{first} before {before}"), |run| {
            check::compare(|list| out_of_order(list, before, first), run)
        });
    }
    test.reports("1,025 vertices accepted", |run| {
        let call = |list: &[i16]| match list.len() {
            3075 => check::judge(&list[3..]),
            _ => check::judge(list),
        };
        check::compare(call, run)
    });
}

/// A check that finds refusal `first` before it finds `before`.
fn out_of_order(list: &[i16], before: u8, first: u8) -> u64 {
    let honest = check::judge(list);
    if number(honest) != before {
        return honest;
    }
    let vertices = corners(list);
    let falls = vertices.windows(2).position(|w| w[1] <= w[0]);
    match first {
        2 if list.len() > 3 * 1024 => 2 << 56 | 1 << 48,
        4 if falls.is_some() => 4 << 56 | 1 << 48 | (falls.unwrap_or(0) as u64 + 1) << 32,
        5 if vertices.len() % 2 == 1 => 5 << 56 | 1 << 48,
        _ => honest,
    }
}
