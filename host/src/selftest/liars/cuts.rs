//! Wrong sections, splits and joins.

use super::{honest_join, known};
use crate::functions::{join, section, split};
use crate::judge::{number, Known};
use crate::plain;
use crate::selftest::Test;
use std::cell::Cell as Counter;

/// Faults of section and split.
pub fn cuts(test: &mut Test) {
    test.reports("section, of the code above", |run| {
        let call = |list: &[i16], axis, code: i16, result: &mut [i16]| {
            section::judge(&known(list), axis, code.saturating_add(1), result)
        };
        section::compare(call, run)
    });
    test.reports("section, axis cut to eight bits", |run| {
        let call = |list: &[i16], axis, code, result: &mut [i16]| {
            section::judge(&known(list), axis & 255, code, result)
        };
        section::compare(call, run)
    });
    test.reports("section, one number of room too many asked", |run| {
        let call = |list: &[i16], axis, code, result: &mut [i16]| {
            let short = result.len().saturating_sub(1);
            section::judge(&known(list), axis, code, &mut result[..short])
        };
        section::compare(call, run)
    });
    test.reports("split, one above", |run| {
        let call = |list: &[i16], axis, at: i16, low: &mut [i16], high: &mut [i16]| {
            split::judge(&known(list), axis, at.saturating_add(1), low, high)
        };
        split::compare(call, run)
    });
    test.reports("split, no room is always the first half's", |run| {
        let call = |list: &[i16], axis, at, low: &mut [i16], high: &mut [i16]| match split::judge(
            &known(list),
            axis,
            at,
            low,
            high,
        ) {
            answer if number(answer) == 6 => 6 << 56 | 1 << 48,
            answer => answer,
        };
        split::compare(call, run)
    });
}

/// Faults of the join.
pub fn joins(test: &mut Test) {
    for (asked, done) in [(1, 4), (2, 3), (3, 4), (4, 1)] {
        test.reports(&format!("join, {asked} done as {done}"), |run| {
            let call = |operation, one: &[i16], other: &[i16], result: &mut [i16]| {
                let operation = if operation == asked { done } else { operation };
                honest_join(operation, one, other, result)
            };
            join::compare(call, run)
        });
    }
    test.reports("join, two planes at one focus number", |run| {
        join::compare(plain::join_word_for_word, run)
    });
    test.reports("every join, two planes at one focus number", |run| {
        join::compare_every(plain::join_word_for_word, run)
    });
    test.reports("every join, one pair wrong", |run| {
        let turn = Counter::new(0);
        let call = |operation, one: &[i16], other: &[i16], result: &mut [i16]| {
            turn.set(turn.get() + 1);
            let answer = plain::join(operation, one, other, result);
            answer + u64::from(turn.get() == 200_001)
        };
        join::compare_every(call, run)
    });
    test.reports("join, second list named as the first", |run| {
        let call = |operation, one: &[i16], other: &[i16], result: &mut [i16]| {
            join::judge(operation, &known(one), &known(other), result)
        };
        join::compare(call, run)
    });
    test.reports("join, second list checked first", |run| {
        let call = |operation, one: &[i16], other: &[i16], result: &mut [i16]| {
            let second = Known::operand(other.to_vec(), 2);
            match (1..=4).contains(&operation) && !second.valid() {
                true => second.verdict.packed(),
                false => honest_join(operation, one, other, result),
            }
        };
        join::compare(call, run)
    });
    test.reports("join, never a lack of room for 1,024", |run| {
        let call = |operation, one: &[i16], other: &[i16], result: &mut [i16]| {
            let answer = honest_join(operation, one, other, result);
            match number(answer) == 6 && result.len() >= 3 * 1024 {
                true => 1025,
                false => answer,
            }
        };
        join::compare(call, run)
    });
}
