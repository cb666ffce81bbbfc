//! Wrong boxes, cell queries, corner reports and plane queries.

use super::known;
use crate::functions::{cell, corner, make_box, plane};
use crate::judge::number;
use crate::map::corners;
use crate::selftest::Test;

/// Faults of the box.
pub fn boxes(test: &mut Test) {
    test.reports("box, 6 before 9", |run| {
        let call = |ends, result: &mut [i16]| match result.len() < 24 {
            true => 6 << 56,
            false => make_box::judge(ends, result),
        };
        make_box::compare(call, run)
    });
    test.reports("box, a high end of 512 refused", |run| {
        let call = |ends: [[i16; 2]; 3], result: &mut [i16]| match ends[1][1] {
            512 => 9 << 56,
            _ => make_box::judge(ends, result),
        };
        make_box::compare(call, run)
    });
}

/// Faults of the cell query, the corner report and the plane query.
pub fn asks(test: &mut Test) {
    test.reports("cell, of the code above", |run| {
        let call = |list: &[i16], [x, y, z]: [i16; 3]| {
            cell::judge(&known(list), [x, y, z.saturating_add(1)])
        };
        cell::compare(call, run)
    });
    test.reports("cell, a wrong list answered with no", |run| {
        let call = |list: &[i16], asked| cell::judge(&known(list), asked) & 1;
        cell::compare(call, run)
    });
    test.reports("cell, cut to ten bits", |run| {
        let cut = |n: i16| (n & 1023) << 6 >> 6;
        cell::compare(|list, asked| cell::judge(&known(list), asked.map(cut)), run)
    });
    test.reports("corner, axes in another order", |run| {
        let call = |list: &[i16], asked| {
            let answer = corner::judge(&known(list), asked);
            let swapped = (answer & 0x44) >> 1 & 0x22 | (answer & 0x22) << 1 | answer & 0x99;
            answer & !0xFF | swapped
        };
        corner::compare(call, run)
    });
    for kind in 0..9 {
        test.reports(&format!("corner, kind {kind} taken for another"), |run| {
            let call = |list: &[i16], asked| match corner::judge(&known(list), asked) {
                answer if number(answer) == 0 && answer >> 16 == kind => answer ^ 1 << 16,
                answer => answer,
            };
            corner::compare(call, run)
        });
    }
    test.reports("plane, in vertices", |run| {
        plane::compare(|list, focus| plane::judge(&known(list), focus) / 3, run)
    });
    test.reports("plane, of any list", |run| {
        let call = |list: &[i16], focus| {
            let vertices = corners(list);
            let count = vertices
                .iter()
                .filter(|v| v.0[0] == i32::from(focus))
                .count();
            let start = vertices.iter().position(|v| v.0[0] == i32::from(focus));
            start.map_or(0, |at| ((3 * at as u64) << 32) | (3 * count as u64))
        };
        plane::compare(call, run)
    });
}
