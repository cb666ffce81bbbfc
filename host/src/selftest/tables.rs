//! The tables: a line for each function and map, wrong answers reported, stack and size measured as they are.

use super::Test;
use crate::cases::{Case, Cases, SIZES, SLOW_SIZES};
use crate::families::{recipe, Recipe, FAMILIES, KNOBS};
use crate::finds::{self, FINDS};
use crate::functions::*;
use crate::map::list;
use crate::rng::Rng;
use crate::size::{of_archive, Size};
use crate::summary::{growth_table, worst_table, Line};
use crate::table::{Pace, Table};
use crate::{plain, stack};
use std::hint::black_box;

/// The most vertices of maps whose joins are timed here.
const MOST: usize = 256;
/// Maps of the families that are tried.
const FAMILY_MAPS: usize = 200;
/// The bytes of a local array.
const BYTES: usize = 100_000;
/// The most that a call takes beside its local arrays.
const FRAME: usize = 1_000;

/// A line for each map, and wrong answers reported.
fn times(test: &mut Test) {
    let cases = Cases::ordinary();
    let others = cases.of("");
    let joins = cases.of("travelmap_join").iter();
    let joins: Vec<Case> = joins.filter(|c| c.vertices <= MOST).cloned().collect();
    let full = cases.of("travel");
    let mut table = Table::of_times(Pace::ONCE);
    check::time(plain::check, others, &mut table);
    make_box::time(plain::make_box, others, &mut table);
    cell::time(plain::cell, others, &mut table);
    corner::time(plain::corner, others, &mut table);
    plane::time(plain::plane, others, &mut table);
    section::time(plain::section, others, &mut table);
    split::time(plain::split, others, &mut table);
    nearest::time(plain::nearest, others, &mut table);
    nearest_distance::time(plain::nearest_distance, others, &mut table);
    nearest_many::time(plain::nearest_many, others, &mut table);
    program::time(plain::program, full, &mut table);
    join::time(plain::join, &joins, &mut table);
    let lines = 19 * others.len() + 2 + full.len();
    test.holds("a line for each map", table.lines.len() == lines);
    test.holds("full maps", full.len() == 4);
    let pairs = 4 * joins.len();
    test.holds("a line for each join", table.joins.len() == pairs);
    test.holds("answers that are timed", table.wrong.is_empty());
    check::time(|_| 0, others, &mut table);
    test.holds("wrong answers that are timed", !table.wrong.is_empty());
    table.wrong.clear();
    join::time(|_, _, _, _| 0, &joins, &mut table);
    test.holds("wrong joins that are timed", !table.wrong.is_empty());
    table.wrong.clear();
    program::time(|_| Vec::new(), full, &mut table);
    test.holds("wrong programs that are timed", !table.wrong.is_empty());
}

/// The valid list that a map of the families is.
fn families(test: &mut Test) {
    let mut rng = Rng::new(1);
    for turn in 0..FAMILY_MAPS {
        let recipe = Recipe {
            family: turn % FAMILIES.len(),
            knobs: [0; KNOBS].map(|_| rng.bits() as u8),
        };
        for size in SIZES {
            let map = recipe.map(size);
            let valid = map.len() <= size && plain::check(&list(&map)) == 0;
            test.holds(&format!("a map, {}, {size}", recipe.text()), valid);
        }
    }
    for find in FINDS {
        let cases = SLOW_SIZES
            .iter()
            .filter_map(|size| finds::case(find, *size));
        test.holds(&format!("a find, {}", find.name), cases.count() > 0);
    }
}

/// Of a slow map the slowest call is found, and the one with the worst ratio, and wrong answers are reported.
fn slow_points(test: &mut Test) {
    let maps = [recipe("grid", [0; KNOBS]); 2];
    let case = Case::slow("grid", maps, SIZES[1])
        .into_iter()
        .collect::<Vec<_>>();
    let wish = case[0].wishes[0].1[5];
    let mut table = Table::of_times(Pace::SEARCH);
    let slow = |list: &[i16], asked: [i16; 3]| {
        let times = if asked == wish { 100 } else { 1 };
        (0..times).fold(0, |_, _| black_box(plain::nearest(list, asked)))
    };
    nearest::time(slow, &case, &mut table);
    let found = table
        .lines
        .iter()
        .all(|line| line.asked == case[0].points[5]);
    test.holds("the slowest point", found && !table.lines.is_empty());
    test.holds("answers of slow maps", table.wrong.is_empty());
    nearest::time(|_, _| 1, &case, &mut table);
    test.holds("wrong answers of slow maps", !table.wrong.is_empty());
}

/// Stack is measured as it is: of a call with a large local array, of one without, and of one within another.
fn stacks(test: &mut Test) {
    let large = stack::depth(&mut || {
        black_box([0u8; BYTES]);
    });
    let fits = (BYTES..BYTES + FRAME).contains(&large);
    test.holds(&format!("stack of a large array, {large}"), fits);
    let small = stack::depth(&mut || {
        black_box(1);
    });
    test.holds(&format!("stack of nothing, {small}"), small < FRAME);
    let mut table = Table::of_stack();
    let call = |list: &[i16]| {
        black_box([1u8; BYTES]);
        plain::check(list)
    };
    check::time(call, &Cases::new().of("")[..1], &mut table);
    test.holds("stack of a check", table.deepest.0 >= BYTES);
    test.holds("no times beside stack", table.lines.is_empty());
}

/// A check of boxes that takes so long.
fn line(vertices: usize, ours: f64, plain: f64) -> Line {
    Line {
        function: "check".to_string(),
        map: "boxes".to_string(),
        vertices,
        asked: String::new(),
        ours,
        plain,
    }
}

/// The worst ratio is found wherever it stands, and growth has the time of each size at its place.
fn summaries(test: &mut Test) {
    let lines = [
        line(8, 30.0, 20.0),
        line(64, 90.0, 30.0),
        line(1024, 50.0, 40.0),
    ];
    let due = "\n| check | 2 | 3.00 | check, boxes, 64 vertices: 90 ns beside 30 |\n";
    test.holds("the worst ratio", worst_table(&lines, &[]).ends_with(due));
    let due = "\n| check | boxes | 30 | 90 |  | 50 |\n";
    test.holds("growth", growth_table(&lines, &[]).ends_with(due));
}

/// An archive of one object file, which has sections with these flags and bytes.
fn archive(sections: &[[u64; 2]]) -> Vec<u8> {
    let mut object = vec![0; 64];
    object[..4].copy_from_slice(b"\x7fELF");
    object[0x28] = 64;
    object[0x3A] = 64;
    object[0x3C] = sections.len() as u8;
    for [flags, bytes] in sections {
        let mut header = [0; 64];
        header[8..16].copy_from_slice(&flags.to_le_bytes());
        header[0x20..0x28].copy_from_slice(&bytes.to_le_bytes());
        object.extend(header);
    }
    let mut found = b"!<arch>\n".to_vec();
    found.extend(format!("{:48}{:<10}`\n", "one.o/", object.len()).bytes());
    found.extend(object);
    found
}

/// The size of an archive is that of what is loaded.
fn sizes(test: &mut Test) {
    let one = archive(&[[6, 1000], [2, 70], [2, 7], [3, 5], [0, 9999]]);
    let due = Size {
        code: 1000,
        constants: 77,
        data: 5,
    };
    test.holds("size of an archive", of_archive(&one) == Some(due));
    let cut = &one[..one.len() - 1];
    test.holds("size of half an archive", of_archive(cut).is_none());
}

/// All tests of the tables.
pub fn tables(test: &mut Test) {
    times(test);
    families(test);
    slow_points(test);
    stacks(test);
    summaries(test);
    sizes(test);
}
