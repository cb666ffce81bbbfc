//! The worked examples of document 01, asked of the judge.

use super::{lent, Test};
use crate::functions::*;
use crate::judge::{number, Known};
use crate::map::{list, Grid, Paint};

/// The list of these boxes, given by low and high ends.
fn boxes(ends: &[[[i32; 2]; 3]]) -> Vec<i16> {
    let cuts = [0, 1, 2].map(|axis| {
        let mut numbers: Vec<i32> = ends.iter().flat_map(|e| e[axis]).collect();
        numbers.sort_unstable();
        numbers.dedup();
        numbers
    });
    let mut grid = Grid::empty(cuts.clone());
    for one in ends {
        let stretch = |axis: usize, n| 1 + cuts[axis].iter().take_while(|&&cut| cut < n).count();
        let from = [0, 1, 2].map(|axis| stretch(axis, one[axis][0]));
        let to = [0, 1, 2].map(|axis| stretch(axis, one[axis][1]));
        grid.paint(from, to, Paint::Permit);
    }
    list(&grid.list())
}

/// What a list is known by.
fn known(list: &[i16]) -> Known {
    Known::new(list.to_vec())
}

/// A refusal by number, operand and place.
fn refusal(number: u64, operand: u64, place: u64) -> u64 {
    number << 56 | operand << 48 | place << 32
}

/// A nearest answer that is done.
fn codes(cell: [i16; 3]) -> u64 {
    let [x, y, z] = cell.map(|code| u64::from(code as u16));
    x << 32 | y << 16 | z
}

/// The list that a join of two maps gives, with the answer.
fn joined(operation: u32, one: &[i16], other: &[i16]) -> (u64, Vec<i16>) {
    let mut result = lent(3072);
    let one = known(one);
    let other = Known::operand(other.to_vec(), 2);
    let answer = join::judge(operation, &one, &other, result.slice());
    let count = (answer & 0xFFFF) as usize;
    (answer, result.slice()[..3 * count].to_vec())
}

/// All worked examples.
pub fn examples(test: &mut Test) {
    lists(test);
    cells(test);
    joins(test);
    cuts(test);
    programs(test);
}

/// Examples 1 to 4 and 12: the check.
fn lists(test: &mut Test) {
    test.holds("example 1, check", check::judge(&[]) == 0);
    test.holds("example 2", check::judge(&[0; 3]) == refusal(5, 1, 0));
    let four = [0, 0, 0, 0, 0, 1, 0, 1, 0, 0, 1, 1];
    test.holds("example 3", check::judge(&four) == refusal(5, 1, 0));
    let unit = boxes(&[[[0, 1]; 3]]);
    test.holds("example 4", check::judge(&unit[..21]) == refusal(5, 1, 3));
    let to_512 = boxes(&[[[511, 512]; 3]]);
    test.holds("example 12, 512", check::judge(&to_512) == 0);
    let to_513 = boxes(&[[[511, 513]; 3]]);
    test.holds("example 12, 513", check::judge(&to_513) == refusal(3, 1, 1));
    let twice = [&unit[..3], &unit].concat();
    test.holds(
        "example 12, twice",
        check::judge(&twice) == refusal(4, 1, 1),
    );
}

/// Examples 1 and 5 to 8: cells, corners and nearest.
fn cells(test: &mut Test) {
    let none = known(&[]);
    test.holds("example 1, cell", cell::judge(&none, [0; 3]) == 0);
    test.holds(
        "example 1, nearest",
        nearest::judge(&none, [0; 3]) == 7 << 56,
    );
    let whole = known(&boxes(&[[[-512, 512]; 3]]));
    test.holds("example 5, low", cell::judge(&whole, [-512; 3]) == 1);
    test.holds("example 5, high", cell::judge(&whole, [511; 3]) == 1);
    test.holds("example 5, beyond", cell::judge(&whole, [512, 0, 0]) == 0);
    for (wish, found) in [(512, 511), (-513, -512)] {
        let given = nearest::judge(&whole, [wish, 0, 0]);
        test.holds("example 5, nearest", given == codes([found, 0, 0]));
    }
    let unit = [0, 1];
    let two = known(&boxes(&[[[-1, 0], unit, unit], [[1, 2], unit, unit]]));
    test.holds("example 6, cell", cell::judge(&two, [0; 3]) == 0);
    test.holds(
        "example 6",
        nearest::judge(&two, [0; 3]) == codes([-1, 0, 0]),
    );
    test.holds(
        "example 6, distance",
        nearest_distance::judge(&two, [0; 3]) == 1,
    );
    let far = [32767, 0, 0];
    test.holds("example 7", nearest::judge(&two, far) == codes([1, 0, 0]));
    test.holds(
        "example 7, distance",
        nearest_distance::judge(&two, far) == 32766,
    );
    let edge = known(&boxes(&[[unit; 3], [[1, 2], [1, 2], unit]]));
    test.holds("example 8, vertices", edge.vertices.len() == 12);
    let report = corner::judge(&edge, [1, 1, 0]);
    test.holds("example 8, corner", report >> 8 == 5 << 8 | 2);
}

/// Examples 9 to 11: joins.
fn joins(test: &mut Test) {
    let [low, high] = [[0, 2], [2, 4]].map(|focus| boxes(&[[focus, [0, 1], [0, 1]]]));
    let whole = boxes(&[[[0, 4], [0, 1], [0, 1]]]);
    test.holds("example 9, union", joined(1, &low, &high) == (8, whole));
    test.holds(
        "example 9, overlap",
        joined(2, &low, &high) == (0, Vec::new()),
    );
    test.holds("example 10", joined(4, &low, &low) == (0, Vec::new()));
    for (n, due) in [(11, 968), (12, refusal(6, 0, 0))] {
        let slab = |i: i32| [2 * i, 2 * i + 1];
        let along: Vec<_> = (0..n).map(|i| [slab(i), [0, 2 * n], [0, 1]]).collect();
        let across: Vec<_> = (0..n).map(|i| [[0, 2 * n], slab(i), [0, 1]]).collect();
        let (answer, _) = joined(2, &boxes(&along), &boxes(&across));
        test.holds("example 11", answer == due);
    }
}

/// Examples 13 and 14, and the order of refusals: section and split of the printed map.
fn cuts(test: &mut Test) {
    let printed = known(&boxes(&[[[-1, 0], [0, 1], [0, 1]]]));
    let mut result = lent(8);
    let answer = section::judge(&printed, 0, -1, result.slice());
    test.holds(
        "example 13",
        answer == 4 && result.slice() == [0, 0, 0, 1, 1, 0, 1, 1],
    );
    test.holds(
        "example 13, none",
        section::judge(&printed, 0, 0, result.slice()) == 0,
    );
    let (mut low, mut high) = (lent(0), lent(24));
    let answer = split::judge(&printed, 0, -512, low.slice(), high.slice());
    test.holds(
        "example 14",
        answer == 8 << 16 && high.slice() == printed.list,
    );
    let answer = split::judge(&printed, 0, 512, low.slice(), high.slice());
    test.holds("a half without room", answer == refusal(6, 1, 0));
    let bad = known(&[0; 4]);
    test.holds(
        "9 before 1",
        number(section::judge(&bad, 3, 0, result.slice())) == 9,
    );
    let ends = [[0, 1], [0, 1], [0, 513]];
    test.holds("9 before 6", number(make_box::judge(ends, &mut [])) == 9);
}

/// The whole case of the program, refusals of each kind, and wishes of the empty map.
fn programs(test: &mut Test) {
    const MAP: &str = "010008\n02FFFF00000000\n02FFFF00000001\n02FFFF00010000\n02FFFF00010001\n\
        02000000000000\n02000000000001\n02000000010000\n02000000010001\n03000C\n";
    let wishes = "04FFFD00000000\n04000500050005\n";
    let mut writes = |input: &str, due: &str| {
        let (_, output) = program::judge(input.as_bytes());
        test.holds(&format!("program: {input:?}"), output == due);
    };
    let answer = "0500FFFF00000000\n";
    writes(&format!("{MAP}{wishes}"), &answer.repeat(2));
    writes(MAP, "");
    writes("", "060A0001\n");
    writes("010401\n", "06020000\n");
    writes("010401", "060A0001\n");
    writes(&MAP.replace("03000C", "03000D"), "060B0000\n");
    writes(&MAP.replace("03000C", "03000c"), "060A000A\n");
    writes(&MAP.replace("0008", "0009"), "060A000A\n");
    writes(&MAP.replace("0008", "0007"), "060A0009\n");
    writes("010001\n02020100000000\n030202\n", "06030000\n");
    writes("010001\n02000000000000\n030001\n", "06050000\n");
    writes(
        &format!("010000\n030000\n{wishes}"),
        &"0507000000000000\n".repeat(2),
    );
    writes("010000\n030000\n04", "060A0003\n");
    let wish = "04000000000000\n";
    writes(&format!("{MAP}{}", wish.repeat(256)), &answer.repeat(256));
    writes(&format!("{MAP}{}", wish.repeat(257)), "060A010B\n");
    writes(&"0".repeat(19_215), "060C0000\n");
}
