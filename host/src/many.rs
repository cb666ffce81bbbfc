//! Many wishes to one map: what nearest takes a wish, beside an r-tree that is made once and kept.

use crate::cases::{Case, Cases};
use crate::summary::table;
use crate::table::{times, Pace};
use crate::{lib_calls, plain};

/// Nanoseconds a wish, where all wishes are asked one after the other.
fn a_wish(wishes: &[[i16; 3]], ask: impl Fn([i16; 3]) -> u64) -> f64 {
    let all = times(
        &mut |_| wishes.iter().fold(0, |sum, wish| sum ^ ask(*wish)),
        Pace::SURE,
    );
    all / wishes.len() as f64
}

/// Nanoseconds a wish, where all wishes are asked in one call.
fn many_a_wish(case: &Case, wishes: &[[i16; 3]]) -> f64 {
    let mut cells = vec![0; 3 * wishes.len()];
    let wishes = wishes.as_flattened();
    let all = times(
        &mut |_| lib_calls::nearest_many(&case.list, wishes, &mut cells),
        Pace::SURE,
    );
    all / (wishes.len() / 3) as f64
}

/// The row of a map: the r-tree's boxes, what it takes to make it, what a wish takes, and after how many wishes the tree has
/// paid, beside all wishes in one call.
fn row(case: &Case) -> String {
    let wishes: Vec<[i16; 3]> = case.wishes.iter().flat_map(|(_, w)| w.clone()).collect();
    let tree = plain::Tree::new(&case.list);
    let make = times(
        &mut |_| plain::Tree::new(&case.list).boxes as u64,
        Pace::SURE,
    );
    let in_tree = a_wish(&wishes, |wish| tree.best(wish).0);
    let nearest = a_wish(&wishes, |wish| lib_calls::nearest(&case.list, wish));
    let plain = a_wish(&wishes, |wish| plain::nearest(&case.list, wish));
    let many = many_a_wish(case, &wishes);
    let paid = match many <= in_tree {
        true => "never".to_string(),
        false => (make / (many - in_tree)).ceil().to_string(),
    };
    format!(
        "| {} | {} | {} | {make:.0} | {in_tree:.0} | {nearest:.0} | {many:.0} | {plain:.0} | {paid} |",
        case.name, case.vertices, tree.boxes
    )
}

/// Writes the table of many wishes.
pub fn many(cases: &Cases) -> bool {
    let valid = cases.of("").iter().filter(|case| !case.refused);
    let head = "| map | vertices | boxes | tree, ns | tree, a wish, ns | nearest, a wish, ns | nearest many, a wish, ns | Rust, a wish, ns | pays after |";
    println!("{}", table(head, valid.map(row)));
    true
}
