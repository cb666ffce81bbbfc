//! Ordinary Rust versions of the functions, written for speed and with the heap, to be timed beside the library's.
//! They answer as the library does; the self-test compares them with the judge.

mod asks;
mod boxes;
mod check;
mod cuts;
mod join;
mod lists;
mod nearest;
mod program;
mod rank;
mod rows;
mod tree;

pub use asks::{cell, corner, make_box, plane};
pub use check::check;
pub use cuts::{section, split};
pub use join::join;
pub use lists::{join_by_lists, join_word_for_word};
pub use nearest::{nearest, nearest_distance, nearest_many};
pub use program::program;
pub use tree::Tree;

/// The most vertices of a list.
const MOST: usize = 1024;
/// Corner numbers are -512 to 512; codes end one before.
const LOW: i16 = -512;
const HIGH: i16 = 512;

/// A refusal with its operand and place, packed.
fn refusal(number: u64, operand: u64, place: usize) -> u64 {
    number << 56 | operand << 48 | (place as u64) << 32
}

/// The vertices of a list, three numbers each.
fn vertices(list: &[i16]) -> &[[i16; 3]] {
    list.as_chunks().0
}

/// A vertex as one number that keeps the order.
fn key(v: [i16; 3]) -> u64 {
    let [x, y, z] = v.map(|n| (i32::from(n) + 512) as u64);
    x << 32 | y << 16 | z
}

/// The vertex of a key.
fn unkey(key: u64) -> [i16; 3] {
    [key >> 32, key >> 16, key].map(|n| (n as u16 as i16).wrapping_add(LOW))
}
