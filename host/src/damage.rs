//! Damaged lists: every refusal, and several faults at once, so that the order shows.

use crate::make::{lump_of, map, some_vertex};
use crate::map::{corners, list, Corner, AXES, HIGHEST, LOWEST, MOST_VERTICES};
use crate::rng::Rng;

/// Numbers that are not corner numbers, or only just.
const ODD_NUMBERS: [i32; 8] = [513, -513, 32767, -32768, 1000, -600, 512, -512];

/// A list to be checked: valid, damaged once or several times, or made up of numbers at random.
pub fn any_list(rng: &mut Rng) -> Vec<i16> {
    match rng.below(20) {
        0 => random_list(rng),
        1..=9 => {
            let mut damaged = list(&map(rng));
            for _ in 0..1 + rng.below(3) {
                damage(rng, &mut damaged);
            }
            damaged
        }
        _ => list(&map(rng)),
    }
}

/// A valid list, or now and then a damaged one.
pub fn mostly_valid(rng: &mut Rng) -> Vec<i16> {
    match rng.once_in(5) {
        true => any_list(rng),
        false => list(&map(rng)),
    }
}

/// A list, one time in ten damaged.
pub fn maybe_damaged(rng: &mut Rng, mut list: Vec<i16>) -> Vec<i16> {
    if rng.once_in(10) {
        damage(rng, &mut list);
    }
    list
}

/// Numbers of a small window at random, rising or not.
fn random_list(rng: &mut Rng) -> Vec<i16> {
    let width = rng.between(1, 4);
    let count = rng.below(24);
    let mut vertices: Vec<Corner> = (0..count)
        .map(|_| Corner([0; AXES].map(|_| rng.between(-width, width))))
        .collect();
    if rng.below(4) > 0 {
        vertices.sort_unstable();
        vertices.dedup();
    }
    list(&vertices)
}

/// Does one damage to the list.
fn damage(rng: &mut Rng, list: &mut Vec<i16>) {
    match rng.below(16) {
        0 => cut_or_add_numbers(rng, list),
        1 => too_long(rng, list),
        2..=4 => change_number(rng, list),
        5..=7 => disturb_order(rng, list),
        8 => remove_vertex(rng, list),
        9 => step_number(rng, list),
        _ => flip_vertices(rng, list),
    }
}

/// One or two numbers too many, or too few.
fn cut_or_add_numbers(rng: &mut Rng, list: &mut Vec<i16>) {
    let by = 1 + rng.below(2);
    if rng.once_in(2) {
        list.truncate(list.len().saturating_sub(by));
    } else {
        let first = rng.between(-600, 600) as i16;
        list.extend((0..by as i16).map(|n| first + n));
    }
}

/// More than the most vertices: by one or by many, with the list's own contents repeated or a large lump.
fn too_long(rng: &mut Rng, list: &mut Vec<i16>) {
    let vertices = match rng.below(3) {
        0 => MOST_VERTICES + 1,
        1 => MOST_VERTICES + 2,
        _ => MOST_VERTICES + 1 + rng.below(2000),
    };
    if rng.once_in(3) {
        *list = crate::map::list(&lump_of(rng, MOST_VERTICES + 2));
    } else {
        let numbers = vertices * AXES + list.len() % AXES;
        let mut next = 0;
        while list.len() < numbers {
            let again = list.get(next).copied().unwrap_or(7);
            list.push(again);
            next += 1;
        }
    }
}

/// A vertex of the list, by its place.
fn place(rng: &mut Rng, list: &[i16]) -> Option<usize> {
    let count = list.len() / AXES;
    (count > 0).then(|| match rng.below(6) {
        0 => 0,
        1 => count - 1,
        _ => rng.below(count),
    })
}

/// Some number becomes one that is out of range, or only just in it.
fn change_number(rng: &mut Rng, list: &mut [i16]) {
    if let Some(place) = place(rng, list) {
        list[place * AXES + rng.below(AXES)] = rng.pick(&ODD_NUMBERS) as i16;
    }
}

/// Vertices are swapped, or one is doubled in place of its neighbour or beside it.
fn disturb_order(rng: &mut Rng, list: &mut Vec<i16>) {
    let (Some(one), Some(other)) = (place(rng, list), place(rng, list)) else {
        return;
    };
    let at = one * AXES;
    let vertex = [list[at], list[at + 1], list[at + 2]];
    match rng.below(3) {
        0 => (0..AXES).for_each(|n| list.swap(at + n, other * AXES + n)),
        1 => list[other * AXES..][..AXES].copy_from_slice(&vertex),
        _ => drop(list.splice(at..at, vertex)),
    }
}

/// A vertex is left out.
fn remove_vertex(rng: &mut Rng, list: &mut Vec<i16>) {
    if let Some(place) = place(rng, list) {
        list.drain(place * AXES..(place + 1) * AXES);
    }
}

/// A vertex moves by one on one axis.
fn step_number(rng: &mut Rng, list: &mut [i16]) {
    if let Some(place) = place(rng, list) {
        let at = place * AXES + rng.below(AXES);
        list[at] = list[at].wrapping_add(rng.pick(&[-1, 1]));
    }
}

/// Puts in, or takes out, one vertex, the two ends of a line or the four of a rectangle, and keeps the order: then
/// lines are odd on three axes, on two or on one.
fn flip_vertices(rng: &mut Rng, list: &mut Vec<i16>) {
    let mut vertices = corners(list);
    let from = match rng.below(4) {
        0 => Corner([0; AXES].map(|_| rng.between(LOWEST, HIGHEST))),
        _ => some_vertex(rng, &vertices),
    };
    let to = some_vertex(rng, &vertices);
    let wide = rng.pick(&[
        [0, 0, 0],
        [1, 0, 0],
        [0, 1, 0],
        [0, 0, 1],
        [0, 1, 1],
        [1, 0, 1],
        [1, 1, 0],
    ]);
    for mask in 0..8 {
        let bits = [mask >> 2, mask >> 1 & 1, mask & 1];
        if (0..AXES).all(|axis| bits[axis] <= wide[axis]) {
            let corner = [0, 1, 2].map(|a| if bits[a] == 1 { to.0[a] } else { from.0[a] });
            match vertices.binary_search(&Corner(corner)) {
                Ok(at) => drop(vertices.remove(at)),
                Err(at) => vertices.insert(at, Corner(corner)),
            }
        }
    }
    *list = crate::map::list(&vertices);
}
