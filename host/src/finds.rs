//! The slow maps that `host slow` found, by name: every function is timed on each of them.

use crate::cases::{Case, SLOW_SIZES};
use crate::families::{recipe, KNOBS};

/// A slow map with one to be joined with it, each by its family and knobs.
pub struct Find {
    pub name: &'static str,
    maps: [Made; 2],
}

/// All finds, with what was slow.
pub const FINDS: &[Find] = &[
    // nearest, the distance and the program, by a walk
    find(
        "nested boxes at the low end, far cells",
        ("nested", [0, 2, 0, 0, 0, 0, 0, 1]),
        ("nested", [1, 2, 0, 0, 0, 0, 0, 1]),
    ),
    find(
        "nested boxes off the middle, far cells",
        ("nested", [0, 3, 0, 0, 2, 0, 0, 1]),
        ("nested", [1, 3, 0, 0, 2, 0, 0, 1]),
    ),
    // nearest without a walk, as ordinary Rust has it
    find(
        "fans, far cells",
        ("fans", [0, 1, 0, 0, 0, 0, 0, 0]),
        ("fans", [1, 1, 0, 0, 0, 0, 0, 0]),
    ),
    // section, split and the joins
    find(
        "nested boxes of the whole range, far cells",
        ("nested", [0, 1, 0, 0, 0, 0, 0, 0]),
        ("nested", [1, 1, 0, 0, 0, 0, 0, 0]),
    ),
    // the joins
    find(
        "combs, with nested boxes",
        ("combs", [0, 2, 0, 0, 1, 0, 0, 0]),
        ("nested", [1, 1, 0, 0, 1, 0, 0, 0]),
    ),
    find(
        "fans, with bars",
        ("fans", [0, 1, 0, 0, 1, 0, 0, 0]),
        ("bars", [1, 1, 0, 0, 0, 2, 0, 0]),
    ),
    find(
        "crossed slabs, with bars",
        ("crossed", [0, 1, 1, 0, 3, 2, 0, 1]),
        ("bars", [3, 2, 0, 13, 1, 0, 4, 0]),
    ),
    // the check, and all that is little more than the check
    find(
        "crowded boxes",
        ("crowded", [0, 0, 0, 0, 0, 0, 0, 0]),
        ("crowded", [1, 0, 0, 0, 0, 0, 0, 0]),
    ),
    find(
        "crowded boxes in the middle, far cells",
        ("crowded", [0, 3, 1, 0, 0, 0, 0, 0]),
        ("crowded", [0, 0, 1, 0, 0, 0, 0, 0]),
    ),
    // cell and corner beside ordinary Rust
    find(
        "a cluster of cells",
        ("random", [0, 0, 0, 0, 0, 0, 0, 0]),
        ("random", [0, 0, 0, 1, 0, 0, 0, 0]),
    ),
    // split
    find(
        "random boxes, far cells",
        ("random", [1, 1, 2, 40, 2, 0, 1, 0]),
        ("random", [0, 1, 2, 41, 2, 0, 1, 0]),
    ),
];

/// A family by its name, and knobs.
type Made = (&'static str, [u8; KNOBS]);

/// A find with this name.
const fn find(name: &'static str, one: Made, other: Made) -> Find {
    Find {
        name,
        maps: [one, other],
    }
}

/// The case of a find with about so many vertices; none where they are not even half as many, but for the smallest size.
pub fn case(find: &Find, vertices: usize) -> Option<Case> {
    let maps = find.maps.map(|(family, knobs)| recipe(family, knobs));
    let full = |case: &Case| vertices == SLOW_SIZES[0] || 2 * case.vertices > vertices;
    Case::slow(find.name, maps, vertices).filter(full)
}
