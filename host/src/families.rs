//! Families of maps among which slow ones are looked for. A map of a family is made from a few small numbers, its knobs,
//! and from nothing else, at any size. It is a row of boxes of which a cell is permitted where it lies in an odd number of
//! them, so that the list is the corners that an odd number of the boxes has.

mod crowded;
mod points;
mod shapes;

use crate::map::{Corner, AXES, HIGHEST, LOWEST};
use crate::rng::Rng;
use crowded::crowded;
pub use points::points;
use shapes::*;
use std::collections::BTreeSet;

/// The numbers that a map is made from: the order of the axes, far cells, the place of the map in the range, the seed, and
/// four that each family reads in its own way.
pub const KNOBS: usize = 4 + OWN;
const OWN: usize = 4;
/// The numbers of the range, counted from 0.
const WIDTH: i32 = HIGHEST - LOWEST;
/// The vertices of a box.
const CORNERS: usize = 8;
/// Two far cells are put in only where the map has at least so many vertices.
const FAR_FROM: usize = 64;
/// The orders of the axes.
const ORDERS: [[usize; AXES]; 6] = [
    [0, 1, 2],
    [0, 2, 1],
    [1, 0, 2],
    [1, 2, 0],
    [2, 0, 1],
    [2, 1, 0],
];

/// A box by its ends on each axis, counted from the lowest number.
pub type Block = [[i32; 2]; AXES];

/// A family: its name, and the boxes of a map of some `count` boxes with these knobs. Boxes for which there is no room
/// are left out.
pub struct Family {
    pub name: &'static str,
    blocks: Blocks,
}

/// The boxes of a map.
type Blocks = fn(count: i32, own: [i32; OWN], rng: &mut Rng) -> Vec<Block>;

/// A family.
const fn family(name: &'static str, blocks: Blocks) -> Family {
    Family { name, blocks }
}

/// All families.
pub const FAMILIES: &[Family] = &[
    family("nested", nested),
    family("crossed", crossed),
    family("stairs", stairs),
    family("combs", combs),
    family("grid", grid),
    family("patterns", patterns),
    family("random", random),
    family("bars", bars),
    family("fans", fans),
    family("lump", lump),
    family("crowded", |count, _, _| crowded(count)),
];

/// How a map is made: the place of its family, and its knobs.
#[derive(Clone, Copy, Debug, PartialEq)]
pub struct Recipe {
    pub family: usize,
    pub knobs: [u8; KNOBS],
}

/// The recipe of a family by its name.
pub fn recipe(name: &str, knobs: [u8; KNOBS]) -> Recipe {
    let family = FAMILIES.iter().position(|family| family.name == name);
    Recipe {
        family: family.expect("a family of the list"),
        knobs,
    }
}

impl Recipe {
    /// The recipe in words: the family, and its knobs.
    pub fn text(&self) -> String {
        let knobs = self.knobs.map(|knob| knob.to_string());
        format!("{} {}", FAMILIES[self.family].name, knobs.join("."))
    }

    /// The vertices of the map, not more than so many.
    pub fn map(&self, vertices: usize) -> Vec<Corner> {
        let far = match vertices < FAR_FROM {
            true => Vec::new(),
            false => far_cells(self.knobs[1]),
        };
        let count = (vertices / CORNERS - far.len()) as i32;
        let mut found = BTreeSet::new();
        for block in far.into_iter().chain(self.blocks(count)) {
            turn(&mut found, &block);
            if found.len() > vertices {
                turn(&mut found, &block);
            }
        }
        found.into_iter().collect()
    }

    /// The boxes of the family's own, turned and moved to their place.
    fn blocks(&self, count: i32) -> Vec<Block> {
        let [order, _, place, seed, own @ ..] = self.knobs;
        let mut rng = Rng::new(seed.into());
        let mut blocks = (FAMILIES[self.family].blocks)(count, own.map(i32::from), &mut rng);
        let order = ORDERS[usize::from(order) % ORDERS.len()];
        let high = blocks.iter().flatten().map(|ends| ends[1]).max();
        let free = WIDTH - high.unwrap_or(0).min(WIDTH);
        let low = LOWEST + [0, free / 2, free][usize::from(place) % 3];
        for block in &mut blocks {
            *block = order.map(|axis| block[axis].map(|n| n + low));
        }
        blocks.retain(|block| block.iter().all(|ends| ends[1] <= HIGHEST));
        blocks
    }
}

/// Two cells at opposite corners of the range, on one of its four diagonals, or none.
fn far_cells(knob: u8) -> Vec<Block> {
    let Some(diagonal) = (knob % 5).checked_sub(1) else {
        return Vec::new();
    };
    let cell = |high: bool| match high {
        true => [HIGHEST - 1, HIGHEST],
        false => [LOWEST, LOWEST + 1],
    };
    let corner = |end: bool| {
        let turned = [false, diagonal & 1 == 1, diagonal & 2 == 2];
        turned.map(|turned| cell(turned != end))
    };
    vec![corner(false), corner(true)]
}

/// Puts in each corner of a box that is not there, and takes out each that is.
fn turn(found: &mut BTreeSet<Corner>, block: &Block) {
    for at in 0..CORNERS {
        let corner = Corner([block[0][at >> 2], block[1][at >> 1 & 1], block[2][at & 1]]);
        if !found.remove(&corner) {
            found.insert(corner);
        }
    }
}
