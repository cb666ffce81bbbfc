//! Ordinary Rust: an r-tree over the boxes of a map, as one would keep it who has many wishes. It is made once; a wish then
//! looks only at boxes that lie near enough. The rank of a box's nearest cell is that of the codes nearest to the wish, and
//! so is a bound for all that a larger box holds.

use super::boxes::boxes;
use super::rank::{ends, Ends, Found, Wish};
use super::vertices;

/// The boxes of a node at most.
const WIDE: usize = 8;

/// What a node holds: a box of the map, or all that another node holds.
#[derive(Clone, Copy)]
enum Held {
    Cells,
    Node(u32),
}

/// Some boxes, with what each of them is.
type Node = Vec<(Ends, Held)>;

/// The tree of a map that has cells.
pub struct Tree {
    ends: Ends,
    nodes: Vec<Node>,
    /// The boxes of the map.
    pub boxes: usize,
}

/// The least box that holds some boxes.
fn hull(boxes: &[Ends]) -> Ends {
    [0, 1, 2].map(|axis| {
        let start = [i16::MAX, i16::MIN];
        boxes.iter().fold(start, |[low, high], one| {
            [low.min(one[axis][0]), high.max(one[axis][1])]
        })
    })
}

/// Parts boxes at the middle of their longest axis, and each half again, so many times.
fn parted(boxes: &mut [Ends], times: u32) -> Vec<&mut [Ends]> {
    if times == 0 || boxes.len() < 2 {
        return vec![boxes];
    }
    let hull = hull(boxes);
    let length = |axis: &usize| hull[*axis][1] - hull[*axis][0];
    let axis = (0..3).max_by_key(length).unwrap_or(0);
    let middle = boxes.len() / 2;
    boxes.select_nth_unstable_by_key(middle, |one| {
        i32::from(one[axis][0]) + i32::from(one[axis][1])
    });
    let (low, high) = boxes.split_at_mut(middle);
    let mut found = parted(low, times - 1);
    found.extend(parted(high, times - 1));
    found
}

impl Tree {
    /// The tree of a valid list that is not empty.
    #[inline(never)]
    pub fn new(list: &[i16]) -> Tree {
        let all = vertices(list);
        let mut boxes = boxes(all);
        let mut tree = Tree {
            ends: ends(all),
            nodes: Vec::new(),
            boxes: boxes.len(),
        };
        tree.add(&mut boxes);
        tree
    }

    /// Adds the node of some boxes, behind those that it holds; answers where it stands.
    fn add(&mut self, boxes: &mut [Ends]) -> u32 {
        let node = match boxes.len() {
            0..=WIDE => boxes.iter().map(|one| (*one, Held::Cells)).collect(),
            _ => parted(boxes, WIDE.ilog2())
                .into_iter()
                .map(|part| match part {
                    [one] => (*one, Held::Cells),
                    _ => (hull(part), Held::Node(self.add(part))),
                })
                .collect(),
        };
        self.nodes.push(node);
        self.nodes.len() as u32 - 1
    }

    /// The nearest cell to a wish, with its distance.
    #[inline(never)]
    pub fn best(&self, wish: [i16; 3]) -> Found {
        let wish = Wish::new(wish, &self.ends);
        let mut best = u64::MAX;
        self.search(self.nodes.len() as u32 - 1, &wish, &mut best);
        wish.found(best)
    }

    /// Searches a node: its boxes of the map, then the nodes that it holds, the nearest first.
    fn search(&self, node: u32, wish: &Wish, best: &mut u64) {
        let mut nodes = [(u64::MAX, 0); WIDE];
        let mut count = 0;
        for (ends, held) in &self.nodes[node as usize] {
            let rank = wish.nearest_in(ends);
            match held {
                Held::Cells => *best = rank.min(*best),
                Held::Node(node) => {
                    nodes[count] = (rank, *node);
                    count += 1;
                }
            }
        }
        nodes[..count].sort_unstable();
        for (rank, node) in &nodes[..count] {
            if rank < best {
                self.search(*node, wish, best);
            }
        }
    }
}
