//! Solids as plain cells. A grid has a bool for each cell of a window; lists become grids by odd counting, and
//! grids become lists by the eight-cell rule. Cells that cannot differ are kept as one: a grid is cut only at the
//! numbers that occur, so that maps at the ends of the range cost no more than small ones.

/// The lowest code, and the lowest corner number.
pub const LOWEST: i32 = -512;
/// The highest code.
pub const HIGHEST_CODE: i32 = 511;
/// The highest corner number.
pub const HIGHEST: i32 = 512;
/// The most vertices of a valid list.
pub const MOST_VERTICES: usize = 1024;
/// Numbers a vertex.
pub const AXES: usize = 3;
/// What a step counts on each axis where distances are measured.
const WEIGHTS: [u32; AXES] = [1, 1, 1];

/// Three numbers where cells meet. The order is that of a list.
#[derive(Clone, Copy, Debug, PartialEq, Eq, PartialOrd, Ord)]
pub struct Corner(pub [i32; AXES]);

/// Three codes: the unit cube from each code to the next number.
#[derive(Clone, Copy, Debug, PartialEq, Eq, PartialOrd, Ord)]
pub struct Cell(pub [i32; AXES]);

/// The vertices of a list whose length is a multiple of three.
pub fn corners(list: &[i16]) -> Vec<Corner> {
    list.chunks_exact(AXES)
        .map(|v| Corner([v[0].into(), v[1].into(), v[2].into()]))
        .collect()
}

/// The list of these vertices, three numbers each.
pub fn list(corners: &[Corner]) -> Vec<i16> {
    corners
        .iter()
        .flat_map(|corner| corner.0.map(|n| n as i16))
        .collect()
}

/// Is the cell permitted? By the definition: its codes are codes, and an odd number of vertices is not above them.
pub fn permits(vertices: &[Corner], cell: Cell) -> bool {
    let codes = cell.0.iter().all(|n| (LOWEST..=HIGHEST_CODE).contains(n));
    let not_above = |v: &&Corner| (0..AXES).all(|axis| v.0[axis] <= cell.0[axis]);
    codes && vertices.iter().filter(not_above).count() % 2 == 1
}

/// The distance from a wish to a cell.
pub fn distance(wish: [i32; AXES], cell: Cell) -> u32 {
    (0..AXES)
        .map(|axis| WEIGHTS[axis] * wish[axis].abs_diff(cell.0[axis]))
        .sum()
}

/// A solid as plain cells. The cuts divide each axis into stretches: one before the first cut, one from each cut to
/// the next, one behind the last. There is a bool for each triple of stretches; the outer ones permit nothing.
#[derive(Clone)]
pub struct Grid {
    cuts: [Vec<i32>; AXES],
    cells: Vec<bool>,
}

/// What is done to a part of a grid.
#[derive(Clone, Copy)]
pub enum Paint {
    Permit,
    Forbid,
    Flip,
}

/// The numbers that occur in some of the lists, rising, for each axis.
pub fn cuts_of(lists: &[&[Corner]]) -> [Vec<i32>; AXES] {
    [0, 1, 2].map(|axis| {
        let mut numbers: Vec<i32> = lists
            .iter()
            .flat_map(|list| list.iter().map(|v| v.0[axis]))
            .collect();
        numbers.sort_unstable();
        numbers.dedup();
        numbers
    })
}

impl Grid {
    /// The grid with these cuts that permits nothing.
    pub fn empty(cuts: [Vec<i32>; AXES]) -> Grid {
        let size = cuts.iter().map(|c| c.len() + 1).product();
        Grid {
            cuts,
            cells: vec![false; size],
        }
    }

    /// The grid of a valid list, with its own numbers as cuts.
    pub fn of(vertices: &[Corner]) -> Grid {
        Grid::with_cuts(vertices, cuts_of(&[vertices]))
    }

    /// The grid of a valid list whose numbers are all among the cuts: a cell is permitted when an odd number of
    /// vertices is not above it, so each vertex is marked, and the marks are added up along the three axes.
    pub fn with_cuts(vertices: &[Corner], cuts: [Vec<i32>; AXES]) -> Grid {
        let mut grid = Grid::empty(cuts);
        for vertex in vertices {
            let [i, j, k] = [0, 1, 2].map(|axis| grid.stretch(axis, vertex.0[axis]));
            let at = grid.index(i, j, k);
            grid.cells[at] ^= true;
        }
        let mut stride = 1;
        for axis in (0..AXES).rev() {
            let stretches = grid.stretches(axis);
            add_up(&mut grid.cells, stretches, stride);
            stride *= stretches;
        }
        grid
    }

    /// How many stretches the axis has.
    pub fn stretches(&self, axis: usize) -> usize {
        self.cuts[axis].len() + 1
    }

    /// The stretch that holds the code.
    fn stretch(&self, axis: usize, code: i32) -> usize {
        self.cuts[axis].partition_point(|&cut| cut <= code)
    }

    /// Where the bool of three stretches stands.
    fn index(&self, i: usize, j: usize, k: usize) -> usize {
        (i * self.stretches(1) + j) * self.stretches(2) + k
    }

    /// Is the cell permitted?
    pub fn permits(&self, cell: Cell) -> bool {
        let [i, j, k] = [0, 1, 2].map(|axis| self.stretch(axis, cell.0[axis]));
        self.cells[self.index(i, j, k)]
    }

    /// Paints the block of stretches from `from` up to, not including, `to`.
    pub fn paint(&mut self, from: [usize; AXES], to: [usize; AXES], paint: Paint) {
        for i in from[0]..to[0] {
            for j in from[1]..to[1] {
                for k in from[2]..to[2] {
                    let at = self.index(i, j, k);
                    self.cells[at] = match paint {
                        Paint::Permit => true,
                        Paint::Forbid => false,
                        Paint::Flip => !self.cells[at],
                    };
                }
            }
        }
    }

    /// Sets every cell between the outermost cuts to what `permitted` says of its stretches.
    pub fn fill(&mut self, mut permitted: impl FnMut([usize; AXES]) -> bool) {
        for i in 1..self.cuts[0].len() {
            for j in 1..self.cuts[1].len() {
                for k in 1..self.cuts[2].len() {
                    let at = self.index(i, j, k);
                    self.cells[at] = permitted([i, j, k]);
                }
            }
        }
    }

    /// The one list of the grid: every corner round which an odd number of the eight cells is permitted.
    pub fn list(&self) -> Vec<Corner> {
        let row_length = self.stretches(2);
        let row = |i, j| &self.cells[self.index(i, j, 0)..][..row_length];
        let mut odd = vec![false; row_length];
        let mut found = Vec::new();
        for (i, &x) in self.cuts[0].iter().enumerate() {
            for (j, &y) in self.cuts[1].iter().enumerate() {
                let (a, b, c, d) = (row(i, j), row(i, j + 1), row(i + 1, j), row(i + 1, j + 1));
                for k in 0..row_length {
                    odd[k] = a[k] ^ b[k] ^ c[k] ^ d[k];
                }
                for (k, &z) in self.cuts[2].iter().enumerate() {
                    if odd[k] != odd[k + 1] {
                        found.push(Corner([x, y, z]));
                    }
                }
            }
        }
        found
    }

    /// The pairs of the section at a code: those round which an odd number of the four squares is permitted.
    pub fn section(&self, axis: usize, code: i32) -> Vec<[i32; 2]> {
        let at = self.stretch(axis, code);
        let square = |p, q| match axis {
            0 => self.cells[self.index(at, p, q)],
            1 => self.cells[self.index(p, at, q)],
            _ => self.cells[self.index(p, q, at)],
        };
        let [one, other] = [[1, 2], [0, 2], [0, 1]][axis];
        let mut found = Vec::new();
        for (p, &u) in self.cuts[one].iter().enumerate() {
            for (q, &v) in self.cuts[other].iter().enumerate() {
                let odd = square(p, q) ^ square(p, q + 1) ^ square(p + 1, q) ^ square(p + 1, q + 1);
                if odd {
                    found.push([u, v]);
                }
            }
        }
        found
    }

    /// The grid's cells below the cut `at`, and those at or above it, on one axis.
    pub fn split(&self, axis: usize, at: i32) -> (Grid, Grid) {
        let edge = self.stretch(axis, at);
        let mut end = [0, 1, 2].map(|a| self.stretches(a));
        let mut start = [0; AXES];
        let (mut low, mut high) = (self.clone(), self.clone());
        start[axis] = edge;
        low.paint(start, end, Paint::Forbid);
        end[axis] = edge;
        high.paint([0; AXES], end, Paint::Forbid);
        (low, high)
    }

    /// The cells where `holds` is true of the two memberships; both grids have the same cuts.
    pub fn join(&self, other: &Grid, holds: impl Fn(bool, bool) -> bool) -> Grid {
        let both = self.cells.iter().zip(&other.cells);
        Grid {
            cuts: self.cuts.clone(),
            cells: both.map(|(&a, &b)| holds(a, b)).collect(),
        }
    }

    /// The nearest permitted cell to a wish: the least by distance, then focus, then the shifts.
    /// Of the cells of one block the nearest has on each axis the code nearest to the wish.
    pub fn nearest(&self, wish: [i32; AXES]) -> Option<Cell> {
        let near = [0, 1, 2].map(|axis| self.near_codes(axis, wish[axis]));
        let mut best: Option<(u32, Cell)> = None;
        for (i, &x) in near[0].iter().enumerate() {
            for (j, &y) in near[1].iter().enumerate() {
                let row = self.index(i + 1, j + 1, 1);
                for (k, &z) in near[2].iter().enumerate() {
                    if self.cells[row + k] {
                        let cell = Cell([x, y, z]);
                        let candidate = (distance(wish, cell), cell);
                        if best.is_none_or(|b| candidate < b) {
                            best = Some(candidate);
                        }
                    }
                }
            }
        }
        best.map(|(_, cell)| cell)
    }

    /// For each stretch between two cuts, its code that is nearest to the wish.
    fn near_codes(&self, axis: usize, wish: i32) -> Vec<i32> {
        let pairs = self.cuts[axis].windows(2);
        pairs.map(|w| wish.clamp(w[0], w[1] - 1)).collect()
    }
}

/// Adds up (without carry) along the axis whose neighbours are `stride` apart.
fn add_up(cells: &mut [bool], stretches: usize, stride: usize) {
    for block in cells.chunks_exact_mut(stretches * stride) {
        for at in 1..stretches {
            let (before, rest) = block.split_at_mut(at * stride);
            let before = &before[(at - 1) * stride..];
            for (cell, below) in rest[..stride].iter_mut().zip(before) {
                *cell ^= *below;
            }
        }
    }
}
