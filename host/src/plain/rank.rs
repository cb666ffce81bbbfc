//! Ordinary Rust: what orders cells for a wish, as one number: the distance, then focus, then the shifts. It is the sum of
//! a value for each axis, which rises away from the wish.

use super::{HIGH, LOW};

/// What a step counts on each axis.
const WEIGHTS: [i32; 3] = [1, 1, 1];
/// The bits of one code, which is counted from the one below the lowest.
const BITS: u32 = 11;
/// The bits below the distance.
const CODES: u32 = 3 * BITS;
/// Where a code of each axis stands.
const PLACES: [u32; 3] = [2 * BITS, BITS, 0];

/// The least and the greatest number of each axis: all cells lie between.
pub type Ends = [[i16; 2]; 3];

/// A wish, brought between the ends of a map; what lies between the two is the same for every cell.
pub struct Wish {
    /// The codes nearest to the wish that lie between the ends.
    pub codes: [i16; 3],
    between: u64,
}

/// A cell with its distance.
pub type Found = (u64, [i16; 3]);

/// The ends of some vertices.
pub fn ends(all: &[[i16; 3]]) -> Ends {
    [0, 1, 2].map(|axis| {
        let start = [HIGH, LOW];
        all.iter().fold(start, |[low, high], v| {
            [low.min(v[axis]), high.max(v[axis])]
        })
    })
}

impl Wish {
    /// The wish to a map with these ends.
    pub fn new(far: [i16; 3], ends: &Ends) -> Wish {
        let codes = [0, 1, 2].map(|axis| far[axis].clamp(ends[axis][0], ends[axis][1] - 1));
        let steps = |axis| steps(axis, far[axis], codes[axis]);
        Wish {
            codes,
            between: (0..3).map(steps).sum(),
        }
    }

    /// The value of a code of an axis.
    #[inline]
    pub fn value(&self, axis: usize, code: i16) -> u64 {
        let place = (i32::from(code) - i32::from(LOW) + 1) as u64;
        (steps(axis, self.codes[axis], code) << CODES) + (place << PLACES[axis])
    }

    /// The value of the wish's own code of an axis: the least.
    #[inline]
    pub fn own(&self, axis: usize) -> u64 {
        self.value(axis, self.codes[axis])
    }

    /// The value of the code just behind a number as seen from the wish.
    #[inline]
    pub fn behind(&self, axis: usize, number: i16) -> u64 {
        let code = match number > self.codes[axis] {
            true => number,
            false => number - 1,
        };
        self.value(axis, code)
    }

    /// The least rank of a cell of a box.
    #[inline]
    pub fn nearest_in(&self, ends: &Ends) -> u64 {
        let value = |axis: usize| {
            let [low, high] = ends[axis];
            self.value(axis, self.codes[axis].clamp(low, high - 1))
        };
        (0..3).map(value).sum()
    }

    /// The cell of a rank, with its distance from the wish.
    pub fn found(&self, rank: u64) -> Found {
        let code = |place: u32| (rank >> place & ((1 << BITS) - 1)) as i16 + (LOW - 1);
        (self.between + (rank >> CODES), PLACES.map(code))
    }
}

/// What the steps between two codes of an axis count.
#[inline]
fn steps(axis: usize, one: i16, other: i16) -> u64 {
    (WEIGHTS[axis] * (i32::from(one) - i32::from(other)).abs()) as u64
}
