//! The boxes of each family, counted from the lowest number.

use super::{Block, OWN, WIDTH};
use crate::map::AXES;
use crate::rng::Rng;
use std::collections::BTreeSet;

/// Boxes in boxes: from one to the next there are so many codes on the low side, and so many on the high side, always or
/// every second time; they fill the range or end at the innermost cell.
pub fn nested(count: i32, [low, high, every, tight]: [i32; OWN], _: &mut Rng) -> Vec<Block> {
    let steps = [1 + low % 4, 1 + high % 4];
    let depth = |at: i32, step: i32| match every % 2 {
        0 => step * at,
        _ => at / 2 * (1 + step) + at % 2,
    };
    let width = match tight % 2 {
        0 => WIDTH,
        _ => 1 + depth(count - 1, steps[0]) + depth(count - 1, steps[1]),
    };
    let ends = |at| [depth(at, steps[0]), width - depth(at, steps[1])];
    (0..count).map(|at| [ends(at); AXES]).collect()
}

/// Slabs across one axis, and as many crosswise, or a third set too: so many numbers apart, so thick, as high as the map
/// or flat.
pub fn crossed(count: i32, [pitch, thick, sets, flat]: [i32; OWN], _: &mut Rng) -> Vec<Block> {
    let (sets, pitch) = (2 + sets % 2, 2 + pitch % 6);
    let long = count / sets * pitch + 1;
    let height = if flat % 2 == 0 { long } else { 1 };
    let block = |at: i32| {
        let low = 1 + at / sets * pitch;
        let mut ends = [[0, long], [0, long], [0, height]];
        ends[(at % sets) as usize] = [low, low + 1 + thick % (pitch - 1)];
        ends
    };
    (0..count).map(block).collect()
}

/// Boxes each of which begins so many numbers behind the one before, up or down on each axis, and is so wide.
pub fn stairs(count: i32, [step, wide, down, still]: [i32; OWN], _: &mut Rng) -> Vec<Block> {
    let step = 1 + step % 8;
    let ends = |at: i32, axis: i32| {
        let moved = if down >> axis & 1 == 1 {
            count - 1 - at
        } else {
            at
        };
        let low = if still % 4 == axis { 0 } else { step * moved };
        [
            low,
            low + [1, step, 2 * step, 4 * step, 64][wide as usize % 5],
        ]
    };
    (0..count)
        .map(|at| [0, 1, 2].map(|axis| ends(at, axis)))
        .collect()
}

/// Teeth one behind the other: as long as each other, longer and longer, or of any length.
pub fn combs(count: i32, [pitch, thick, length, height]: [i32; OWN], rng: &mut Rng) -> Vec<Block> {
    let pitch = 2 + pitch % 6;
    let height = [1, 8, 64, WIDTH][height as usize % 4];
    let tooth = |at: i32| {
        let long = match length % 4 {
            0 => WIDTH / 2,
            1 => 1 + at,
            2 => count - at,
            _ => rng.between(1, WIDTH - 1),
        };
        let low = at * pitch;
        [[low, low + 1 + thick % (pitch - 1)], [0, long], [0, height]]
    };
    (0..count).map(tooth).collect()
}

/// Boxes in rows on three axes, on two or on one, so many numbers apart and so wide.
pub fn grid(count: i32, [pitch, wide, shape, long]: [i32; OWN], _: &mut Rng) -> Vec<Block> {
    let pitch = 2 + pitch % 7;
    let wide = 1 + wide % (pitch - 1);
    let side = |axes: u32| (1..).find(|n: &i32| n.pow(axes) >= count).unwrap_or(1);
    let sizes = match shape % 5 {
        0 => [side(3); AXES],
        1 => [1, side(2), side(2)],
        2 => [side(2), 1, side(2)],
        3 => [side(2), side(2), 1],
        _ => [count, 1, 1],
    };
    let ends = |at: i32, axis: usize| match sizes[axis] {
        1 if long % 2 == 1 => [0, WIDTH / 2],
        _ => [at * pitch, at * pitch + wide],
    };
    (0..count)
        .map(|at| {
            let [_, m, n] = sizes;
            [at / n / m, at / n % m, at % n]
        })
        .map(|at| [0, 1, 2].map(|axis| ends(at[axis], axis)))
        .collect()
}

/// So many numbers in order, rising, of the first ones of an axis: all of them, or some.
fn some_numbers(rng: &mut Rng, count: i32, window: i32) -> Vec<i32> {
    let mut numbers = BTreeSet::new();
    while (numbers.len() as i32) < count {
        numbers.insert(rng.between(0, window.max(count)));
    }
    numbers.into_iter().collect()
}

/// All corners whose three numbers are in a pattern of each axis.
pub fn patterns(count: i32, [focus, first, window, _]: [i32; OWN], rng: &mut Rng) -> Vec<Block> {
    let powers = count.max(1).ilog2() as i32;
    let one = 1i32 << (focus % (powers + 1));
    let two = 1 << (first % (powers - one.ilog2() as i32 + 1));
    let window = [0, 32, 256, WIDTH][window as usize % 4];
    let pairs = [one, two, count / one / two].map(|pairs| {
        let numbers = some_numbers(rng, (2 * pairs).min(WIDTH), window);
        let ends = numbers.chunks_exact(2).map(|ends| [ends[0], ends[1]]);
        ends.collect::<Vec<_>>()
    });
    let [xs, ys, zs] = &pairs;
    let lines = xs.iter().flat_map(|x| ys.iter().map(move |y| (*x, *y)));
    lines
        .flat_map(|(x, y)| zs.iter().map(move |z| [x, y, *z]))
        .collect()
}

/// Any boxes of a window; each axis is narrow or wide.
pub fn random(count: i32, [focus, first, second, small]: [i32; OWN], rng: &mut Rng) -> Vec<Block> {
    let windows = [focus, first, second].map(|knob| [2, 16, 128, WIDTH][knob as usize % 4]);
    let mut ends = |window: i32| {
        let low = rng.between(0, window - 1);
        let most = match small % 3 {
            0 => window,
            1 => (low + 1 + window / 8).min(window),
            _ => low + 1,
        };
        [low, rng.between(low + 1, most)]
    };
    (0..2 * count).map(|_| windows.map(&mut ends)).collect()
}

/// Thin bars that go through the whole range, on one axis, on two or on three, in rows or anywhere.
pub fn bars(count: i32, [axes, anywhere, pitch, _]: [i32; OWN], rng: &mut Rng) -> Vec<Block> {
    let (axes, pitch) = (1 + axes % 3, 2 + pitch % 6);
    let bar = |at: i32| {
        let number = |rng: &mut Rng| match anywhere % 2 {
            0 => (at / axes + 1) * pitch % (WIDTH - 1),
            _ => rng.between(0, WIDTH - 1),
        };
        let mut ends = [0; AXES].map(|_| {
            let low = number(rng);
            [low, low + 1]
        });
        ends[(at % axes) as usize] = [0, WIDTH];
        ends
    };
    (0..count).map(bar).collect()
}

/// Boxes that all begin at one corner: the longer on one axis, the shorter on another.
pub fn fans(count: i32, [step, second, shift, _]: [i32; OWN], _: &mut Rng) -> Vec<Block> {
    let step = 1 + step % 4;
    let block = |at: i32| {
        let height = match second % 4 {
            0 => 1,
            1 => 1 + at,
            2 => 2 * count - at,
            _ => WIDTH,
        };
        let low = if shift % 2 == 0 { 0 } else { at };
        [
            [low, step * (at + 1) + low],
            [0, step * (2 * count - at)],
            [0, height],
        ]
    };
    (0..2 * count).map(block).collect()
}

/// Cells of a block of cells, at random.
pub fn lump(count: i32, [focus, first, second, _]: [i32; OWN], rng: &mut Rng) -> Vec<Block> {
    let side = 2 + (f64::from(count) * 4.0).cbrt() as i32;
    let sides = [focus, first, second]
        .map(|knob| [side, side / 2 + 1, 2 * side, 4 * side][knob as usize % 4]);
    (0..8 * count)
        .map(|_| {
            sides.map(|side| {
                let low = rng.between(0, side - 1);
                [low, low + 1]
            })
        })
        .collect()
}
