//! What is asked of a map of a family.

use super::CORNERS;
use crate::map::{Corner, AXES, HIGHEST, LOWEST};
use crate::rng::Rng;

/// Points to be asked of a map, each with where it is: at the corners and the faces of what the map fills, in the midst
/// of it, at the ends of the range and of the 16-bit numbers, at vertices and beside them, and anywhere between.
pub fn points(map: &[Corner]) -> Vec<(String, [i16; AXES])> {
    let ends = [0, 1, 2].map(|axis| {
        let numbers = map.iter().map(|v| v.0[axis]);
        let (low, high) = (numbers.clone().min(), numbers.max());
        [low.unwrap_or(0), high.unwrap_or(1) - 1]
    });
    let middle = ends.map(|[low, high]| (low + high).div_euclid(2));
    let mut found: Vec<(String, [i32; AXES])> = Vec::new();
    for at in 0..CORNERS {
        let bits = [at >> 2, at >> 1 & 1, at & 1];
        let corner = [0, 1, 2].map(|axis| ends[axis][bits[axis]]);
        found.push((format!("corner {at:03b}"), corner));
    }
    found.push(("the middle".into(), middle));
    for axis in 0..AXES {
        for (end, word) in [(0, "low"), (1, "high")] {
            let mut face = middle;
            face[axis] = ends[axis][end];
            found.push((format!("the {word} face of axis {axis}"), face));
        }
    }
    for place in 0..CORNERS {
        let vertex = map[place * map.len() / CORNERS].0;
        found.push((format!("vertex {place} of 8"), vertex));
        found.push((format!("before vertex {place} of 8"), vertex.map(|n| n - 1)));
    }
    let mut rng = Rng::new(map.len() as u64);
    for at in 0..CORNERS {
        let point = ends.map(|[low, high]| rng.between(low, high));
        found.push((format!("point {at}"), point));
    }
    let numbers = found
        .into_iter()
        .map(|(name, point)| (name, point.map(|n| n.clamp(LOWEST, HIGHEST - 1) as i16)));
    let far = [i16::MIN, i16::MAX].map(|n| (format!("all {n}"), [n; AXES]));
    numbers.chain(far).collect()
}
