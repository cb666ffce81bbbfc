//! Right texts, as lines, and those whose list is refused: what other kinds of input are made from.

use crate::functions::program::MOST_WISHES;
use crate::judge::check;
use crate::map::{corners, list, MOST_VERTICES};
use crate::rng::Rng;
use crate::{damage, make};

/// The most numbers of a short map.
const SHORT: usize = 300;

/// Lines, each with its end.
pub type Lines = Vec<Vec<u8>>;

/// A line of a tag and numbers.
pub fn line(tag: &str, numbers: &[i16]) -> Vec<u8> {
    let digits: String = numbers.iter().map(|n| format!("{n:04X}")).collect();
    format!("{tag}{digits}\n").into_bytes()
}

/// The sum that closes a list.
pub fn sum(list: &[i16]) -> i16 {
    let count = (list.len() / 3) as i16;
    list.iter().fold(count, |sum, &n| sum.wrapping_add(n))
}

/// The lines of a list and of wishes.
pub fn text(list: &[i16], wishes: Vec<[i16; 3]>) -> Lines {
    let vertices = list.chunks_exact(3).map(|v| line("02", v));
    let mut lines = vec![line("01", &[(list.len() / 3) as i16])];
    lines.extend(vertices);
    lines.push(line("03", &[sum(list)]));
    lines.extend(wishes.iter().map(|wish| line("04", wish)));
    lines
}

/// The list of a valid map.
pub fn valid(rng: &mut Rng) -> Vec<i16> {
    list(&make::map(rng))
}

/// The list of a short map.
pub fn short(rng: &mut Rng) -> Vec<i16> {
    loop {
        let list = valid(rng);
        if list.len() <= SHORT {
            return list;
        }
    }
}

/// So many wishes, near the map and far away.
pub fn wishes(rng: &mut Rng, list: &[i16], count: usize) -> Vec<[i16; 3]> {
    let vertices = corners(list);
    (0..count).map(|_| make::asked(rng, &vertices)).collect()
}

/// A right text: a map with a few wishes.
pub fn right(rng: &mut Rng) -> Lines {
    let list = valid(rng);
    let count = rng.below(4);
    text(&list, wishes(rng, &list, count))
}

/// A right text whose map has vertices.
pub fn with_vertices(rng: &mut Rng) -> Lines {
    loop {
        let lines = right(rng);
        if lines.iter().any(|line| line.starts_with(b"02")) {
            return lines;
        }
    }
}

/// A right text in which some digit is a letter.
pub fn with_letters(rng: &mut Rng) -> Lines {
    loop {
        let lines = right(rng);
        if lines.concat().iter().any(u8::is_ascii_uppercase) {
            return lines;
        }
    }
}

/// The text of a list that is refused with 3, 4 or 5, with the right sum.
pub fn refused(rng: &mut Rng) -> Lines {
    loop {
        let list = damage::any_list(rng);
        if (3..=5).contains(&check(&list, 1).number) {
            let count = rng.below(3);
            return text(&list, wishes(rng, &list, count));
        }
    }
}

/// The empty map with wishes.
pub fn empty_map(rng: &mut Rng) -> Vec<u8> {
    let count = rng.below(4);
    text(&[], wishes(rng, &[], count)).concat()
}

/// A short map with so many wishes more than there may be.
pub fn so_many(rng: &mut Rng, more: usize) -> Vec<u8> {
    let list = short(rng);
    text(&list, wishes(rng, &list, MOST_WISHES + more)).concat()
}

/// A map of the most vertices with the most wishes: as many bytes as there may be.
pub fn full(rng: &mut Rng) -> Lines {
    let list = list(&make::lump_of(rng, MOST_VERTICES));
    text(&list, wishes(rng, &list, MOST_WISHES))
}
