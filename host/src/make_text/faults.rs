//! Damaged texts: a count, a sum, a digit, a line, an end or a length that is not as it should be.

use super::right::*;
use crate::functions::program::{MOST_BYTES, MOST_WISHES};
use crate::make;
use crate::map::{list, MOST_VERTICES};
use crate::rng::Rng;

/// Bytes that are no digits; those beside the digits in the order of bytes are among them.
const NO_DIGITS: &[u8] = b"/:@G`gxX+-. \t\r\0\x7F\x80\xB0\xFF";
/// Bytes of which any text is made.
const BYTES: &[u8] = b"0123456789ABCDEF0123456789ABCDEFabcfgG \n\n\n\r\t\0\xFF";
/// Counts of which each is more than the most vertices.
const TOO_MANY: [u16; 6] = [1025, 1026, 2048, 0x7FFF, 0x8000, 0xFFFF];
/// Words that begin no line that is due.
const TAGS: [&[u8; 2]; 9] = [
    b"00", b"01", b"02", b"03", b"04", b"05", b"06", b"10", b"1 ",
];

/// A count over 1,024: with nothing behind it, with a right text behind it, or with as many vertices.
pub fn too_many(rng: &mut Rng) -> Vec<u8> {
    let mut lines = match rng.below(3) {
        0 => vec![Vec::new()],
        1 => right(rng),
        _ => {
            let list = list(&make::lump_of(rng, MOST_VERTICES + 2));
            return text(&list, Vec::new()).concat();
        }
    };
    lines[0] = line("01", &[rng.pick(&TOO_MANY) as i16]);
    lines.concat()
}

/// A count that is larger, or smaller, than the number of vertices; the sum goes with the count.
pub fn other_count(rng: &mut Rng, larger: bool) -> Vec<u8> {
    loop {
        let list = valid(rng);
        let count = list.len() / 3;
        let least = if larger { count + 1 } else { 0 };
        let most = if larger { MOST_VERTICES } else { count };
        if least >= most {
            continue;
        }
        let other = match rng.below(3) {
            0 => least + rng.below(most - least),
            _ if larger => least,
            _ => most - 1,
        };
        let count_wishes = rng.below(4);
        let mut lines = text(&list, wishes(rng, &list, count_wishes));
        lines[0] = line("01", &[other as i16]);
        let closing = sum(&list).wrapping_add((other as i16).wrapping_sub(count as i16));
        lines[count + 1] = line("03", &[closing]);
        return lines.concat();
    }
}

/// Changes the closing sum: by one, in one bit, or to what it is without the count.
pub fn spoil_sum(rng: &mut Rng, mut lines: Lines) -> Lines {
    let vertices = lines.iter().filter(|l| l.starts_with(b"02")).count();
    let at = vertices + 1;
    let digits = std::str::from_utf8(&lines[at][2..6]).unwrap_or("0");
    let sum = u16::from_str_radix(digits, 16).unwrap_or(0);
    let other = match rng.below(4) {
        0 => sum.wrapping_add(1),
        1 if vertices > 0 => sum.wrapping_sub(vertices as u16),
        _ => sum ^ 1 << rng.below(16),
    };
    lines[at] = line("03", &[other as i16]);
    lines
}

/// A right map with another sum.
pub fn wrong_sum(rng: &mut Rng) -> Vec<u8> {
    let lines = right(rng);
    spoil_sum(rng, lines).concat()
}

/// A right text in which one line is changed.
pub fn one_line(rng: &mut Rng, change: fn(&mut Rng, &mut Vec<u8>)) -> Vec<u8> {
    let mut lines = right(rng);
    let at = some_line(rng, &lines);
    change(rng, &mut lines[at]);
    lines.concat()
}

/// A line by its place: the first, the last, that of the sum or its neighbours, or any.
fn some_line(rng: &mut Rng, lines: &Lines) -> usize {
    let sum = lines.iter().position(|line| line.starts_with(b"03"));
    let last = lines.len() - 1;
    match rng.below(6) {
        0 => 0,
        1 => last,
        2 => (sum.unwrap_or(0) + rng.below(3))
            .saturating_sub(1)
            .min(last),
        _ => rng.below(lines.len()),
    }
}

/// One letter becomes a small one.
pub fn lower_digit(rng: &mut Rng) -> Vec<u8> {
    let mut text = with_letters(rng).concat();
    let letters: Vec<usize> = (0..text.len())
        .filter(|&at| text[at].is_ascii_uppercase())
        .collect();
    let at = rng.pick(&letters);
    text[at].make_ascii_lowercase();
    text
}

/// One byte of a line, not its end, becomes one that is no digit.
pub fn no_digit(rng: &mut Rng) -> Vec<u8> {
    one_line(rng, |rng, line| {
        let at = rng.below(line.len() - 1);
        line[at] = rng.pick(NO_DIGITS);
    })
}

/// A byte of a line is left out, but not its end.
pub fn digit_missing(rng: &mut Rng, line: &mut Vec<u8>) {
    let at = rng.below(line.len() - 1);
    line.remove(at);
}

/// A line has a digit, or four, too many.
pub fn digit_more(rng: &mut Rng, line: &mut Vec<u8>) {
    let at = rng.below(line.len());
    let count = rng.pick(&[1, 4]);
    (0..count).for_each(|_| line.insert(at, rng.pick(b"0123456789ABCDEF")));
}

/// A line has the tag of another.
pub fn other_tag(rng: &mut Rng, line: &mut [u8]) {
    let others: Vec<&[u8; 2]> = TAGS
        .into_iter()
        .filter(|tag| !line.starts_with(*tag))
        .collect();
    let other = others[rng.below(others.len())];
    line[..2].copy_from_slice(other);
}

/// A carriage return before the end of a line.
pub fn carriage_return(_: &mut Rng, line: &mut Vec<u8>) {
    line.insert(line.len() - 1, b'\r');
}

/// A blank in a line: before it, within it or behind it.
pub fn blank(rng: &mut Rng, line: &mut Vec<u8>) {
    let at = rng.pick(&[0, 2, line.len() / 2, line.len() - 1]);
    line.insert(at, rng.pick(b"  \t"));
}

/// A line, not the last, has lost its end: two have become one.
pub fn end_missing(rng: &mut Rng) -> Vec<u8> {
    let mut lines = right(rng);
    let at = some_line(rng, &lines).min(lines.len() - 2);
    lines[at].pop();
    lines.concat()
}

/// A line with nothing in it, before any other or behind all.
pub fn empty_line(rng: &mut Rng) -> Vec<u8> {
    let mut lines = right(rng);
    let at = match rng.once_in(3) {
        true => lines.len(),
        false => some_line(rng, &lines),
    };
    lines.insert(at, b"\n".to_vec());
    lines.concat()
}

/// At least one byte is missing at the end, and what is left may end with a line.
pub fn cut_off(rng: &mut Rng) -> Vec<u8> {
    let mut lines = right(rng);
    if rng.once_in(2) {
        lines.pop();
        return lines.concat();
    }
    let mut text = lines.concat();
    text.truncate(rng.below(text.len()));
    text
}

/// A line that is no wish is missing.
pub fn line_missing(rng: &mut Rng) -> Vec<u8> {
    let mut lines = with_vertices(rng);
    let at = not_a_wish(rng, &lines);
    lines.remove(at);
    lines.concat()
}

/// A line that is no wish stands twice.
pub fn line_twice(rng: &mut Rng) -> Vec<u8> {
    let mut lines = right(rng);
    let at = not_a_wish(rng, &lines);
    lines.insert(at, lines[at].clone());
    lines.concat()
}

/// The place of a line that is no wish.
fn not_a_wish(rng: &mut Rng, lines: &Lines) -> usize {
    let wishes = lines.iter().filter(|l| l.starts_with(b"04")).count();
    let map = lines.len() - wishes;
    match rng.below(3) {
        0 => map - 1,
        _ => rng.below(map),
    }
}

/// Two neighbours with different tags have changed places.
pub fn lines_swapped(rng: &mut Rng) -> Vec<u8> {
    let mut lines = right(rng);
    let places: Vec<usize> = (1..lines.len())
        .filter(|&at| lines[at][..2] != lines[at - 1][..2])
        .collect();
    let at = rng.pick(&places);
    lines.swap(at, at - 1);
    lines.concat()
}

/// Something stands behind a right text that is no wish.
pub fn behind(rng: &mut Rng) -> Vec<u8> {
    let mut lines = right(rng);
    lines.push(match rng.below(5) {
        0 => b"\0".to_vec(),
        1 => vec![rng.pick(BYTES)],
        2 => b"0500FFFF00000000\n".to_vec(),
        3 => lines[0].clone(),
        _ => b"04000000000000".to_vec(),
    });
    lines.concat()
}

/// A line that is no wish behind the map's lines; other wishes may follow.
pub fn ill_formed_wish(rng: &mut Rng, mut lines: Lines) -> Vec<u8> {
    let map = lines.iter().take_while(|l| !l.starts_with(b"03")).count() + 1;
    let at = map + rng.below(lines.len() - map + 1);
    let bad = rng.pick(&[&b"04\n"[..], b"0400000000000\n", b"\n", b"05000000000000\n"]);
    lines.insert(at, bad.to_vec());
    lines.concat()
}

/// One wish too many, and an ill formed one before it.
pub fn wish_before(rng: &mut Rng) -> Vec<u8> {
    let list = short(rng);
    let lines = text(&list, wishes(rng, &list, MOST_WISHES));
    ill_formed_wish(rng, lines)
}

/// As many bytes as there may be, with one line ill formed, or with a short map and many zeros behind it.
pub fn full_ill_formed(rng: &mut Rng) -> Vec<u8> {
    if rng.once_in(3) {
        let mut text = so_many(rng, 0);
        text.resize(MOST_BYTES, b'0');
        return text;
    }
    let mut lines = full(rng);
    let at = some_line(rng, &lines);
    let byte = rng.below(lines[at].len());
    lines[at][byte] = rng.pick(NO_DIGITS);
    lines.concat()
}

/// So many bytes more than there may be: behind a full text, or behind a short one, or of any kind.
pub fn beyond(rng: &mut Rng, more: usize) -> Vec<u8> {
    let mut text = match rng.below(3) {
        0 => full(rng).concat(),
        1 => right(rng).concat(),
        _ => any_bytes(rng),
    };
    let fill = rng.pick(b"0\n4");
    text.resize(MOST_BYTES + more, fill);
    text
}

/// A text of some kind with one to three faults at random: a byte, a line, the end or the length.
pub fn several(rng: &mut Rng) -> Vec<u8> {
    let mut lines = match rng.below(4) {
        0 => refused(rng),
        1 => {
            let lines = right(rng);
            spoil_sum(rng, lines)
        }
        _ => right(rng),
    };
    if rng.once_in(4) {
        lines[0] = line("01", &[rng.pick(&[0, 1, 7, 1024, 1025, -1])]);
    }
    let mut text = lines.concat();
    for _ in 0..1 + rng.below(3) {
        fault(rng, &mut text);
    }
    text
}

/// One fault.
fn fault(rng: &mut Rng, text: &mut Vec<u8>) {
    let at = match rng.once_in(2) {
        true => rng.below(text.len().clamp(1, 40)),
        false => rng.below(text.len().max(1)),
    };
    match rng.below(9) {
        0 => text.truncate(at),
        1 => drop(text.pop()),
        2 => text.push(rng.pick(BYTES)),
        3 => text.insert(at.min(text.len()), rng.pick(BYTES)),
        4 if at < text.len() => drop(text.remove(at)),
        5 => text.make_ascii_lowercase(),
        6 if rng.once_in(8) => text.resize(MOST_BYTES - 1 + rng.below(3), b'0'),
        _ if at < text.len() => text[at] = rng.pick(BYTES),
        _ => {}
    }
}

/// Bytes at random.
pub fn any_bytes(rng: &mut Rng) -> Vec<u8> {
    let count = rng.below(60);
    (0..count).map(|_| rng.pick(BYTES)).collect()
}
