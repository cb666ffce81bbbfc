//! Ordinary Rust: the program. Every line has a fixed length, so each is read at its place; the map is made ready once
//! for all wishes.

use super::check::verdict;
use super::nearest::Ready;
use super::{vertices, MOST};

/// The most bytes of input, and the most wishes.
const MOST_BYTES: usize = 19_214;
const MOST_WISHES: usize = 256;
/// The digits.
const DIGITS: &[u8; 16] = b"0123456789ABCDEF";
/// The value of each byte that is a digit; others have more than 15.
const VALUES: [u8; 256] = values();

/// The value of each byte.
const fn values() -> [u8; 256] {
    let mut table = [0xFF; 256];
    let mut value = 0;
    while value < 16 {
        table[DIGITS[value] as usize] = value as u8;
        value += 1;
    }
    table
}

/// A refusal: number and place.
type Refused = (u8, u16);

/// What is left of the input, and the number of the line that is next.
struct Input<'a> {
    rest: &'a [u8],
    line: u16,
}

impl Input<'_> {
    /// The numbers of the next line, if it is this tag, that many numbers and its end.
    fn numbers<const N: usize>(&mut self, tag: u8) -> Result<[u16; N], Refused> {
        let refused = (10, self.line);
        let length = 4 * N + 3;
        let (line, rest) = self.rest.split_at_checked(length).ok_or(refused)?;
        let mut bad = line[0] != b'0' || line[1] != tag || line[length - 1] != b'\n';
        let numbers = std::array::from_fn(|at| {
            line[2 + 4 * at..6 + 4 * at]
                .iter()
                .fold(0, |number, &byte| {
                    let value = VALUES[usize::from(byte)];
                    bad |= value > 15;
                    number << 4 | u16::from(value & 15)
                })
        });
        self.rest = rest;
        self.line += 1;
        match bad {
            true => Err(refused),
            false => Ok(numbers),
        }
    }
}

/// The list and the wishes of an input.
fn read(input: &[u8]) -> Result<(Vec<i16>, Vec<[i16; 3]>), Refused> {
    if input.len() > MOST_BYTES {
        return Err((12, 0));
    }
    let mut input = Input {
        rest: input,
        line: 1,
    };
    let [count] = input.numbers(b'1')?;
    if usize::from(count) > MOST {
        return Err((2, 0));
    }
    let mut list = Vec::with_capacity(3 * usize::from(count));
    let mut sum = count;
    for _ in 0..count {
        let vertex: [u16; 3] = input.numbers(b'2')?;
        sum = vertex.iter().fold(sum, |sum, &n| sum.wrapping_add(n));
        list.extend(vertex.map(|n| n as i16));
    }
    if input.numbers(b'3')? != [sum] {
        return Err((11, 0));
    }
    let verdict = verdict(&list, 1);
    if verdict != 0 {
        return Err(((verdict >> 56) as u8, (verdict >> 32) as u16));
    }
    let mut wishes = Vec::with_capacity(input.rest.len() / 15);
    while !input.rest.is_empty() {
        let line = input.line;
        let wish = input.numbers(b'4')?.map(|n| n as i16);
        if wishes.len() == MOST_WISHES {
            return Err((10, line));
        }
        wishes.push(wish);
    }
    Ok((list, wishes))
}

/// Writes the four digits of a number.
fn put(output: &mut Vec<u8>, number: u16) {
    output.extend([12, 8, 4, 0].map(|shift| DIGITS[usize::from(number >> shift & 15)]));
}

/// What the program writes for an input.
#[inline(never)]
pub fn program(input: &[u8]) -> Vec<u8> {
    let (list, wishes) = match read(input) {
        Ok(read) => read,
        Err((number, place)) => {
            let mut output = b"06".to_vec();
            output.extend([number >> 4, number & 15].map(|n| DIGITS[usize::from(n)]));
            put(&mut output, place);
            output.push(b'\n');
            return output;
        }
    };
    if list.is_empty() {
        return b"0507000000000000\n".repeat(wishes.len());
    }
    let ready = Ready::new(vertices(&list));
    let mut output = Vec::with_capacity(17 * wishes.len());
    for wish in wishes {
        output.extend(b"0500");
        let (_, cell) = ready.best(wish);
        cell.into_iter().for_each(|n| put(&mut output, n as u16));
        output.push(b'\n');
    }
    output
}
