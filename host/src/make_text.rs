//! Generated inputs of the program: map text with wishes, right and damaged, by kinds. Each kind says which numbers can
//! be due for its inputs, so that what is made and what is judged are held to each other.

mod faults;
mod right;

use crate::rng::Rng;
use faults::*;
pub use right::text;
use right::{empty_map, full, refused, right, so_many, valid, with_letters};

/// A kind of input.
pub struct Kind {
    pub name: &'static str,
    /// The numbers that can be due.
    pub due: &'static [u8],
    /// How often it is made, beside the others.
    weight: usize,
    /// Makes one.
    pub make: fn(&mut Rng) -> Vec<u8>,
}

/// A kind that is made as often as most others.
const fn kind(name: &'static str, due: &'static [u8], make: fn(&mut Rng) -> Vec<u8>) -> Kind {
    Kind {
        name,
        due,
        weight: 4,
        make,
    }
}

/// A kind that is made more or less often.
const fn weighed(weight: usize, kind: Kind) -> Kind {
    Kind { weight, ..kind }
}

/// All kinds.
pub const KINDS: &[Kind] = &[
    weighed(40, kind("right", &[0, 7], |rng| right(rng).concat())),
    kind("no wish", &[0, 7], |rng| {
        text(&valid(rng), Vec::new()).concat()
    }),
    kind("empty map", &[7], empty_map),
    weighed(1, kind("256 wishes", &[0, 7], |rng| so_many(rng, 0))),
    weighed(1, kind("19,214 bytes", &[0], |rng| full(rng).concat())),
    weighed(
        20,
        kind("list refused", &[3, 4, 5], |rng| refused(rng).concat()),
    ),
    kind("count over 1,024", &[2], too_many),
    kind("count too large", &[10], |rng| other_count(rng, true)),
    kind("count too small", &[10], |rng| other_count(rng, false)),
    weighed(8, kind("wrong sum", &[11], wrong_sum)),
    kind("wrong sum, list refused", &[11], |rng| {
        let lines = refused(rng);
        spoil_sum(rng, lines).concat()
    }),
    kind("one lower-case digit", &[10], lower_digit),
    kind("all lower case", &[10], |rng| {
        with_letters(rng).concat().to_ascii_lowercase()
    }),
    weighed(8, kind("no digit", &[10], no_digit)),
    kind("digit missing", &[10], |rng| one_line(rng, digit_missing)),
    kind("digit too many", &[10], |rng| one_line(rng, digit_more)),
    kind("other tag", &[10], |rng| {
        one_line(rng, |rng, line| other_tag(rng, line))
    }),
    kind("0A missing within", &[10], end_missing),
    kind("0A missing at the end", &[10], |rng| {
        let mut text = right(rng).concat();
        text.pop();
        text
    }),
    kind("one CR LF", &[10], |rng| one_line(rng, carriage_return)),
    kind("all CR LF", &[10], |rng| {
        let mut lines = right(rng);
        lines.iter_mut().for_each(|line| carriage_return(rng, line));
        lines.concat()
    }),
    weighed(8, kind("blank", &[10], |rng| one_line(rng, blank))),
    kind("empty line", &[10], empty_line),
    weighed(8, kind("end cut off", &[0, 7, 10], cut_off)),
    weighed(1, kind("no input", &[10], |_| Vec::new())),
    kind("line missing", &[10], line_missing),
    kind("line twice", &[10], line_twice),
    kind("lines swapped", &[10], lines_swapped),
    kind("something behind", &[10], behind),
    weighed(1, kind("257 wishes", &[10], |rng| so_many(rng, 1))),
    weighed(
        1,
        kind("more wishes", &[10], |rng| {
            let more = 2 + rng.below(40);
            so_many(rng, more)
        }),
    ),
    weighed(1, kind("257 wishes, one ill formed", &[10], wish_before)),
    kind("list refused, wish ill formed", &[3, 4, 5], |rng| {
        let lines = refused(rng);
        ill_formed_wish(rng, lines)
    }),
    kind("wrong sum, wish ill formed", &[11], |rng| {
        let lines = right(rng);
        let lines = spoil_sum(rng, lines);
        ill_formed_wish(rng, lines)
    }),
    weighed(1, kind("19,214 bytes, ill formed", &[10], full_ill_formed)),
    weighed(1, kind("19,215 bytes", &[12], |rng| beyond(rng, 1))),
    weighed(
        1,
        kind("more bytes", &[12], |rng| {
            let more = 2 + rng.below(20_000);
            beyond(rng, more)
        }),
    ),
    weighed(
        16,
        kind("several faults", &[0, 2, 3, 4, 5, 7, 10, 11, 12], several),
    ),
    kind("any bytes", &[2, 10], any_bytes),
];

/// An input, with its kind.
pub fn input(rng: &mut Rng) -> (&'static Kind, Vec<u8>) {
    let all = KINDS.iter().map(|kind| kind.weight).sum();
    let mut at = rng.below(all);
    let chosen = KINDS.iter().find(|kind| {
        let here = at < kind.weight;
        at = at.saturating_sub(kind.weight);
        here
    });
    let kind = chosen.unwrap_or(&KINDS[0]);
    (kind, (kind.make)(rng))
}
