//! One module a function: the answer that document 01 asks for, the comparison with a library's answer, and what is
//! timed. The list below names the functions that are compared with the library.

use crate::cases::Case;
use crate::compare::{answers, Run};
use crate::judge::Known;
use crate::lib_calls;
use crate::make;
use crate::rng::Rng;
use crate::table::Table;

pub mod cell;
pub mod check;
pub mod corner;
pub mod join;
pub mod make_box;
pub mod nearest;
pub mod nearest_distance;
pub mod nearest_many;
pub mod plane;
pub mod program;
pub mod section;
pub mod split;

/// The questions that are put to one list.
const QUESTIONS: usize = 8;

/// A function of the library, or the program.
pub struct Function {
    /// Its name.
    pub name: &'static str,
    /// The numbers that it can answer; a long run must meet them all.
    pub numbers: &'static [u8],
    /// Compares it with the judge.
    pub compare: fn(&mut Run),
    /// Compares it with the judge in every one of some small cases, where there are such.
    pub every: Option<fn(&mut Run)>,
    /// Times it beside the ordinary Rust version.
    pub time: fn(&[Case], &mut Table),
}

/// A function by its name and its module, which has the same name as the call.
macro_rules! function {
    ($name:literal, $module:ident) => {
        Function {
            name: $name,
            numbers: $module::NUMBERS,
            compare: |run| $module::compare(lib_calls::$module, run),
            every: None,
            time: |cases, table| $module::time(lib_calls::$module, cases, table),
        }
    };
}

/// The functions that the library has, and the program. A function is added by its line.
pub const FUNCTIONS: &[Function] = &[
    function!("travelmap_check", check),
    function!("travelmap_box", make_box),
    function!("travelmap_cell", cell),
    function!("travelmap_corner", corner),
    function!("travelmap_plane", plane),
    function!("travelmap_section", section),
    function!("travelmap_split", split),
    Function {
        every: Some(|run| join::compare_every(lib_calls::join, run)),
        ..function!("travelmap_join", join)
    },
    function!("travelmap_nearest", nearest),
    function!("travelmap_nearest_distance", nearest_distance),
    function!("travelmap_nearest_each", nearest_many),
    Function {
        name: "travel",
        numbers: program::NUMBERS,
        compare: |run| program::compare(lib_calls::program_in_pieces, run),
        every: None,
        time: |cases, table| program::time(lib_calls::program, cases, table),
    },
];

/// The functions whose names end as one of these, or all.
pub fn chosen(names: &[String]) -> Vec<&'static Function> {
    let named = |f: &&Function| names.iter().any(|n| f.name.ends_with(n.as_str()));
    FUNCTIONS
        .iter()
        .filter(|f| names.is_empty() || named(f))
        .collect()
}

/// Compares a function of a list and three numbers; `number` reads the refusal in an answer.
fn compare_asked(
    make_list: impl Fn(&mut Rng) -> Vec<i16>,
    call: impl Fn(&[i16], [i16; 3]) -> u64,
    judge: impl Fn(&Known, [i16; 3]) -> u64,
    number: impl Fn(u64) -> u8,
    run: &mut Run,
) {
    while run.goes_on() {
        let known = Known::new(make_list(&mut run.rng));
        for _ in 0..QUESTIONS {
            let asked = make::asked(&mut run.rng, &known.vertices);
            let due = judge(&known, asked);
            let given = call(&known.list, asked);
            let same = given == due && known.untouched();
            run.count(number(due), same, || {
                format!("{} for {asked:?} of {}", answers(due, given), known.text())
            });
        }
    }
}

/// Times a function of a list and three numbers.
fn time_asked(
    name: &str,
    ours: impl Fn(&[i16], [i16; 3]) -> u64,
    plain: impl Fn(&[i16], [i16; 3]) -> u64,
    cases: &[Case],
    table: &mut Table,
) {
    for case in cases {
        table.row(
            name,
            case,
            |turn| ours(&case.list, case.asked(turn)),
            |turn| plain(&case.list, case.asked(turn)),
        );
    }
}

/// Times a function of a list and a wish, for wishes of each place.
fn time_wishes(
    name: &str,
    ours: impl Fn(&[i16], [i16; 3]) -> u64,
    plain: impl Fn(&[i16], [i16; 3]) -> u64,
    cases: &[Case],
    table: &mut Table,
) {
    for case in cases {
        for (word, wishes) in &case.wishes {
            let wish = |turn: usize| wishes[turn % wishes.len()];
            table.row(
                &format!("{name}, {word}"),
                case,
                |turn| ours(&case.list, wish(turn)),
                |turn| plain(&case.list, wish(turn)),
            );
        }
    }
}
