//! Judges the travel map library and the program. Commands: compare (with a plain grid), maps (the same of a folder of
//! inputs and answers), program (the same of a command), streams (a command's input and output), selftest (of the
//! judge), bench (times, stack and size), slow (a search for slow maps).

mod bench;
mod cases;
mod clock;
mod compare;
mod damage;
mod families;
mod finds;
mod functions;
mod judge;
mod lib_calls;
mod make;
mod make_text;
mod many;
mod map;
mod plain;
mod rng;
mod selftest;
mod size;
mod slow;
mod stack;
mod streams;
mod summary;
mod table;

use std::process::ExitCode;

const USAGE: &str = "host compare [CALLS [NAME...]]   compares every function (or those named) with a plain grid, CALLS times each
host maps FOLDER [WORD...]       holds each NAME.answer to NAME.map, and the program to both, as linked and run as these words
host program CALLS WORD...       compares a compiled program, run as these words for each of CALLS inputs
host streams WORD...             tries the program with input that comes in pieces, and with outputs that take nothing
host selftest                    checks that the comparison reports wrong answers, and no right ones
host bench [NAME...]             times every function (or those named) beside ordinary Rust; of all, stack and size too: Markdown tables
host slow [SECONDS [NAME...]]    looks for slow maps of every function (or of those named) for about so long: a Markdown table
host many                        times many wishes to one map beside an r-tree that is made once: a Markdown table
host stack                       measures the stack of every function alone";

/// Says which commands there are.
fn wrong_command() -> ExitCode {
    eprintln!("{USAGE}");
    ExitCode::from(2)
}

/// Runs one command: status 0 when all is as it should be, 1 when not, 2 for a wrong command.
fn main() -> ExitCode {
    let words: Vec<String> = std::env::args().skip(1).collect();
    let calls = words.get(1).map_or(Ok(compare::CALLS), |word| word.parse());
    let rest = words.get(2..).unwrap_or(&[]);
    let good = match (words.first().map(String::as_str), calls) {
        (Some("compare"), Ok(calls)) => compare::compare(calls, rest),
        (Some("maps"), _) if words.len() > 1 => functions::program::maps_command(&words[1], rest),
        (Some("program"), Ok(calls)) => functions::program::compare_command(calls, rest),
        (Some("streams"), _) => streams::streams_command(&words[1..]),
        (Some("selftest"), _) => selftest::selftest(),
        (Some("bench"), _) => bench::bench(&words[1..]),
        (Some("slow"), _) => {
            let seconds = words.get(1).map_or(Ok(slow::SECONDS), |word| word.parse());
            match seconds {
                Ok(seconds) => slow::slow(seconds, rest),
                Err(_) => return wrong_command(),
            }
        }
        (Some("many"), _) => many::many(&cases::Cases::new()),
        (Some("stack"), _) => bench::stack_table(),
        _ => return wrong_command(),
    };
    match good {
        true => ExitCode::SUCCESS,
        false => ExitCode::FAILURE,
    }
}
