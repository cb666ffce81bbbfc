//! What calls take, as tables in Markdown: times beside ordinary Rust, joins beside two sweeps of ordinary Rust, stack, and
//! the size of the library.

use crate::cases::Cases;
use crate::functions::{chosen, FUNCTIONS};
use crate::lib_calls::EMULATED;
use crate::summary::{growth_table, join_table, line_table, slow_table, worst_table};
use crate::table::{Pace, Table};
use crate::{many, size, stack};

/// Times every function and writes the tables of times. Were all answers the same?
fn times(cases: &Cases, names: &[String]) -> bool {
    let mut table = Table::of_times(Pace::BENCH);
    for function in chosen(names) {
        (function.time)(cases.of(function.name), &mut table);
    }
    println!("{}", worst_table(&table.lines, &table.joins));
    println!("{}", growth_table(&table.lines, &table.joins));
    println!("{}", slow_table(&table.lines, &table.joins));
    println!("{}", line_table(&table.lines));
    println!("{}", join_table(&table.joins));
    if EMULATED {
        println!("The library ran under an emulator and behind a pipe: its times say nothing.\n");
    }
    for wrong in &table.wrong {
        eprintln!("answers differ: {wrong}");
    }
    table.wrong.is_empty()
}

/// Writes the table of stack. Was every function measured?
fn stacks(cases: &Cases) -> bool {
    if EMULATED {
        println!("The library runs behind a pipe: its stack is not measured.");
        return false;
    }
    let mut lines = Vec::new();
    let mut measured = true;
    for function in FUNCTIONS {
        let mut table = Table::of_stack();
        (function.time)(cases.of(function.name), &mut table);
        let (bytes, map) = table.deepest;
        measured &= bytes > 0 && bytes < stack::SIZE;
        lines.push(format!("| {} | {bytes} | {map} |", function.name));
    }
    println!("| function | stack, bytes | of |\n|---|---:|---|");
    println!("{}\n", lines.join("\n"));
    measured
}

/// Writes the table of stack alone.
pub fn stack_table() -> bool {
    stacks(&Cases::new())
}

/// Writes all tables; those of times are of the functions that are named, or of all. Is all as it should be?
pub fn bench(names: &[String]) -> bool {
    let cases = Cases::new();
    let same = times(&cases, names);
    if !names.is_empty() {
        return same;
    }
    many::many(&cases);
    let measured = EMULATED || stacks(&cases);
    let sized = size::size_table();
    same && measured && sized
}
