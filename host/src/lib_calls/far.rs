//! The calls where the library was compiled for x86-64 and this machine is another: far/far.c, linked with the
//! library, runs under an emulator and is asked through pipes. The emulator is the program that the variable
//! TRAVELMAP_EMULATOR names, else qemu-x86_64 on the path.

use std::io::{Read, Write};
use std::path::PathBuf;
use std::process::{exit, Child, ChildStdin, ChildStdout, Command, Stdio};
use std::sync::{LazyLock, Mutex};

/// The functions as far.c numbers them.
#[derive(Clone, Copy)]
enum Far {
    Check,
    Box,
    Cell,
    Corner,
    Plane,
    Section,
    Split,
    Join,
    Nearest,
    Distance,
    NearestMany,
    Program,
}

/// More than the program may write, so that too much shows.
const MOST_WRITTEN: usize = 8_192;
/// The slices that a call has at most.
const SLICES: usize = 4;
/// The numbers that a call has at most, beside its slices.
const NUMBERS: usize = 6;

/// The program behind the pipes.
struct Served {
    _program: Child,
    calls: ChildStdin,
    replies: ChildStdout,
}

static SERVED: LazyLock<Mutex<Served>> = LazyLock::new(|| Mutex::new(start()));

/// Ends the host: the library cannot be asked, or it broke the rules of lending.
fn stop(why: &str) -> ! {
    println!("{why}");
    exit(1)
}

/// The emulator.
fn emulator() -> PathBuf {
    let named = std::env::var_os("TRAVELMAP_EMULATOR");
    named.unwrap_or("qemu-x86_64".into()).into()
}

/// Starts the program.
fn start() -> Served {
    let mut command = Command::new(emulator());
    command
        .arg(env!("TRAVELMAP_FAR"))
        .stdin(Stdio::piped())
        .stdout(Stdio::piped());
    let Ok(mut program) = command.spawn() else {
        stop("no emulator for x86-64: name one in TRAVELMAP_EMULATOR");
    };
    let (Some(calls), Some(replies)) = (program.stdin.take(), program.stdout.take()) else {
        stop("the library's program has no pipes");
    };
    Served {
        _program: program,
        calls,
        replies,
    }
}

/// The bytes of numbers.
fn bytes(numbers: &[i16]) -> impl Iterator<Item = u8> + '_ {
    numbers.iter().flat_map(|n| n.to_le_bytes())
}

/// Makes one call: the word is an axis or an operation.
fn call(
    function: Far,
    word: u32,
    asked: &[i16],
    inputs: &[&[i16]],
    results: &mut [&mut [i16]],
) -> u64 {
    let mut message: Vec<u8> = Vec::new();
    let mut numbers = [0; NUMBERS];
    numbers[..asked.len()].copy_from_slice(asked);
    let mut lengths = [0; SLICES];
    let given = inputs
        .iter()
        .map(|s| s.len())
        .chain(results.iter().map(|s| s.len()));
    lengths
        .iter_mut()
        .zip(given)
        .for_each(|(to, length)| *to = length as u32);
    message.extend([function as u32, word].iter().flat_map(|n| n.to_le_bytes()));
    message.extend(bytes(&numbers));
    let counts = [inputs.len() as u32, results.len() as u32];
    message.extend(counts.iter().chain(&lengths).flat_map(|n| n.to_le_bytes()));
    inputs.iter().for_each(|slice| message.extend(bytes(slice)));
    results
        .iter()
        .for_each(|slice| message.extend(bytes(slice)));
    reply(&message, results)
        .unwrap_or_else(|_| stop("the library's program ended: it lacks this function"))
}

/// Sends a call and reads what came of it.
fn reply(message: &[u8], results: &mut [&mut [i16]]) -> std::io::Result<u64> {
    let Ok(mut served) = SERVED.lock() else {
        stop("a call was broken off");
    };
    served.calls.write_all(message)?;
    let (mut answer, mut stray) = ([0; 8], [0; 8]);
    served.replies.read_exact(&mut answer)?;
    served.replies.read_exact(&mut stray)?;
    for result in results {
        let mut contents = vec![0; 2 * result.len()];
        served.replies.read_exact(&mut contents)?;
        let numbers = contents
            .as_chunks()
            .0
            .iter()
            .map(|&n| i16::from_le_bytes(n));
        result.iter_mut().zip(numbers).for_each(|(to, n)| *to = n);
    }
    if u64::from_le_bytes(stray) != 0 {
        stop("the library wrote to something that is no result");
    }
    Ok(u64::from_le_bytes(answer))
}

/// Checks a list.
pub fn check(list: &[i16]) -> u64 {
    call(Far::Check, 0, &[], &[list], &mut [])
}

/// Makes the map of a box from its low and high end on each axis.
pub fn make_box(ends: [[i16; 2]; 3], result: &mut [i16]) -> u64 {
    call(Far::Box, 0, ends.as_flattened(), &[], &mut [result])
}

/// Is the cell permitted?
pub fn cell(list: &[i16], asked: [i16; 3]) -> u64 {
    call(Far::Cell, 0, &asked, &[list], &mut [])
}

/// The corner report.
pub fn corner(list: &[i16], asked: [i16; 3]) -> u64 {
    call(Far::Corner, 0, &asked, &[list], &mut [])
}

/// The part of the list at a focus number.
pub fn plane(list: &[i16], focus: i16) -> u64 {
    call(Far::Plane, 0, &[focus], &[list], &mut [])
}

/// The section at a code of an axis.
pub fn section(list: &[i16], axis: u32, code: i16, result: &mut [i16]) -> u64 {
    call(Far::Section, axis, &[code], &[list], &mut [result])
}

/// The two halves at a corner number of an axis.
pub fn split(list: &[i16], axis: u32, at: i16, low: &mut [i16], high: &mut [i16]) -> u64 {
    call(Far::Split, axis, &[at], &[list], &mut [low, high])
}

/// Joins two maps.
pub fn join(operation: u32, one: &[i16], other: &[i16], result: &mut [i16]) -> u64 {
    call(Far::Join, operation, &[], &[one, other], &mut [result])
}

/// The nearest permitted cell to a wish.
pub fn nearest(list: &[i16], wish: [i16; 3]) -> u64 {
    call(Far::Nearest, 0, &wish, &[list], &mut [])
}

/// The distance from a wish to the nearest permitted cell.
pub fn nearest_distance(list: &[i16], wish: [i16; 3]) -> u64 {
    call(Far::Distance, 0, &wish, &[list], &mut [])
}

/// The nearest permitted cells to many wishes.
pub fn nearest_many(list: &[i16], wishes: &[i16], result: &mut [i16]) -> u64 {
    call(Far::NearestMany, 0, &[], &[list, wishes], &mut [result])
}

/// What the program writes for an input. Bytes are sent two to a number.
pub fn program(input: &[u8]) -> Vec<u8> {
    let numbers: Vec<i16> = input
        .chunks(2)
        .map(|two| i16::from_le_bytes([two[0], two.get(1).copied().unwrap_or(0)]))
        .collect();
    let mut output = vec![0; MOST_WRITTEN.div_ceil(2)];
    let bytes_read = input.len() as u32;
    let written = call(
        Far::Program,
        bytes_read,
        &[],
        &[&numbers],
        &mut [&mut output],
    );
    bytes(&output).take(written as usize).collect()
}

/// The same: here an input comes at once.
pub fn program_in_pieces(input: &[u8]) -> Vec<u8> {
    program(input)
}
