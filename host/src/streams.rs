//! The program between its standard input and output. Input that comes in pieces gives the same bytes as input that
//! comes at once. An output that takes nothing does not keep the program from ending: `main` of crates/travel has no
//! status of its own, so it ends with status 0, or by SIGPIPE where the system ends a program that nobody reads.

use crate::functions::program::judge;
use crate::make_text::KINDS;
use crate::rng::Rng;
use std::fs::File;
use std::io::{Read, Write};
use std::os::unix::process::ExitStatusExt;
use std::process::{Child, Command, ExitStatus, Stdio};
use std::time::{Duration, Instant};

/// The printed map, with its wishes.
pub const PRINTED: &[u8] = include_bytes!("../../maps/printed.map");
/// How long a program may take to end.
pub const PATIENCE: Duration = Duration::from_secs(20);
/// What passes between two pieces of input, and between two looks at whether a program has ended.
const PAUSE: Duration = Duration::from_millis(2);
/// The signal of a program that writes where nobody reads.
const SIGPIPE: i32 = 13;
/// Kinds of long inputs; the last has more bytes than the program takes.
const LONG: [&str; 2] = ["19,214 bytes", "19,215 bytes"];
/// The lengths of the pieces of a long input, in turn.
const PIECES: &[usize] = &[1, 4096, 1000, 4095];
/// The seed of the long inputs.
const SEED: u64 = 0x7069_6563_6573;

/// An output that takes nothing.
#[derive(Clone, Copy, Debug)]
pub enum Closed {
    /// A pipe whose reader is gone.
    NoReader,
    /// A device that is full.
    Full,
}

/// A program started with an input to come.
fn start(words: &[String], output: Stdio) -> Option<Child> {
    let mut command = Command::new(words.first()?);
    command.args(&words[1..]).stdin(Stdio::piped());
    command.stdout(output).spawn().ok()
}

/// Gives a program its input in pieces of these lengths, in turn, and ends it.
fn give(child: &mut Child, mut input: &[u8], lengths: &[usize]) {
    let Some(mut pipe) = child.stdin.take() else {
        return;
    };
    for &length in lengths.iter().cycle() {
        let (piece, rest) = input.split_at(length.min(input.len()));
        // A program that has read enough may end first.
        if pipe.write_all(piece).is_err() || rest.is_empty() {
            return;
        }
        input = rest;
        std::thread::sleep(PAUSE);
    }
}

/// How a program ends; nothing where it does not end in time and is stopped.
fn end(child: &mut Child, patience: Duration) -> Option<ExitStatus> {
    let start = Instant::now();
    while start.elapsed() < patience {
        if let Ok(Some(status)) = child.try_wait() {
            return Some(status);
        }
        std::thread::sleep(PAUSE);
    }
    let _ = child.kill();
    let _ = child.wait();
    None
}

/// What a program writes that is given its input in pieces; nothing where it fails or does not end.
fn written(words: &[String], input: &[u8], lengths: &[usize], wait: Duration) -> Option<Vec<u8>> {
    let mut child = start(words, Stdio::piped())?;
    give(&mut child, input, lengths);
    end(&mut child, wait)?.success().then_some(())?;
    let mut output = Vec::new();
    child.stdout.take()?.read_to_end(&mut output).ok()?;
    Some(output)
}

/// What is wrong with a program that is given an input in pieces.
pub fn wrong_pieces(
    words: &[String],
    input: &[u8],
    lengths: &[usize],
    wait: Duration,
) -> Option<String> {
    let due = judge(input).1;
    match written(words, input, lengths, wait) {
        Some(given) if given == due.as_bytes() => None,
        given => Some(format!(
            "should write {due:?} and writes {:?} for {} bytes in pieces",
            given.map(|bytes| bytes.escape_ascii().to_string()),
            input.len()
        )),
    }
}

/// How a program ends whose output takes nothing; nothing where it does not end.
fn ended_closed(words: &[String], closed: Closed, wait: Duration) -> Option<ExitStatus> {
    let output = match closed {
        Closed::NoReader => Stdio::piped(),
        Closed::Full => File::options().write(true).open("/dev/full").ok()?.into(),
    };
    let mut child = start(words, output)?;
    // The reader of a pipe goes before the program has an input to answer.
    drop(child.stdout.take());
    give(&mut child, PRINTED, &[PRINTED.len()]);
    end(&mut child, wait)
}

/// What is wrong with a program whose output takes nothing.
pub fn wrong_closed(words: &[String], closed: Closed, wait: Duration) -> Option<String> {
    match ended_closed(words, closed, wait) {
        Some(status) if status.success() || status.signal() == Some(SIGPIPE) => None,
        other => Some(format!("{closed:?}: should end, and comes to {other:?}")),
    }
}

/// A long input.
fn long(name: &str) -> Option<Vec<u8>> {
    let kind = KINDS.iter().find(|kind| kind.name == name)?;
    Some((kind.make)(&mut Rng::new(SEED)))
}

/// Tries a compiled program, run as these words. Is all as it should be?
pub fn streams_command(words: &[String]) -> bool {
    let mut tried = vec![wrong_pieces(words, PRINTED, &[1], PATIENCE)];
    tried.extend(LONG.map(|name| match long(name) {
        Some(input) => wrong_pieces(words, &input, PIECES, PATIENCE),
        None => Some(format!("there is no kind {name}")),
    }));
    tried.extend([Closed::NoReader, Closed::Full].map(|c| wrong_closed(words, c, PATIENCE)));
    let wrong: Vec<&String> = tried.iter().flatten().collect();
    wrong.iter().for_each(|text| println!("  {text}"));
    println!("{} streams, {} wrong", tried.len(), wrong.len());
    wrong.is_empty()
}
