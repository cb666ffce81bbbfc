//! The program: map text and wishes in, answer lines out. `host program` runs a command on each input, and `host maps`
//! holds a folder of inputs and answers to the judge.

use super::nearest;
use crate::cases::Case;
use crate::compare::Run;
use crate::judge::{Known, DONE, EMPTY, ILL_FORMED, TOO_LONG, TOO_MANY, WRONG_SUM};
use crate::map::MOST_VERTICES;
use crate::table::Table;
use crate::{lib_calls, make_text, plain};
use std::collections::BTreeMap;
use std::io::Write;
use std::path::Path;
use std::process::{Command, Stdio};

/// The numbers that the program can answer; 7 stands in its answer lines.
pub const NUMBERS: &[u8] = &[0, 2, 3, 4, 5, 7, 10, 11, 12];
/// The most bytes of its input.
pub const MOST_BYTES: usize = 19_214;
/// The most wishes.
pub const MOST_WISHES: usize = 256;
/// What sums are multiplied by: any odd number with its bits spread out.
const SUM_BY: u64 = 0x9E37_79B9_7F4A_7C15;

/// A refusal: number and place.
type Refused = (u8, usize);

/// What is left of an input, line by line.
struct Lines<'a> {
    rest: &'a [u8],
    /// The number of the line that was read last, from 1.
    line: usize,
}

impl Lines<'_> {
    /// The numbers of the next line, which must be the tag, so many times four digits, and its 0A.
    fn numbers(&mut self, tag: &[u8; 2], count: usize) -> Result<Vec<u16>, Refused> {
        self.line += 1;
        let ill_formed = (ILL_FORMED, self.line);
        let end = self.rest.iter().position(|&byte| byte == b'\n');
        let line = &self.rest[..end.ok_or(ill_formed)?];
        self.rest = &self.rest[line.len() + 1..];
        let digits = line.strip_prefix(tag).ok_or(ill_formed)?;
        if digits.len() != 4 * count {
            return Err(ill_formed);
        }
        let numbers = digits.chunks(4).map(number);
        numbers.collect::<Option<_>>().ok_or(ill_formed)
    }
}

/// The number of some upper-case hexadecimal digits.
fn number(digits: &[u8]) -> Option<u16> {
    digits.iter().try_fold(0, |number, &digit| match digit {
        b'0'..=b'9' => Some(number * 16 + u16::from(digit - b'0')),
        b'A'..=b'F' => Some(number * 16 + u16::from(digit - b'A') + 10),
        _ => None,
    })
}

/// The map and the wishes of an input, checked in the order of document 01.
fn read(input: &[u8]) -> Result<(Known, Vec<[i16; 3]>), Refused> {
    if input.len() > MOST_BYTES {
        return Err((TOO_LONG, 0));
    }
    let mut lines = Lines {
        rest: input,
        line: 0,
    };
    let count = lines.numbers(b"01", 1)?[0];
    if usize::from(count) > MOST_VERTICES {
        return Err((TOO_MANY, 0));
    }
    let mut list = Vec::new();
    for _ in 0..count {
        list.extend(lines.numbers(b"02", 3)?);
    }
    let sum = list.iter().fold(count, |sum, &n| sum.wrapping_add(n));
    if lines.numbers(b"03", 1)? != [sum] {
        return Err((WRONG_SUM, 0));
    }
    let known = Known::new(list.into_iter().map(|n| n as i16).collect());
    if !known.valid() {
        return Err((known.verdict.number, known.verdict.place.into()));
    }
    let mut wishes = Vec::new();
    while !lines.rest.is_empty() {
        let wish = lines.numbers(b"04", 3)?;
        if wishes.len() == MOST_WISHES {
            return Err((ILL_FORMED, lines.line));
        }
        wishes.push([0, 1, 2].map(|axis| wish[axis] as i16));
    }
    Ok((known, wishes))
}

/// The output due, and the number that is counted.
pub fn judge(input: &[u8]) -> (u8, String) {
    match read(input) {
        Err((number, place)) => (number, format!("06{number:02X}{place:04X}\n")),
        Ok((known, wishes)) => {
            let lines = wishes.iter().map(|&wish| answer_line(&known, wish));
            let number = if known.list.is_empty() { EMPTY } else { DONE };
            (number, lines.collect())
        }
    }
}

/// The answer line of a wish.
fn answer_line(known: &Known, wish: [i16; 3]) -> String {
    let packed = nearest::judge(known, wish);
    format!("05{:02X}{:012X}\n", packed >> 56, packed & 0xFFFF_FFFF_FFFF)
}

/// Compares a program with the judge's: bytes in, bytes out. The judge itself is held to what the kind of input says.
pub fn compare(call: impl Fn(&[u8]) -> Vec<u8>, run: &mut Run) {
    while run.goes_on() {
        let (kind, input) = make_text::input(&mut run.rng);
        let (number, due) = judge(&input);
        let given = call(&input);
        run.kind(kind.name);
        let same = given == due.as_bytes() && kind.due.contains(&number);
        run.count(number, same, || {
            let [given, input] = [&given, &input].map(|bytes| bytes.escape_ascii());
            let kind = kind.name;
            format!("should write {due:?} and writes \"{given}\" for \"{input}\" ({kind})")
        });
    }
}

/// A number that sums up what was written.
fn sum(written: &[u8]) -> u64 {
    written.chunks(8).fold(written.len() as u64, |sum, eight| {
        let mut bytes = [0; 8];
        bytes[..eight.len()].copy_from_slice(eight);
        (sum ^ u64::from_le_bytes(bytes)).wrapping_mul(SUM_BY)
    })
}

/// Times the program with as many wishes as there may be.
pub fn time(call: impl Fn(&[u8]) -> Vec<u8>, cases: &[Case], table: &mut Table) {
    for case in cases {
        let inputs = case.inputs();
        let input = |turn: usize| &inputs[turn % inputs.len()];
        table.row(
            "program",
            case,
            |turn| sum(&call(input(turn))),
            |turn| sum(&plain::program(input(turn))),
        );
    }
}

/// What a command writes when it is given the input; nothing where it cannot be run or fails.
fn run_command(words: &[String], input: &[u8]) -> Option<Vec<u8>> {
    let mut command = Command::new(words.first()?);
    command
        .args(&words[1..])
        .stdin(Stdio::piped())
        .stdout(Stdio::piped());
    let mut child = command.spawn().ok()?;
    // A program that has read enough may end first.
    let _ = child.stdin.take()?.write_all(input);
    let output = child.wait_with_output().ok()?;
    output.status.success().then_some(output.stdout)
}

/// What a command writes, or a word that is never due.
fn written_by(words: &[String], input: &[u8]) -> Vec<u8> {
    run_command(words, input).unwrap_or(b"(not run)".into())
}

/// Compares a compiled program, run once for each input. Is all as it should be?
pub fn compare_command(calls: u64, words: &[String]) -> bool {
    let mut run = Run::new(crate::compare::SEED, calls);
    compare(|input| written_by(words, input), &mut run);
    run.report("program", NUMBERS)
}

/// The files of a folder: for each name its map and its answer, where they are there.
pub type Pairs = BTreeMap<String, [Option<Vec<u8>>; 2]>;

/// Reads the maps and answers of a folder.
fn pairs(folder: &Path) -> std::io::Result<Pairs> {
    let mut found = Pairs::new();
    for entry in std::fs::read_dir(folder)? {
        let path = entry?.path();
        let ending = path.extension().and_then(|e| e.to_str());
        let (at, Some(name)) = (
            ["map", "answer"].iter().position(|&e| Some(e) == ending),
            path.file_stem().and_then(|n| n.to_str()),
        ) else {
            continue;
        };
        if let Some(at) = at {
            found.entry(name.to_string()).or_default()[at] = Some(std::fs::read(&path)?);
        }
    }
    Ok(found)
}

/// What is wrong with the maps and answers: each answer must be what the judge writes and what the program writes.
pub fn wrong_pairs(pairs: &Pairs, program: impl Fn(&[u8]) -> Vec<u8>) -> Vec<String> {
    let wrong = |(name, pair): (&String, &[Option<Vec<u8>>; 2])| {
        let [Some(map), Some(answer)] = pair else {
            return Some(format!("{name} lacks its map or its answer"));
        };
        let due = judge(map).1;
        let given = program(map);
        match (answer == due.as_bytes(), given == due.as_bytes()) {
            (true, true) => None,
            (false, _) => Some(format!("{name}.answer is not {due:?}")),
            _ => Some(format!(
                "{name}: \"{}\" is written and not {due:?}",
                given.escape_ascii()
            )),
        }
    };
    pairs.iter().filter_map(wrong).collect()
}

/// Holds a folder of maps and answers to the judge, and the program to both: the linked one, and a command where its
/// words are given. Is all as it should be?
pub fn maps_command(folder: &str, words: &[String]) -> bool {
    let pairs = match pairs(Path::new(folder)) {
        Ok(pairs) if !pairs.is_empty() => pairs,
        _ => {
            println!("{folder} has no maps");
            return false;
        }
    };
    let mut wrong = wrong_pairs(&pairs, lib_calls::program);
    if !words.is_empty() {
        wrong.extend(wrong_pairs(&pairs, |map| written_by(words, map)));
    }
    wrong.iter().for_each(|text| println!("  {text}"));
    println!("{} maps, {} wrong", pairs.len(), wrong.len());
    wrong.is_empty()
}
