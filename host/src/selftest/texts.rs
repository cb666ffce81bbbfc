//! Generated inputs of the program have what their kind says; wrong programs, wrong folders of maps and wrong streams are
//! reported.

use super::Test;
use crate::functions::program::{self, compare, judge, wrong_pairs, Pairs};
use crate::make_text::KINDS;
use crate::rng::Rng;
use crate::streams::{wrong_closed, wrong_pieces, Closed, PATIENCE, PRINTED};
use std::time::Duration;

/// Inputs that are made of each kind.
const INPUTS: usize = 60;
/// How long a program is waited for that does not end.
const IMPATIENCE: Duration = Duration::from_millis(500);

/// What an input of a kind has, by the kind's name.
type Has = (&'static str, fn(&[u8]) -> bool);

/// A wrong program by its name, and how it changes its input before it reads it.
type Reader = (&'static str, fn(&[u8]) -> Vec<u8>);

/// How many bytes of the input are so.
fn count(input: &[u8], is: impl Fn(u8) -> bool) -> usize {
    input.iter().filter(|&&byte| is(byte)).count()
}

/// How many lines begin with these bytes.
fn lines_with(input: &[u8], tag: &[u8]) -> usize {
    let lines = input.split(|&byte| byte == b'\n');
    lines.filter(|line| line.starts_with(tag)).count()
}

/// Is there a line with nothing in it?
fn has_empty_line(input: &[u8]) -> bool {
    input.starts_with(b"\n") || input.windows(2).any(|two| two == b"\n\n")
}

/// The kinds whose inputs can be told by looking at their bytes.
const PROPERTIES: &[Has] = &[
    ("no wish", |input| lines_with(input, b"04") == 0),
    ("empty map", |input| input.starts_with(b"010000\n030000\n")),
    ("256 wishes", |input| lines_with(input, b"04") == 256),
    ("257 wishes", |input| lines_with(input, b"04") == 257),
    ("more wishes", |input| lines_with(input, b"04") > 257),
    ("19,214 bytes", |input| input.len() == 19_214),
    ("19,214 bytes, ill formed", |input| input.len() == 19_214),
    ("19,215 bytes", |input| input.len() == 19_215),
    ("more bytes", |input| input.len() > 19_215),
    ("one lower-case digit", |input| {
        count(input, |byte| byte.is_ascii_lowercase()) == 1
    }),
    ("all lower case", |input| {
        count(input, |byte| byte.is_ascii_uppercase()) == 0
            && count(input, |byte| byte.is_ascii_lowercase()) > 0
    }),
    ("0A missing at the end", |input| !input.ends_with(b"\n")),
    ("0A missing within", |input| {
        input.ends_with(b"\n")
            && input
                .split(|&byte| byte == b'\n')
                .any(|l| l.len() > 11 && l.len() != 14)
    }),
    ("one CR LF", |input| count(input, |byte| byte == b'\r') == 1),
    ("all CR LF", |input| {
        count(input, |byte| byte == b'\r') == count(input, |byte| byte == b'\n')
    }),
    ("blank", |input| {
        count(input, |byte| byte == b' ' || byte == b'\t') == 1
    }),
    ("empty line", has_empty_line),
    ("no input", |input| input.is_empty()),
];

/// The number that is due for an input of each kind is one that the kind names, and its bytes are what it says.
fn kinds(test: &mut Test) {
    for kind in KINDS {
        let mut rng = Rng::new(INPUTS as u64);
        let inputs: Vec<Vec<u8>> = (0..INPUTS).map(|_| (kind.make)(&mut rng)).collect();
        let due = inputs
            .iter()
            .all(|input| kind.due.contains(&judge(input).0));
        test.holds(&format!("number due: {}", kind.name), due);
    }
    for (name, has) in PROPERTIES {
        let mut rng = Rng::new(INPUTS as u64);
        let kind = KINDS.iter().find(|kind| kind.name == *name);
        let all = kind.is_some_and(|kind| (0..INPUTS).all(|_| has(&(kind.make)(&mut rng))));
        test.holds(&format!("inputs: {name}"), all);
    }
}

/// The judge's output as bytes.
fn honest(input: &[u8]) -> Vec<u8> {
    judge(input).1.into_bytes()
}

/// Wrong programs that read another input than the one they are given: the change is made first.
const READ_WRONG: &[Reader] = &[
    ("lower-case digits taken", |input| {
        input.to_ascii_uppercase()
    }),
    ("carriage returns passed over", |input| {
        without(input, b"\r")
    }),
    ("blanks passed over", |input| without(input, b" \t")),
    ("the last 0A not needed", |input| match input.last() {
        None | Some(b'\n') => input.to_vec(),
        _ => [input, b"\n"].concat(),
    }),
    ("empty lines passed over", |input| {
        let lines = input.split_inclusive(|&byte| byte == b'\n');
        let kept: Vec<&[u8]> = lines.filter(|line| line != b"\n").collect();
        kept.concat()
    }),
    ("19,215 bytes taken", |input| {
        input[..input.len().min(19_214)].to_vec()
    }),
    ("19,214 bytes refused", |input| match input.len() {
        19_214 => [input, b"\n"].concat(),
        _ => input.to_vec(),
    }),
    ("wishes without sign", |input| {
        wishes(input, |wish| {
            if wish[2] > b'7' {
                wish[2..6].copy_from_slice(b"7FFF");
            }
        })
    }),
    ("wishes cut to ten bits", |input| {
        wishes(input, |wish| {
            let ten = u16::from_str_radix(&String::from_utf8_lossy(&wish[10..14]), 16);
            if let Ok(ten) = ten {
                wish.splice(10..14, format!("{:04X}", ten & 1023).into_bytes());
            }
        })
    }),
    ("257th wish passed over", |input| {
        let lines: Vec<&[u8]> = input.split_inclusive(|&byte| byte == b'\n').collect();
        let map = lines.iter().take_while(|line| !line.starts_with(b"03"));
        let kept = lines.len().min(map.count() + 1 + 256);
        lines[..kept].concat()
    }),
    ("one wish fewer", |input| {
        let lines: Vec<&[u8]> = input.split_inclusive(|&byte| byte == b'\n').collect();
        let wish = lines.last().is_some_and(|line| line.starts_with(b"04"));
        lines[..lines.len() - usize::from(wish)].concat()
    }),
];

/// The input without these bytes.
fn without(input: &[u8], bytes: &[u8]) -> Vec<u8> {
    let kept = input.iter().filter(|byte| !bytes.contains(byte));
    kept.copied().collect()
}

/// The input with its well formed wishes changed.
fn wishes(input: &[u8], change: impl Fn(&mut Vec<u8>)) -> Vec<u8> {
    let lines = input.split_inclusive(|&byte| byte == b'\n');
    let changed = lines.map(|line| {
        let mut line = line.to_vec();
        if line.starts_with(b"04") && line.len() == 15 {
            change(&mut line);
        }
        line
    });
    changed.collect::<Vec<_>>().concat()
}

/// Wrong programs that write something else than what is due: each changes one text to another.
const WRITTEN_WRONG: &[(&str, &str, &str)] = &[
    ("lower-case digits", "0A", "0a"),
    ("refusal 7 as a refusal", "0507000000000000", "06070000"),
    ("numbers in ten", "060A", "0610"),
    ("sum not looked at", "060B0000\n", ""),
    ("places from 0", "060A0001", "060A0000"),
    ("places in ten", "060A000A", "060A0010"),
    ("no end of a line", "\n", ""),
    ("CR LF", "\n", "\r\n"),
    ("2 as 10", "06020000", "060A0002"),
    ("a blank", "0500", "0500 "),
];

/// Answers to wishes that stand before an ill formed one are written, and then the refusal.
fn not_all_or_nothing(input: &[u8]) -> Vec<u8> {
    let (number, due) = judge(input);
    let place = due.get(4..8).unwrap_or("0");
    let line = usize::from_str_radix(place, 16).unwrap_or(0);
    let lines: Vec<&[u8]> = input.split_inclusive(|&byte| byte == b'\n').collect();
    match number == 10 && line <= lines.len() && line > 0 {
        false => due.into_bytes(),
        true => match judge(&lines[..line - 1].concat()) {
            (0, before) => [before, due].concat().into_bytes(),
            _ => due.into_bytes(),
        },
    }
}

/// Wrong programs.
fn liars(test: &mut Test) {
    for (name, change) in READ_WRONG {
        test.reports(&format!("program, {name}"), |run| {
            compare(|input| honest(&change(input)), run)
        });
    }
    for (name, due, given) in WRITTEN_WRONG {
        test.reports(&format!("program, {name}"), |run| {
            compare(|input| judge(input).1.replace(due, given).into_bytes(), run)
        });
    }
    test.reports("program, answers before a refusal", |run| {
        compare(not_all_or_nothing, run)
    });
    test.reports("program, nothing written", |run| {
        compare(|_| Vec::new(), run)
    });
}

/// A folder with a right map, and what is changed in it.
fn folder(change: impl FnOnce(&mut [Option<Vec<u8>>; 2])) -> Pairs {
    let map = b"010000\n030000\n04000000000000\n";
    let mut pair = [Some(map.to_vec()), Some(honest(map))];
    change(&mut pair);
    Pairs::from([("one".to_string(), pair)])
}

/// A right folder of maps passes; each wrong one is reported.
fn folders(test: &mut Test) {
    let right = folder(|_| {});
    test.holds("right maps", wrong_pairs(&right, honest).is_empty());
    let mut wrong = |name: &str, pairs: Pairs| {
        test.holds(name, wrong_pairs(&pairs, honest).len() == 1);
    };
    wrong("a map missing", folder(|pair| pair[0] = None));
    wrong("an answer missing", folder(|pair| pair[1] = None));
    wrong(
        "an answer with a wrong byte",
        folder(|pair| pair[1] = Some(b"0507000000000001\n".to_vec())),
    );
    wrong(
        "an answer without its end",
        folder(|pair| pair[1] = Some(b"0507000000000000".to_vec())),
    );
    let program_wrong = wrong_pairs(&right, |_| b"06070000\n".to_vec());
    test.holds("a wrong program on a map", program_wrong.len() == 1);
}

/// A program of the shell that answers the printed map, with what it does in place of reading its input and of writing
/// its answer.
fn shell(read: &str, write: &str) -> Vec<String> {
    let due = judge(PRINTED).1.replace('\n', "\\n");
    let text = format!("say() {{ printf '{due}' 2>/dev/null; }}; {read}; {write}");
    ["sh", "-c", &text].map(String::from).to_vec()
}

/// Slow input and closed outputs: a right program passes, wrong ones are reported.
fn streams(test: &mut Test) {
    let whole = "cat >/dev/null";
    let right = shell(whole, "say; exit 0");
    let slow = |words: &[String]| wrong_pieces(words, PRINTED, &[1, 2, 3], PATIENCE);
    let at_once = |words: &[String]| wrong_pieces(words, PRINTED, &[PRINTED.len()], PATIENCE);
    test.holds("right, slow input", slow(&right).is_none());
    let one_read = format!(
        "[ $(dd bs=65536 count=1 2>/dev/null | wc -c) -eq {} ] || exit 0",
        PRINTED.len()
    );
    let one_read = shell(&one_read, "say");
    test.holds("one read, all at once", at_once(&one_read).is_none());
    test.holds("not reported: one read", slow(&one_read).is_some());
    for closed in [Closed::NoReader, Closed::Full] {
        let mut ends = |name: &str, write: &str, right: bool, wait| {
            let wrong = wrong_closed(&shell(whole, write), closed, wait);
            test.holds(&format!("{name}, {closed:?}"), wrong.is_none() == right);
        };
        ends("right", "say; exit 0", true, PATIENCE);
        ends(
            "not reported: a status",
            "trap '' PIPE; say || exit 3",
            false,
            PATIENCE,
        );
        let again = "trap '' PIPE; until say; do sleep 0.1; done";
        ends("not reported: tries for ever", again, false, IMPATIENCE);
    }
}

/// All tests of generated inputs and of the program's comparison.
pub fn texts(test: &mut Test) {
    kinds(test);
    liars(test);
    folders(test);
    streams(test);
    test.passes("ordinary Rust, program", program::NUMBERS, |run| {
        compare(crate::plain::program, run)
    });
}
