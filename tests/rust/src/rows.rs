//! The rows of tests/rows; their format is in FORMAT.md there.

pub mod job;

use std::fs;
use std::path::Path;

use crate::calls::{Cut, Look, Trace};
use crate::limits::Limits;
use crate::tally::Tally;

/// What a row says the call gives: the 32 bytes or the line, or the refusal.
enum Answer {
    Ok(Vec<u8>),
    Refused(u32),
}

impl Answer {
    fn read(words: &[&str]) -> Self {
        match words {
            ["ok", answer] => Answer::Ok(bytes(answer)),
            ["refused", n] | ["refused", n, "-"] => Answer::Refused(n.parse().expect("a decimal number")),
            _ => panic!("not an answer: {words:?}"),
        }
    }

    /// Whether a call gave this answer; every byte that the answer does not give must be `fill`.
    fn compare(&self, returned: u32, buf: &[u8], fill: u8) -> Result<(), String> {
        let mut expected = vec![fill; buf.len()];
        let number = match self {
            Answer::Ok(answer) => {
                expected[..answer.len()].copy_from_slice(answer);
                0
            }
            Answer::Refused(n) => *n,
        };
        if (returned, buf) == (number, &expected) {
            Ok(())
        } else {
            Err(format!("expected {number}, {expected:02x?}\n     got {returned}, {buf:02x?}"))
        }
    }
}

pub const BASE: &str = "base.rows";
pub const JOB_1: &str = "job1.rows";
pub const JOB_2: &str = "job2.rows";
pub const JOB_4: &str = "job4.rows";
pub const JOB_5: &str = "job5.rows";
pub const JOB_6: &str = "job6.rows";
pub const JOB_7: &str = "job7.rows";
pub const JOB_8: &str = "job8.rows";

/// Runs the rows of look.
pub fn run_look(through: &str, look: impl Fn(&Look, &mut [u8]) -> u32) {
    run(BASE, &[("look", 292)], through, |words| {
        let ["look", agreed, formats, msg, lent, fill, "=", answer @ ..] = words else {
            panic!("not a look row: {words:?}");
        };
        let (agreed, formats, lent) = (number(agreed), number(formats), number(lent) as usize);
        let call = Look { msg: bytes(msg), agreed, formats, lent };
        judge(lent, fill, answer, |buf| look(&call, buf))
    });
}

/// Runs the rows of the cut, of all files that have some.
pub fn run_cut(through: &str, cut: impl Fn(&Cut, &mut [u8]) -> u32) {
    run(BASE, &[("cut", 267)], through, |words| cut_row(&job::with_no_boundary(words), &cut));
    for (file, count) in [(JOB_1, 480), (JOB_4, 237), (JOB_5, 230), (JOB_6, 235), (JOB_7, 236), (JOB_8, 250)] {
        run(file, &[("cut", count)], through, |words| {
            let row = job::in_base_words(words);
            cut_row(&row.split(' ').collect::<Vec<&str>>(), &cut)
        });
    }
}

fn cut_row(words: &[&str], cut: impl Fn(&Cut, &mut [u8]) -> u32) -> Result<(), String> {
    let ["cut", list, m, q, r, handed, lent, fill, "=", answer @ ..] = words else {
        panic!("not a cut row: {words:?}");
    };
    let (limits, lent) = (Limits { m: number(m), q: long(q) }, number(lent) as usize);
    let call = Cut { list: bytes(list), limits, r: number(r), handed: number(handed), lent };
    judge(lent, fill, answer, |buf| cut(&call, buf))
}

/// Runs the rows of the trace, which are all of job2.rows and some of job4.rows and those behind it.
pub fn run_trace(through: &str, trace: impl Fn(&Trace, &mut [u8]) -> u32) {
    for (file, count) in [(JOB_2, 3000), (JOB_4, 243), (JOB_5, 250), (JOB_6, 245), (JOB_7, 244), (JOB_8, 230)] {
        run(file, &[("trace", count)], through, |words| trace_row(words, &trace));
    }
}

fn trace_row(words: &[&str], trace: impl Fn(&Trace, &mut [u8]) -> u32) -> Result<(), String> {
    let ["trace", way, msg, lent, fill, "=", answer @ ..] = words else {
        panic!("not a trace row: {words:?}");
    };
    let lent = number(lent) as usize;
    let call = Trace { msg: bytes(msg), direction: direction(way), lent };
    judge(lent, fill, answer, |buf| trace(&call, buf))
}

/// Towards the port, or from it.
fn direction(way: &str) -> u32 {
    match way {
        ">" => 0,
        "<" => 1,
        _ => panic!("not a direction: {way}"),
    }
}

fn judge(lent: usize, fill: &str, answer: &[&str], call: impl FnOnce(&mut [u8]) -> u32) -> Result<(), String> {
    let fill = number(fill) as u8;
    let mut buf = vec![fill; lent];
    let returned = call(&mut buf);
    Answer::read(answer).compare(returned, &buf, fill)
}

/// The lines of a file.
pub fn lines(file: &str) -> Vec<String> {
    let path = Path::new(env!("CARGO_MANIFEST_DIR")).join("../rows").join(file);
    let text = fs::read_to_string(&path).unwrap_or_else(|error| panic!("{}: {error}", path.display()));
    text.lines().map(String::from).collect()
}

/// Runs the rows of these kinds, in the file's order, and panics with the first that failed, or unless there are so
/// many of each.
pub fn run(file: &str, kinds: &[(&str, usize)], through: &str, mut row: impl FnMut(&[&str]) -> Result<(), String>) {
    let (mut rows, mut failures) = (Tally::default(), Vec::new());
    for (at, line) in lines(file).iter().enumerate() {
        let words: Vec<&str> = line.split(' ').collect();
        if kinds.iter().any(|(kind, _)| *kind == words[0]) {
            rows.add(words[0]);
            failures.extend(row(&words).err().map(|failure| format!("{file}, line {}: {failure}", at + 1)));
        }
    }
    let some = failures.iter().take(5).map(String::as_str).collect::<Vec<&str>>().join("\n");
    assert!(failures.is_empty(), "{} of {} rows failed through {through}\n{some}", failures.len(), rows.total());
    for (kind, count) in kinds {
        assert_eq!(rows.count(kind), *count as u64, "{kind} rows");
    }
    let names: Vec<&str> = kinds.iter().map(|(kind, _)| *kind).collect();
    rows.print_as(&format!("{file}, {}, through {through}", names.join(", ")), "rows");
}

/// A hexadecimal number of up to 64 bits.
pub fn long(word: &str) -> u64 {
    u64::from_str_radix(word, 16).expect("a hexadecimal number of 64 bits")
}

/// A number of 32 bits; for a wider one, which C cannot say, the largest, with which such a row has the same answer.
pub fn number(word: &str) -> u32 {
    long(word).min(u64::from(u32::MAX)) as u32
}

pub fn bytes(word: &str) -> Vec<u8> {
    if word == "-" {
        return Vec::new();
    }
    assert_eq!(word.len() % 2, 0, "two digits a byte");
    let byte = |at: usize| u8::from_str_radix(&word[at..at + 2], 16).expect("two hexadecimal digits");
    (0..word.len()).step_by(2).map(byte).collect()
}
