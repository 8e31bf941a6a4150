//! Times the library, through the C interface, beside a port in plain Rust behind the same functions and, for the last
//! byte, beside the yardstick: in one run, the sides in turn, by the smallest time of many rounds. First all sides are
//! compared in every call. Fails where the library's time for the last byte grows more than document 02 allows.
//!
//! Arguments: words of the cases' names to be run, by default all; `--save FILE` writes the times there; `--count`
//! makes the calls of each case once and times nothing, for bench/callgrind.

mod batch;
mod cases;
mod compare;
mod library;
mod messages;
mod plain;
mod port;
mod report;
#[cfg(test)]
mod rows;
mod search;
mod series;
mod sides;
mod stateless;
mod timing;
mod trace;
mod yardstick;

use std::{env, fs, process};

use cases::Case;
use report::Report;

struct Arguments {
    filter: String,
    count: bool,
    save: Option<String>,
}

fn arguments() -> Arguments {
    let (mut words, mut count, mut save) = (Vec::new(), false, None);
    let mut given = env::args().skip(1);
    while let Some(argument) = given.next() {
        match argument.as_str() {
            "--count" => count = true,
            "--save" => save = Some(given.next().expect("--save FILE")),
            _ => words.push(argument),
        }
    }
    Arguments { filter: words.join(" "), count, save }
}

fn main() {
    let Arguments { filter, count, save } = arguments();
    let cases: Vec<Case> = cases::cases().into_iter().filter(|case| case.name.contains(&filter)).collect();
    if cases.is_empty() {
        eprintln!("no case has '{filter}' in its name");
        process::exit(1);
    }
    cases.iter().for_each(compare::compare);
    if count {
        return cases.iter().for_each(timing::count);
    }
    let times = timing::time(&cases);
    let report = Report { cases: &cases, times: &times };
    report.print();
    if let Some(file) = save {
        fs::write(&file, report.lines()).unwrap_or_else(|error| panic!("{file}: {error}"));
    }
    if !report.is_below_limit() {
        eprintln!("the library's time for the last byte grows too much with the segments");
        process::exit(1);
    }
}
