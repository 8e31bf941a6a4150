//! What is printed of the times: all of them, how they grow where the segments double, and what a turn takes more than a
//! step.

use crate::batch::MAX_PIECE;
use crate::cases::{Case, ALL_IN_LINE, BOUNDARY, ONE_IN_LINE};
use crate::series::{Part, Series};
use crate::timing::Times;

/// Document 02: where the segments double, the time for the last byte grows by less than this.
const LIMIT: f64 = 3.0;

/// Where a side's time stands among those of a case.
const LIBRARY: usize = 0;
const PLAIN: usize = 1;
const YARDSTICK: usize = 2;

/// The cases that were timed, and their times.
pub struct Report<'a> {
    pub cases: &'a [Case],
    pub times: &'a [Times],
}

/// The lines of the table "The last byte".
fn last_bytes() -> impl Iterator<Item = Series> {
    let of_call = |call| [8, 16, 32].map(|segments| Series { call, part: Part::LastByte, segments });
    ["cut", "step"].into_iter().flat_map(of_call)
}

/// Nothing where there are none.
fn print_lines(head: &str, lines: impl Iterator<Item = String>) {
    let mut lines = lines.peekable();
    if lines.peek().is_some() {
        println!("{head}");
    }
    lines.for_each(|line| println!("{line}"));
}

impl Report<'_> {
    pub fn print(&self) {
        self.print_times();
        self.print_growth();
        self.print_last_byte();
        if let Some(growth) = self.largest_growth() {
            print!("\nWhere the segments double, the library's time for the last byte grows by a factor of at most ");
            println!("{growth:.2}; document 02 asks for less than {LIMIT}.");
        }
        print_lines("", [ONE_IN_LINE, ALL_IN_LINE].into_iter().filter_map(|line| self.turn_line(line)));
    }

    /// What a turn takes more than a step of the same move, where both were timed.
    fn turn_line(&self, line: &str) -> Option<String> {
        let more = |side| Some(self.named("turn", line, side)? - self.named("step", line, side)?);
        let (library, plain) = (more(LIBRARY)?, more(PLAIN)?);
        Some(format!("a turn takes more than a step, {line:<16}  library {library:.1} ns  plain Rust {plain:.1} ns"))
    }

    /// A side's time in the case of a call with such a line.
    fn named(&self, call: &str, line: &str, side: usize) -> Option<f64> {
        let name = format!("{call}, {line}");
        let at = self.cases.iter().position(|case| case.name.starts_with(&name))?;
        Some(self.times[at][side])
    }

    /// A line for each case, for the file that bench/callgrind reads: its name and its times.
    pub fn lines(&self) -> String {
        let fields = |times: &Times| times.iter().map(|time| format!("\t{time:.2}")).collect::<String>();
        self.cases.iter().zip(self.times).map(|(case, times)| format!("{}{}\n", case.name, fields(times))).collect()
    }

    /// Whether the library's growth is below the limit for each doubling that was timed.
    pub fn is_below_limit(&self) -> bool {
        self.largest_growth().is_none_or(|growth| growth < LIMIT)
    }

    fn print_times(&self) {
        print!("ns a call, the smallest of many rounds, the sides in turn; M = {MAX_PIECE}, ");
        println!("Q = {BOUNDARY} where a case names it, else none.\n");
        println!("{:<54} {:>8} {:>10} {:>6}", "", "library", "plain Rust", "ratio");
        for (Case { name, .. }, times) in self.cases.iter().zip(self.times) {
            let (library, plain) = (times[LIBRARY], times[PLAIN]);
            println!("{name:<54} {library:>8.1} {plain:>10.1} {:>6.2}", library / plain);
        }
    }

    /// How the times for the first piece grow, where all its cases are there.
    fn print_growth(&self) {
        let part = Part::FirstPiece;
        let line = |call| {
            let grown = |segments, side| self.growth(Series { call, part, segments }, side);
            let growth = |side| Some(format!("{:.2}, {:.2}", grown(16, side)?, grown(32, side)?));
            let (name, library, plain) = (format!("{call}, {part}"), growth(LIBRARY)?, growth(PLAIN)?);
            Some(format!("growth from 8 to 16 to 32 segments, {name:<18}  library {library}  plain Rust {plain}"))
        };
        print_lines("", ["step", "cut"].into_iter().filter_map(line));
    }

    /// The table "The last byte", of the cases that are there.
    fn print_last_byte(&self) {
        let title = "\nThe last byte, ns a call, and the factor by which it grew from half the segments.\n";
        let head = format!("{:<32} {:>8} {:>6} {:>10} {:>6}", "", "library", "growth", "yardstick", "growth");
        print_lines(&format!("{title}\n{head}"), last_bytes().filter_map(|series| self.last_byte_line(series)));
    }

    fn last_byte_line(&self, series: Series) -> Option<String> {
        let (library, yardstick) = (self.time(series, LIBRARY)?, self.time(series, YARDSTICK)?);
        let [of_library, of_yardstick] = [LIBRARY, YARDSTICK].map(|side| match self.growth(series, side) {
            Some(growth) => format!("{growth:.2}"),
            None => String::new(),
        });
        let name = series.to_string();
        Some(format!("{name:<32} {library:>8.1} {of_library:>6} {yardstick:>10.1} {of_yardstick:>6}"))
    }

    /// The library's, for the last byte; None where no doubling was timed.
    fn largest_growth(&self) -> Option<f64> {
        last_bytes().filter_map(|series| self.growth(series, LIBRARY)).reduce(f64::max)
    }

    /// By what factor a side's time grew from half the segments.
    fn growth(&self, series: Series, side: usize) -> Option<f64> {
        let half = Series { segments: series.segments / 2, ..series };
        Some(self.time(series, side)? / self.time(half, side)?)
    }

    fn time(&self, series: Series, side: usize) -> Option<f64> {
        let at = self.cases.iter().position(|case| case.series == Some(series))?;
        Some(self.times[at][side])
    }
}

#[cfg(test)]
mod tests {
    use super::*;
    use crate::cases;

    /// Shows a report on the cases with some words in their names: the library's time is 1 ns a segment, in one series
    /// `factor` times that, and the yardstick's the square.
    fn report<T>(words: &str, (steep, factor): (Series, f64), show: impl Fn(&Report) -> T) -> T {
        let cases: Vec<Case> = cases::cases().into_iter().filter(|case| case.name.contains(words)).collect();
        let of_case = |case: &Case| {
            let segments = case.series.map_or(1.0, |series| f64::from(series.segments));
            let library = if case.series == Some(steep) { segments * factor } else { segments };
            [library, segments, segments * segments][..case.sides().len()].to_vec()
        };
        let times: Vec<Times> = cases.iter().map(of_case).collect();
        show(&Report { cases: &cases, times: &times })
    }

    const STEP_32: Series = Series { call: "step", part: Part::LastByte, segments: 32 };
    const CUT_16: Series = Series { call: "cut", segments: 16, ..STEP_32 };
    const FIRST_32: Series = Series { part: Part::FirstPiece, ..STEP_32 };

    #[test]
    fn the_limit_is_on_each_doubling_of_the_library_for_the_last_byte() {
        for (words, steep, expected) in [
            ("", (STEP_32, 1.0), (Some(2.0), true)),
            ("", (STEP_32, 1.25), (Some(2.5), true)),
            ("", (STEP_32, 1.5), (Some(3.0), false)),
            ("", (CUT_16, 2.0), (Some(4.0), false)),
            ("", (FIRST_32, 2.0), (Some(2.0), true)),
            ("step, last", (STEP_32, 2.0), (Some(4.0), false)),
            ("step, last", (CUT_16, 2.0), (Some(2.0), true)),
            ("32 segments", (STEP_32, 2.0), (None, true)),
            ("login", (STEP_32, 2.0), (None, true)),
        ] {
            let judged = report(words, steep, |report| (report.largest_growth(), report.is_below_limit()));
            assert_eq!(judged, expected, "cases '{words}', {} is {} times as long", steep.0, steep.1);
        }
    }

    #[test]
    fn a_turn_is_shown_beside_a_step() {
        let cases = cases::cases();
        let of_case = |case: &Case| match &case.name {
            name if name.starts_with("turn, 1 move") => vec![12.5, 8.0],
            name if name.starts_with("step, 1 move") => vec![10.0, 9.0],
            _ => vec![1.0; case.sides().len()],
        };
        let times: Vec<Times> = cases.iter().map(of_case).collect();
        let report = Report { cases: &cases, times: &times };
        let expected = "a turn takes more than a step, 1 move in line    library 2.5 ns  plain Rust -1.0 ns";
        assert_eq!(report.turn_line(ONE_IN_LINE).as_deref(), Some(expected));
        assert_eq!(report.named("turn", ALL_IN_LINE, LIBRARY), Some(1.0));
        assert_eq!(report.turn_line("33 moves in line"), None);
    }

    #[test]
    fn a_line_has_the_growth_where_half_the_segments_were_timed() {
        let line = |words, series: Series| report(words, (CUT_16, 1.25), |report| report.last_byte_line(series));
        let expected = "cut, last byte of 16 segments        20.0   2.50      256.0   4.00";
        assert_eq!(line("", CUT_16).as_deref(), Some(expected));
        let expected = "cut, last byte of 16 segments        20.0             256.0       ";
        assert_eq!(line("16 segments", CUT_16).as_deref(), Some(expected));
        assert_eq!(line("16 segments", STEP_32), None);
    }
}
