//! The rows of tests/rows that are calls on a port.

mod answers;
mod counts;
mod earlier;

use super::call::{Call, Outcome, Restore, UNWRITTEN};
use crate::rows::{self, bytes, job, long, number};
use crate::tally::Tally;

/// Runs the rows of base.rows in their order. "There is one current port. `login` replaces it, whatever its answer."
/// They know no moves: after each plan that is not refused each direction gets one, offset 0, count R.
pub fn run_base(target: &mut impl Restore, through: &str) {
    let mut reader = Reader { target, level: 0, lent: Tally::default() };
    rows::run(rows::BASE, &counts::BASE, through, |words| {
        let (call, returned) = reader.judge(&job::with_no_boundary(words))?;
        if let (Call::Plan { tag, r_out, r_in }, 0) = (call, returned) {
            for (direction, count) in [(0, r_out), (1, r_in)] {
                let named = reader.target.call(&Call::Move { tag, direction, offset: 0, count });
                assert_eq!(named.returned, 0, "a move of all of a direction");
            }
        }
        Ok(())
    });
    reader.assert_lent(counts::BASE_LENT);
}

pub fn run_job_1(target: &mut impl Restore, through: &str) {
    run_job(rows::JOB_1, &counts::JOB_1, 1, target, through).assert_lent(counts::JOB_1_LENT);
}

pub fn run_job_4(target: &mut impl Restore, through: &str) {
    run_job(rows::JOB_4, &counts::JOB_4, 4, target, through).assert_lent(counts::JOB_4_LENT);
}

pub fn run_job_5(target: &mut impl Restore, through: &str) {
    run_job(rows::JOB_5, &counts::JOB_5, 5, target, through).assert_lent(counts::JOB_5_LENT);
}

pub fn run_job_6(target: &mut impl Restore, through: &str) {
    run_job(rows::JOB_6, &counts::JOB_6, 6, target, through).assert_lent(counts::JOB_6_LENT);
}

pub fn run_job_7(target: &mut impl Restore, through: &str) {
    run_job(rows::JOB_7, &counts::JOB_7, 7, target, through).assert_lent([0; 4]);
}

pub fn run_job_8(target: &mut impl Restore, through: &str) {
    run_job(rows::JOB_8, &counts::JOB_8, 8, target, through).assert_lent([0; 4]);
}

/// Runs the rows of a job's file in their order. A session begins with a closed port.
fn run_job<'a, T: Restore>(
    file: &str,
    kinds: &[(&str, usize)],
    level: u32,
    target: &'a mut T,
    through: &str,
) -> Reader<'a, T> {
    let mut reader = Reader { target, level, lent: Tally::default() };
    rows::run(file, kinds, through, |words| {
        if words[0] == "session" {
            assert_eq!(number(words[1]), level, "the level of {file}");
            return reader.close();
        }
        let row = job::in_base_words(words);
        reader.judge(&row.split(' ').collect::<Vec<&str>>()).map(|_| ())
    });
    reader
}

/// Puts rows of a level to a target, and counts those of a take that is lent tables.
struct Reader<'a, T> {
    target: &'a mut T,
    level: u32,
    lent: Tally,
}

impl<T: Restore> Reader<'_, T> {
    /// By a login that is refused.
    fn close(&mut self) -> Result<(), String> {
        let login = Call::Login { settings: [0; 5], boundary: 0, own: [0; 16], msg: Vec::new(), buf: Vec::new() };
        match self.target.call(&login).returned {
            1 => Ok(()),
            other => Err(format!("a login without a buffer returned {other}")),
        }
    }

    /// Makes a row's call and compares; the call, and what it returned. Below level 4 the rows know no number of a
    /// step, below level 5 no order of a listing's records, and below level 7 a take is lent tables.
    fn judge(&mut self, words: &[&str]) -> Result<(Call, u32), String> {
        let equals = words.iter().position(|&word| word == "=").expect("an answer");
        let (call, answer) = (read_call(&words[..equals]), &words[equals + 1..]);
        let mut expected = answers::read(&call, answer);
        let mut outcome = match words {
            ["take", _, out, inn, ..] if self.level < 7 => {
                earlier::take(self.target, &call, [bytes(out), bytes(inn)], &mut self.lent)
            }
            _ => self.target.call(&call),
        };
        if self.level < 4 && matches!(call, Call::Step { .. }) {
            outcome.answer[6] = 0;
        }
        if self.level < 5 && matches!(call, Call::List { .. }) {
            [&mut expected, &mut outcome].into_iter().for_each(sort_listed);
        }
        if outcome != expected {
            return Err(format!("{call:02x?}\nexpected {expected:02x?}\n     got {outcome:02x?}"));
        }
        Ok((call, outcome.returned))
    }

    /// How many takes were lent tables, by what these came to.
    fn assert_lent(&self, counts: [u64; 4]) {
        assert_eq!(earlier::KINDS.map(|kind| self.lent.count(kind)), counts, "{:?}", earlier::KINDS);
        assert_eq!(self.lent.total(), counts.iter().sum::<u64>(), "of other kinds");
    }
}

/// Sorts the records listed: "the order of its records is free".
fn sort_listed(outcome: &mut Outcome) {
    let listed = &mut outcome.records.as_chunks_mut::<4>().0[..outcome.answer[0] as usize];
    listed.sort_unstable();
}

/// "`LENT FILL` is a lent buffer: LENT bytes, each of them FILL."
fn lent(length: &str, fill: &str) -> Vec<u8> {
    vec![number(fill) as u8; number(length) as usize]
}

fn direction(word: &str) -> u32 {
    match word {
        "out" => 0,
        "in" => 1,
        _ => panic!("not a direction: {word}"),
    }
}

fn read_call(words: &[&str]) -> Call {
    match *words {
        ["login", n, m, x, q, indirect, solicited, own, msg, length, fill] => Call::Login {
            settings: [n, m, x, indirect, solicited].map(number),
            boundary: long(q),
            own: bytes(own).try_into().expect("16 bytes"),
            msg: bytes(msg),
            buf: lent(length, fill),
        },
        ["take", msg, _, _, length, fill] => Call::Take { msg: bytes(msg), buf: lent(length, fill) },
        ["tables", tag, out, inn, length, fill] => {
            Call::Tables { tag: long(tag), tables: [bytes(out), bytes(inn)], buf: lent(length, fill) }
        }
        ["plan", tag, r_out, r_in] => Call::Plan { tag: long(tag), r_out: number(r_out), r_in: number(r_in) },
        ["move", tag, way, offset, count] => {
            Call::Move { tag: long(tag), direction: direction(way), offset: number(offset), count: number(count) }
        }
        ["step", tag, way] => Call::Step { tag: long(tag), direction: direction(way) },
        ["turn"] => Call::Turn,
        ["finish", tag, status, sense, length, fill] => {
            Call::Finish { tag: long(tag), status: number(status) as u8, sense: bytes(sense), buf: lent(length, fill) }
        }
        ["add", k] => Call::Add { k: number(k) },
        ["withdraw", k] => Call::Withdraw { k: number(k) },
        ["grant", length, fill] => Call::Grant { buf: lent(length, fill) },
        ["close", reason, length, fill] => Call::Close { reason: number(reason), buf: lent(length, fill) },
        ["list", records] => Call::List { records: vec![UNWRITTEN[0]; 4 * number(records) as usize] },
        ["counters"] => Call::Counters,
        _ => panic!("not a call: {words:?}"),
    }
}

#[cfg(test)]
mod tests {
    use crate::model;

    #[test]
    fn port_rows() {
        super::run_base(&mut model::Port::default(), "the model");
    }

    #[test]
    fn move_rows() {
        super::run_job_1(&mut model::Port::default(), "the model");
    }

    #[test]
    fn number_rows() {
        super::run_job_4(&mut model::Port::default(), "the model");
    }

    #[test]
    fn order_rows() {
        super::run_job_5(&mut model::Port::default(), "the model");
    }

    #[test]
    fn boundary_rows() {
        super::run_job_6(&mut model::Port::default(), "the model");
    }

    #[test]
    fn waiting_rows() {
        super::run_job_7(&mut model::Port::default(), "the model");
    }

    #[test]
    fn turn_rows() {
        super::run_job_8(&mut model::Port::default(), "the model");
    }
}
