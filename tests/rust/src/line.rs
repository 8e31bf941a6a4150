//! A line of the trace as its columns show it, by document 02's words and not by the model.

use std::ops::RangeInclusive;
use std::str;

use crate::calls::{Outcome, Trace};
use crate::model::trace::{read, Unknown};

/// What a call of srp_trace comes to: a refusal, a type's name, or UNKNOWN for one of its three reasons.
pub const KINDS: [&str; 15] = [
    "refused 1",
    "LOGIN_REQ",
    "TSK_MGMT",
    "CMD",
    "I_LOGOUT",
    "CRED_RSP",
    "T_LOGOUT",
    "CRED_REQ",
    "LOGIN_RSP",
    "RSP",
    "RSP with RSP_CODE",
    "LOGIN_REJ",
    "UNKNOWN by its type",
    "UNKNOWN by its length",
    "UNKNOWN by its format",
];

/// 80 printable columns, counted from 1.
pub struct Line<'a>(&'a str);

impl<'a> Line<'a> {
    /// The line that a call wrote. Panics unless it has "exactly 80 columns", printable ones, and a "line feed after
    /// 80", and those that stand between its parts are spaces.
    pub fn of(outcome: &'a Outcome) -> Self {
        assert_eq!(outcome.returned, 0, "refused");
        let printable = |byte: &u8| (0x20..=0x7e).contains(byte);
        let Some((columns, [b'\n', ..])) = outcome.buf.split_at_checked(80) else {
            panic!("no line feed after column 80: {:02x?}", outcome.buf);
        };
        assert!(columns.iter().all(printable), "a column is not printable: {columns:02x?}");
        let line = Line(str::from_utf8(columns).expect("printable"));
        for between in [2..=2, 15..=15, 32..=32, 49..=49, 55..=55, 64..=80] {
            assert!(line.is_blank(between), "{}", line.0);
        }
        line
    }

    pub fn columns(&self, columns: RangeInclusive<usize>) -> &'a str {
        &self.0[columns.start() - 1..*columns.end()]
    }

    pub fn is_blank(&self, columns: RangeInclusive<usize>) -> bool {
        self.columns(columns).bytes().all(|byte| byte == b' ')
    }

    /// The type's name.
    pub fn name(&self) -> &'a str {
        self.columns(3..=14).trim_end()
    }
}

/// One of KINDS. The line has the name; why a message is unknown the model says.
pub fn kind(call: &Trace, outcome: &Outcome) -> String {
    if outcome.returned != 0 {
        return format!("refused {}", outcome.returned);
    }
    let line = Line::of(outcome);
    let more = match (line.name(), read(&call.msg)) {
        ("RSP", _) if !line.is_blank(56..=63) => " with RSP_CODE",
        ("UNKNOWN", Err(Unknown::Type)) => " by its type",
        ("UNKNOWN", Err(Unknown::Length)) => " by its length",
        ("UNKNOWN", Err(Unknown::Format)) => " by its format",
        _ => "",
    };
    format!("{}{more}", line.name())
}
