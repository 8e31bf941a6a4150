//! Each message that either end sends, as a line: srp_trace's is the model's, its name the one that the machine knows
//! the message by, and its delta the one that the machine counts.

use super::ends::delta;
use super::{Machine, Target};
use crate::calls::{Call, Outcome, Placement, Trace};
use crate::line::Line;

const TO_PORT: u32 = 0;
const FROM_PORT: u32 = 1;

/// The name of a message that the initiator sends, by what it is meant to be; None for any bytes. One in 150 commands
/// has a format above 2.
fn sent_name(kind: &str, msg: &[u8]) -> Option<&'static str> {
    Some(match kind {
        "login" => "LOGIN_REQ",
        "logout" => "I_LOGOUT",
        "task" => "TSK_MGMT",
        "credit response" => "CRED_RSP",
        "command" if msg[5] >> 4 > 2 || msg[5] & 15 > 2 => "UNKNOWN",
        "command" => "CMD",
        _ => return None,
    })
}

/// The name of a message that the port writes.
fn written_name(msg: &[u8]) -> &'static str {
    match msg[0] {
        0x80 => "T_LOGOUT",
        0x81 => "CRED_REQ",
        0xc0 => "LOGIN_RSP",
        0xc1 => "RSP",
        other => panic!("the port wrote a message of type {other:02x}"),
    }
}

impl<T: Target> Machine<T> {
    fn traced(&mut self, msg: &[u8], direction: u32) -> Outcome {
        let call = Trace { msg: msg.to_vec(), direction, lent: 81 };
        let outcome = call.compared(&mut self.memory, Placement::AT_END);
        let line = Line::of(&outcome);
        self.lines.add(format!("{} {}", line.columns(1..=1), line.name()));
        outcome
    }

    pub(super) fn trace_sent(&mut self, kind: &str, msg: &[u8]) {
        let outcome = self.traced(msg, TO_PORT);
        let (line, expected) = (Line::of(&outcome), sent_name(kind, msg));
        assert_eq!(line.columns(1..=1), ">", "towards the port");
        assert!(expected.is_none_or(|name| line.name() == name), "{kind}: {} {msg:02x?}", line.name());
    }

    pub(super) fn trace_written(&mut self, msg: &[u8]) {
        let outcome = self.traced(msg, FROM_PORT);
        let line = Line::of(&outcome);
        assert_eq!((line.columns(1..=1), line.name()), ("<", written_name(msg)), "{msg:02x?}");
        if let Some(delta) = delta(msg) {
            assert_eq!(line.columns(50..=54), format!("{delta:5}"), "{msg:02x?}");
        }
    }
}
