//! Kinds of logins by their boundary.

use super::super::call::{Call, Outcome};
use crate::generate::is_boundary;

pub const FEATURES: [&str; 6] = [
    "login, boundary 2^32",
    "login, boundary 512",
    "login, boundary between them",
    "login, no boundary",
    "login, refused for its boundary",
    "login, refused for its boundary, message bad too",
];

/// A login is refused for its boundary where the other settings are in their ranges.
pub fn features(call: &Call, outcome: &Outcome) -> Vec<String> {
    let Call::Login { settings: [n, m, x, ..], boundary, msg, .. } = call else {
        return Vec::new();
    };
    let others = (1..=16).contains(n) && (1..=1_048_576).contains(m) && (64..=1364).contains(x);
    let for_boundary = outcome.returned == 2 && others;
    let accepted = outcome.returned == 0 && outcome.answer[1] == 0;
    let kinds = [
        (accepted && *boundary == 1 << 32, FEATURES[0]),
        (accepted && *boundary == 512, FEATURES[1]),
        (accepted && is_boundary(*boundary) && (513..1 << 32).contains(boundary), FEATURES[2]),
        (accepted && *boundary == 0, FEATURES[3]),
        (for_boundary, FEATURES[4]),
        (for_boundary && (msg.len() != 64 || msg[0] != 0x00), FEATURES[5]),
    ];
    kinds.into_iter().filter(|(fits, _)| *fits).map(|(_, kind)| kind.into()).collect()
}
