//! Kinds of messages that the port wrote.

use crate::model::number;
use crate::model::Channel;

/// The residuals of an SRP_RSP, by the channel before the finish that wrote it.
pub fn of_residuals(buf: &[u8], tag: u64, channel: &Channel) -> Vec<String> {
    let planned = channel.place_of(tag).is_some_and(|place| channel.commands[place].planned);
    let flags = buf[18];
    let kinds = [
        (!planned, "finish, unplanned"),
        (flags & 0b11_1100 == 0, "finish, no residual"),
        (flags & 1 << 2 != 0, "finish, out over"),
        (flags & 1 << 3 != 0, "finish, out under"),
        (flags & 1 << 4 != 0, "finish, in over"),
        (flags & 1 << 5 != 0, "finish, in under"),
    ];
    kinds.into_iter().filter(|(fits, _)| *fits).map(|(_, kind)| kind.into()).collect()
}

/// Type, delta or reason, SOLNT and sense.
pub fn of_message(message: &[u8]) -> Vec<String> {
    let name = match message[0] {
        0x80 => "SRP_T_LOGOUT",
        0x81 => "SRP_CRED_REQ",
        0xc0 => "SRP_LOGIN_RSP",
        0xc1 => "SRP_RSP",
        0xc2 => "SRP_LOGIN_REJ",
        _ => "another message",
    };
    let mut found = match (message[0], number(&message[4..8])) {
        (0x80, reason @ (0 | 6..=9)) => vec![format!("{name}, reason {reason}")],
        (0x80, _) => vec![format!("{name}, another reason")],
        (0x81 | 0xc1, delta @ (0 | 1)) => vec![format!("{name}, delta {delta}")],
        (0x81 | 0xc1, _) => vec![format!("{name}, delta above 1")],
        _ => vec![name.into()],
    };
    if message[0] != 0xc0 && message[0] != 0xc2 && message[1] == 1 {
        found.push(format!("{name}, notified"));
    }
    if message[0] == 0xc1 && message[18] & 1 << 1 != 0 {
        found.push(format!("{name}, sense"));
        found.extend((message.len() == 132).then(|| format!("{name}, sense of 96 bytes")));
    }
    found
}
