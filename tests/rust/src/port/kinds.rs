//! Names for what a call came to, so that a tally shows that all of it came up.

pub mod logins;
mod messages;
pub mod moves;
pub mod tables;
pub mod turns;

use super::call::{Call, Outcome};
use crate::model::{number, Channel, Port};

/// The outcomes that calls have, one a call: a refusal, or what the call gave.
pub const OUTCOMES: [&str; 86] = [
    "login: accepted",
    "login: rejected 10000",
    "login: rejected 10002",
    "login: rejected 10003",
    "login: rejected 10004",
    "login: rejected 10005",
    "login: refused 1",
    "login: refused 2",
    "login: refused 3",
    "login: refused 4",
    "take: command",
    "take: command that waits",
    "take: task, code 0",
    "take: task, code 2",
    "take: task, code 4",
    "take: credit response",
    "take: logout",
    "take: refused 1",
    "take: refused 3",
    "take: refused 4",
    "take: refused 5",
    "take: refused 6",
    "take: refused 7",
    "take: refused 8",
    "take: refused 10",
    "take: refused 21",
    "take: refused 22",
    "take: refused 23",
    "take: refused 25",
    "tables: done",
    "tables: refused 1",
    "tables: refused 9",
    "tables: refused 10",
    "tables: refused 21",
    "tables: refused 24",
    "tables: refused 33",
    "plan: done",
    "plan: refused 21",
    "plan: refused 24",
    "plan: refused 30",
    "plan: refused 33",
    "move: done",
    "move: refused 21",
    "move: refused 24",
    "move: refused 29",
    "move: refused 31",
    "move: refused 32",
    "move: refused 33",
    "step: RDMA Read",
    "step: RDMA Write",
    "step: done",
    "step: refused 21",
    "step: refused 24",
    "step: refused 29",
    "step: refused 33",
    "turn: RDMA Read",
    "turn: RDMA Write",
    "turn: idle",
    "turn: refused 21",
    "finish: done",
    "finish: refused 1",
    "finish: refused 11",
    "finish: refused 21",
    "finish: refused 24",
    "finish: refused 33",
    "add: done",
    "add: refused 11",
    "add: refused 21",
    "add: refused 28",
    "withdraw: done",
    "withdraw: refused 11",
    "withdraw: refused 21",
    "withdraw: refused 28",
    "grant: done",
    "grant: refused 1",
    "grant: refused 21",
    "grant: refused 26",
    "grant: refused 27",
    "close: done",
    "close: refused 1",
    "close: refused 21",
    "counters: done",
    "counters: refused 21",
    "list: done",
    "list: refused 11",
    "list: refused 21",
];

pub fn outcome(call: &Call, outcome: &Outcome) -> String {
    let name = call.name();
    if outcome.returned != 0 {
        return format!("{name}: refused {}", outcome.returned);
    }
    match (call, outcome.answer) {
        (Call::Login { .. }, [_, 0, ..]) => "login: accepted".into(),
        (Call::Login { .. }, [_, reason, ..]) => format!("login: rejected {reason:x}"),
        (Call::Take { .. }, [_, 1, _, _, _, _, 1, _]) => "take: command that waits".into(),
        (Call::Take { .. }, [_, 1, ..]) => "take: command".into(),
        (Call::Take { .. }, [_, 2, ..]) => format!("take: task, code {:x}", outcome.buf[39]),
        (Call::Take { .. }, [_, 3, ..]) => "take: credit response".into(),
        (Call::Take { .. }, [_, 4, ..]) => "take: logout".into(),
        (Call::Step { .. } | Call::Turn, [1, 1, ..]) => format!("{name}: RDMA Read"),
        (Call::Step { .. } | Call::Turn, [1, 2, ..]) => format!("{name}: RDMA Write"),
        (Call::Turn, _) => "turn: idle".into(),
        _ => format!("{name}: done"),
    }
}

/// Further kinds, several a call: what a command was like, why it was refused, what a message says. `moves` has those
/// of move and step, `logins` those of a login's boundary, `tables` those of tables and of bad fields, `turns` those of
/// the line.
pub const FEATURES: [&str; 62] = [
    "SRP_CRED_REQ, delta above 1",
    "SRP_CRED_REQ, delta 1",
    "SRP_CRED_REQ, notified",
    "SRP_LOGIN_REJ",
    "SRP_LOGIN_RSP",
    "SRP_RSP, delta 0",
    "SRP_RSP, delta 1",
    "SRP_RSP, delta above 1",
    "SRP_RSP, notified",
    "SRP_RSP, sense",
    "SRP_RSP, sense of 96 bytes",
    "SRP_T_LOGOUT, notified",
    "SRP_T_LOGOUT, reason 0",
    "SRP_T_LOGOUT, reason 6",
    "SRP_T_LOGOUT, reason 7",
    "SRP_T_LOGOUT, reason 8",
    "SRP_T_LOGOUT, reason 9",
    "SRP_T_LOGOUT, another reason",
    "command, formats 0 and 0",
    "command, formats 0 and 1",
    "command, formats 0 and 2",
    "command, formats 1 and 0",
    "command, formats 1 and 1",
    "command, formats 1 and 2",
    "command, formats 2 and 0",
    "command, formats 2 and 1",
    "command, formats 2 and 2",
    "command, longer CDB",
    "command, the 16th",
    "finish, in over",
    "finish, in under",
    "finish, no residual",
    "finish, out over",
    "finish, out under",
    "finish, unplanned",
    "function 1 aborts 0",
    "function 1 aborts 1",
    "function 2 aborts 0",
    "function 2 aborts 1",
    "function 2 aborts several",
    "function 4 aborts 0",
    "function 4 aborts 1",
    "function 4 aborts several",
    "function 8 aborts 0",
    "function 8 aborts 1",
    "function 8 aborts several",
    "owed: 0",
    "owed: above 0",
    "owed: below 0",
    "refused 22, command",
    "refused 22, task",
    "refused 23, command",
    "refused 23, task",
    "refused 25, another tag",
    "refused 25, unexpected",
    "refused 3, command not exact",
    "refused 3, command of 16 to 47",
    "refused 3, credit response",
    "refused 3, logout",
    "refused 3, over the agreed length",
    "refused 3, task",
    "refused 3, under 16",
];

/// The features of a call, by the port before it.
pub fn features(call: &Call, outcome: &Outcome, before: &Port) -> Vec<String> {
    let mut found = logins::features(call, outcome);
    if let (Call::Take { msg, .. }, Some(channel)) = (call, &before.channel) {
        match outcome.returned {
            0 if outcome.answer[1] == 1 => found.extend(of_command(msg, channel)),
            0 if outcome.answer[1] == 2 => found.extend(of_task(msg, channel)),
            0 | 1 | 10 => {}
            refusal => found.extend(of_hang_up(refusal, msg, channel)),
        }
    }
    found.extend(before.channel.iter().flat_map(|channel| tables::features(call, outcome, channel)));
    found.extend(before.channel.iter().flat_map(|channel| turns::features(call, outcome, channel)));
    if let (Call::Move { tag, .. } | Call::Step { tag, .. }, Some(channel)) = (call, &before.channel) {
        let command = channel.place_of(*tag).map(|place| &channel.commands[place]);
        let limits = channel.agreement.limits;
        found.extend(command.into_iter().flat_map(|command| moves::features(call, outcome, command, limits)));
    }
    if let (Call::Finish { tag, .. }, Some(channel), 0) = (call, &before.channel, outcome.returned) {
        found.extend(messages::of_residuals(&outcome.buf, *tag, channel));
    }
    if matches!(call, Call::Counters) && outcome.returned == 0 {
        let sign = ["below 0", "0", "above 0"][((outcome.answer[3] as i64).signum() + 1) as usize];
        found.push(format!("owed: {sign}"));
    }
    if !call.buf().is_empty() && outcome.answer[0] > 0 {
        found.extend(messages::of_message(outcome.message()));
    }
    found
}

fn of_command(msg: &[u8], channel: &Channel) -> Vec<String> {
    let mut found = vec![format!("command, formats {} and {}", msg[5] >> 4, msg[5] & 0x0f)];
    let kinds = [(msg[31] >> 2 != 0, "command, longer CDB"), (channel.commands.len() == 15, "command, the 16th")];
    found.extend(kinds.into_iter().filter(|(fits, _)| *fits).map(|(_, kind)| kind.into()));
    found
}

/// How many commands the task request aborts.
fn of_task(msg: &[u8], channel: &Channel) -> Option<String> {
    let (function, lun, task_tag) = (msg[30], number(&msg[20..28]), number(&msg[32..40]));
    let of_lun = channel.commands.iter().filter(|command| command.request.lun == lun);
    let aborted = match function {
        1 => of_lun.filter(|command| command.request.tag == task_tag).count(),
        2 | 4 | 8 => of_lun.count(),
        _ => return None,
    };
    let many = ["0", "1", "several"][aborted.min(2)];
    Some(format!("function {function} aborts {many}"))
}

fn of_hang_up(refusal: u32, msg: &[u8], channel: &Channel) -> Option<String> {
    let kind = match (refusal, msg.first()) {
        (3, _) if msg.len() < 16 => "refused 3, under 16",
        (3, _) if msg.len() > channel.agreement.length as usize => "refused 3, over the agreed length",
        (3, Some(1)) => "refused 3, task",
        (3, Some(2)) if msg.len() < 48 => "refused 3, command of 16 to 47",
        (3, Some(2)) => "refused 3, command not exact",
        (3, Some(3)) => "refused 3, logout",
        (3, _) => "refused 3, credit response",
        (22, Some(1)) => "refused 22, task",
        (22, _) => "refused 22, command",
        (23, Some(1)) => "refused 23, task",
        (23, _) => "refused 23, command",
        (25, _) if channel.unanswered => "refused 25, another tag",
        (25, _) => "refused 25, unexpected",
        _ => return None,
    };
    Some(kind.into())
}
