//! Kinds of commands that wait, of tables and of bad fields.

use super::super::call::{Call, Outcome};
use crate::model::channel::OpenCommand;
use crate::model::descriptors::Descriptor;
use crate::model::{number, Channel, Command};

/// Several a call: which tables a command waits for, which are brought and in which order, what is bad about them, what
/// befalls a command that waits.
pub const FEATURES: [&str; 36] = [
    "command, both tables to fetch",
    "command, in table to fetch",
    "command, out table to fetch",
    "command, the 16th, waits",
    "tables 10, in Copy",
    "tables 10, in PastTheEnd",
    "tables 10, in TableLength",
    "tables 10, in Total",
    "tables 10, out Copy",
    "tables 10, out PastTheEnd",
    "tables 10, out TableLength",
    "tables 10, out Total",
    "tables 10, where none is fetched",
    "tables 33, some bytes",
    "tables 9, bad fields too",
    "tables 9, exchanged",
    "tables 9, longer",
    "tables 9, none",
    "tables 9, shorter",
    "tables 9, where none is due",
    "tables, 16 commands open",
    "tables, 512 bytes",
    "tables, beside a direct segment",
    "tables, beside copies",
    "tables, both ways",
    "tables, in alone",
    "tables, of another than the oldest",
    "tables, of the oldest",
    "tables, out alone",
    "take 10, in PastTheEnd",
    "take 10, in TableLength",
    "take 10, in Total",
    "take 10, out PastTheEnd",
    "take 10, out TableLength",
    "take 10, out Total",
    "waiting, aborted",
];

type Kinds = Vec<(bool, &'static str)>;

/// The features of a call, by the channel before it.
pub fn features(call: &Call, outcome: &Outcome, channel: &Channel) -> Vec<String> {
    match (call, outcome.returned) {
        (Call::Take { msg, .. }, 0) if outcome.answer[1] == 1 => named(of_command(msg, channel)),
        (Call::Take { msg, .. }, 0) if outcome.answer[1] == 2 => named(of_task(msg, channel)),
        (Call::Take { msg, .. }, 10) => match Command::read(msg, channel.agreement.formats) {
            Ok(Command { data_out, data_in, .. }) => of_bad_fields("take", [&data_out, &data_in], [&[], &[]]),
            Err(_) => vec!["take 10, not a command".into()],
        },
        (Call::Tables { tag, .. }, returned) => of_tables(call, returned, *tag, channel),
        _ => Vec::new(),
    }
}

fn named(kinds: Kinds) -> Vec<String> {
    kinds.into_iter().filter(|(fits, _)| *fits).map(|(_, kind)| kind.into()).collect()
}

fn of_command(msg: &[u8], channel: &Channel) -> Kinds {
    let Ok(command) = Command::read(msg, channel.agreement.formats) else {
        return Vec::new();
    };
    let [out, inn] = [&command.data_out, &command.data_in].map(|data| data.fetch_length() > 0);
    vec![
        (out && inn, "command, both tables to fetch"),
        (inn, "command, in table to fetch"),
        (out, "command, out table to fetch"),
        ((out || inn) && channel.commands.len() == 15, "command, the 16th, waits"),
    ]
}

fn of_task(msg: &[u8], channel: &Channel) -> Kinds {
    let (lun, task_tag) = (number(&msg[20..28]), number(&msg[32..40]));
    let aborted = |command: &OpenCommand| match msg[30] {
        1 => command.request.lun == lun && command.request.tag == task_tag,
        2 | 4 | 8 => command.request.lun == lun,
        _ => false,
    };
    let some = channel.commands.iter().any(|command| command.waiting.is_some() && aborted(command));
    vec![(some, "waiting, aborted")]
}

fn of_tables(call: &Call, returned: u32, tag: u64, channel: &Channel) -> Vec<String> {
    let lent = call.tables();
    let command = channel.commands.iter().find(|command| command.request.tag == tag);
    let Some(descriptors) = command.and_then(|command| command.waiting.as_ref()) else {
        let some = lent.iter().any(|table| !table.is_empty());
        return named(vec![(returned == 33 && some, "tables 33, some bytes")]);
    };
    match returned {
        0 => named(brought(lent, descriptors, tag, channel)),
        9 => named(of_lengths(lent, descriptors)),
        10 => of_bad_fields("tables", descriptors.each_ref(), lent),
        _ => Vec::new(),
    }
}

fn brought(lent: [&[u8]; 2], descriptors: &[Descriptor; 2], tag: u64, channel: &Channel) -> Kinds {
    let [out, inn] = lent.map(|table| !table.is_empty());
    let direct = descriptors.iter().any(|descriptor| matches!(descriptor, Descriptor::Direct(_)));
    let oldest = channel.commands.iter().find(|command| command.waiting.is_some());
    let of_oldest = oldest.is_some_and(|command| command.request.tag == tag);
    let copies = |at: usize| lent[at].is_empty() && matches!(descriptors[at], Descriptor::Indirect(_));
    vec![
        (channel.commands.len() == 16, "tables, 16 commands open"),
        (lent.iter().any(|table| table.len() == 512), "tables, 512 bytes"),
        (direct, "tables, beside a direct segment"),
        (copies(0) || copies(1), "tables, beside copies"),
        (out && inn, "tables, both ways"),
        (inn && !out, "tables, in alone"),
        (out && !inn, "tables, out alone"),
        (!of_oldest, "tables, of another than the oldest"),
        (of_oldest, "tables, of the oldest"),
    ]
}

/// Why a length is not F.
fn of_lengths(lent: [&[u8]; 2], descriptors: &[Descriptor; 2]) -> Kinds {
    let (lengths, due) = (lent.map(<[u8]>::len), descriptors.each_ref().map(Descriptor::fetch_length));
    let any = |test: fn(usize, usize) -> bool| (0..2).any(|at| test(lengths[at], due[at]));
    let bad = descriptors.iter().zip(lent).any(|(descriptor, table)| descriptor.bad_field(table).is_some());
    vec![
        (bad, "tables 9, bad fields too"),
        (lengths == [due[1], due[0]], "tables 9, exchanged"),
        (any(|length, due| due > 0 && length > due), "tables 9, longer"),
        (lengths == [0, 0], "tables 9, none"),
        (any(|length, due| 0 < length && length < due), "tables 9, shorter"),
        (any(|length, due| due == 0 && length > 0), "tables 9, where none is due"),
    ]
}

fn of_bad_fields(call: &str, descriptors: [&Descriptor; 2], lent: [&[u8]; 2]) -> Vec<String> {
    let mut found = Vec::new();
    for (side, (descriptor, table)) in ["out", "in"].into_iter().zip(descriptors.into_iter().zip(lent)) {
        let Some(bad) = descriptor.bad_field(table) else { continue };
        found.push(format!("{call} 10, {side} {bad:?}"));
        if call == "tables" && table.is_empty() {
            found.push("tables 10, where none is fetched".into());
        }
    }
    found
}
