//! Kinds of turns, and of what else changes the line.

use super::super::call::{Call, Outcome};
use crate::model::channel::{OpenCommand, Transfer};
use crate::model::turns::Place;
use crate::model::{number, Channel};

/// Several a call: which move is served, which one joins and leaves, and from where.
pub const FEATURES: [&str; 22] = [
    "line, a move joins an empty one",
    "line, a move joins behind others",
    "line, a move without bytes joins none",
    "line, aborted from between others",
    "line, aborted moves both ways",
    "line, finished from between others",
    "line, finished moves both ways",
    "line, refused move changes none",
    "line, step is done and changes none",
    "line, step keeps a place before others",
    "line, step takes the first out",
    "line, step takes the last out",
    "line, step takes one out between others",
    "line, tables draw 10 beside it",
    "turn, eight moves in line",
    "turn, idle, some command open",
    "turn, in alone, its last",
    "turn, in before others",
    "turn, out alone, put back",
    "turn, out before others",
    "turn, the command's other way in line too",
    "turn, the last piece, others behind",
];

type Kinds = Vec<(bool, &'static str)>;

/// The features of a call, by the channel before it.
pub fn features(call: &Call, outcome: &Outcome, channel: &Channel) -> Vec<String> {
    let kinds = match *call {
        Call::Turn => of_turn(&outcome.answer, channel),
        Call::Move { tag, direction, .. } => of_move(call, outcome.returned, channel, Place::new(tag, direction)),
        Call::Step { tag, direction } if outcome.returned == 0 => {
            of_step(&outcome.answer, channel, Place::new(tag, direction))
        }
        Call::Finish { tag, .. } if outcome.returned == 0 => {
            let [between, both_ways] = leave(channel, |command| command.request.tag == tag);
            vec![(between, "line, finished from between others"), (both_ways, "line, finished moves both ways")]
        }
        Call::Take { ref msg, .. } if outcome.returned == 0 && outcome.answer[1] == 2 => of_task(msg, channel),
        Call::Tables { .. } => {
            vec![(outcome.returned == 10 && !channel.line.is_empty(), "line, tables draw 10 beside it")]
        }
        _ => Vec::new(),
    };
    kinds.into_iter().filter(|(fits, _)| *fits).map(|(_, kind)| kind.into()).collect()
}

fn transfer(channel: &Channel, Place { tag, direction }: Place) -> Option<&Transfer> {
    let command = &channel.commands[channel.place_of(tag)?];
    Some(if direction == 0 { &command.data_out } else { &command.data_in })
}

/// Whether an operation of the answer is the last of its move.
fn is_last(answer: &[u64; 8], channel: &Channel, place: Place) -> bool {
    transfer(channel, place).is_some_and(|transfer| answer[5] + answer[4] == transfer.current.end)
}

fn of_turn(answer: &[u64; 8], channel: &Channel) -> Kinds {
    let [piece, operation, .., tag] = *answer;
    let (out, alone) = (operation == 1, channel.line.len() == 1);
    let last = is_last(answer, channel, Place::new(tag, u32::from(!out)));
    let other = channel.line.contains(&Place::new(tag, out.into()));
    let mut kinds = vec![(piece == 0 && !channel.commands.is_empty(), "turn, idle, some command open")];
    if piece == 1 {
        kinds.extend([
            (channel.line.len() >= 8, "turn, eight moves in line"),
            (!out && alone && last, "turn, in alone, its last"),
            (!out && !alone, "turn, in before others"),
            (out && alone && !last, "turn, out alone, put back"),
            (out && !alone, "turn, out before others"),
            (other, "turn, the command's other way in line too"),
            (last && !alone, "turn, the last piece, others behind"),
        ]);
    }
    kinds
}

fn of_move(call: &Call, returned: u32, channel: &Channel, place: Place) -> Kinds {
    let Call::Move { offset, count, .. } = *call else {
        return Vec::new();
    };
    let some = count > 0 && transfer(channel, place).is_some_and(|transfer| u64::from(offset) < transfer.due());
    let empty = channel.line.is_empty();
    vec![
        (returned == 0 && some && empty, "line, a move joins an empty one"),
        (returned == 0 && some && !empty, "line, a move joins behind others"),
        (returned == 0 && !some, "line, a move without bytes joins none"),
        (returned != 0 && !empty, "line, refused move changes none"),
    ]
}

fn of_step(answer: &[u64; 8], channel: &Channel, place: Place) -> Kinds {
    let behind = channel.line.iter().rev().position(|other| *other == place);
    let before = channel.line.iter().position(|other| *other == place);
    let last = answer[0] == 1 && is_last(answer, channel, place);
    vec![
        (answer[0] == 0 && !channel.line.is_empty(), "line, step is done and changes none"),
        (answer[0] == 1 && !last && behind > Some(0), "line, step keeps a place before others"),
        (last && before == Some(0) && behind > Some(0), "line, step takes the first out"),
        (last && before > Some(0) && behind == Some(0), "line, step takes the last out"),
        (last && before > Some(0) && behind > Some(0), "line, step takes one out between others"),
    ]
}

/// Whether a move of the commands that end stands between two that stay, and whether both moves of one are in line.
fn leave(channel: &Channel, ends: impl Fn(&OpenCommand) -> bool) -> [bool; 2] {
    let ends = |place: &Place| channel.place_of(place.tag).is_some_and(|at| ends(&channel.commands[at]));
    let leaving: Vec<bool> = channel.line.iter().map(ends).collect();
    let stays = |leaves: &bool| !leaves;
    let between = match (leaving.iter().position(stays), leaving.iter().rposition(stays)) {
        (Some(first), Some(last)) => leaving[first..last].contains(&true),
        _ => false,
    };
    let other = |place: &Place| Place::new(place.tag, 1 - place.direction);
    [between, channel.line.iter().any(|place| ends(place) && channel.line.contains(&other(place)))]
}

fn of_task(msg: &[u8], channel: &Channel) -> Kinds {
    let (function, lun, task_tag) = (msg[30], number(&msg[20..28]), number(&msg[32..40]));
    let [between, both_ways] = leave(channel, |command| match function {
        1 => command.request.lun == lun && command.request.tag == task_tag,
        2 | 4 | 8 => command.request.lun == lun,
        _ => false,
    });
    vec![(between, "line, aborted from between others"), (both_ways, "line, aborted moves both ways")]
}
