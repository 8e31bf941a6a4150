//! Lines in words that no login made: what turns serve, and what each call leaves of the line, by these words.

use super::super::call::{Call, Outcome};
use super::super::frame::Memory;
use super::super::slots::{self, held, line, slot_of, word_of, COUNT, FIRST, MOST_IN_LINE, MOVES, PLANNED, WAITS};
use super::number;
use crate::model::number as field;
use crate::model::turns::Place;
use crate::random::Random;

/// What befell the line, or the turn.
pub const KINDS: [&str; 12] = [
    "joined",
    "joined, where it stands already",
    "left by a step",
    "left by a step, twice in line",
    "left by an ending",
    "line full: none joins",
    "no command has the tag: idle",
    "no pieces: idle",
    "served unplanned or waiting",
    "served, first above 31",
    "served, more than 32 counted",
    "served, twice in line",
];

/// Writes over a line: tags of open commands and others, twice and more often; where it begins and how many there are.
pub fn write_words(random: &mut Random, memory: &mut Memory) {
    let tags: Vec<u64> = (0..held(memory).max(1)).map(|slot| slots::tag(memory, slot)).collect();
    for place in 0..MOST_IN_LINE {
        let tag = if random.one_in(8) { number(random) } else { random.of(&tags) };
        let direction = if random.one_in(3) { number(random) } else { random.up_to(1) };
        let at = slots::ring(place);
        (memory.words[at], memory.words[at + 1]) = (tag, direction);
    }
    memory.words[FIRST] = if random.one_in(3) { number(random) } else { random.up_to(31) };
    memory.words[COUNT] = if random.one_in(4) { number(random) } else { random.up_to(32) };
    for slot in 0..held(memory) {
        let [next, end] = MOVES[random.below(2)].map(|at| word_of(slot, at));
        if random.one_in(3) {
            (memory.words[next], memory.words[end]) = (random.up_to(600), random.up_to(2000));
        }
    }
}

/// The step that hands out what a turn serves, and the memory in which it does: turns check neither the plan nor whether
/// the command waits. None where the line is empty or no open command has the tag.
pub fn step_instead(memory: &Memory) -> Option<(Call, Memory, usize)> {
    let Place { tag, direction } = *line(memory).first()?;
    let slot = slot_of(memory, tag)?;
    let mut ready = memory.clone();
    ready.words[word_of(slot, PLANNED)] = 1;
    ready.words[word_of(slot, WAITS)] = 0;
    Some((Call::Step { tag, direction }, ready, slot))
}

/// Whether two memories have the same slot, but for what `step_instead` wrote over.
pub fn same_slot(one: &Memory, other: &Memory, slot: usize) -> bool {
    let words = (0..32).filter(|at| ![PLANNED, WAITS].contains(at)).map(|at| word_of(slot, at));
    words.into_iter().all(|at| one.words[at] == other.words[at])
}

/// The line after a call, and what befell it, by the memory before the call and after it.
pub fn expected(call: &Call, outcome: &Outcome, [before, after]: [&Memory; 2]) -> (Vec<Place>, Vec<&'static str>) {
    let stood = line(before);
    match (call, outcome.returned) {
        (Call::Login { .. }, _) => (Vec::new(), Vec::new()),
        _ if held(after) == 0 && after.words[0] == 0 => (Vec::new(), Vec::new()),
        (Call::Move { tag, direction, .. }, 0) => moved(stood, after, Place::new(*tag, *direction)),
        (Call::Step { tag, direction }, 0) if outcome.answer[0] == 1 => {
            stepped(stood, after, Place::new(*tag, *direction))
        }
        (Call::Turn, 0) => turned(stood, outcome.answer[0] == 1, [before, after]),
        (Call::Finish { tag, .. }, 0) | (Call::Tables { tag, .. }, 10) => {
            ended(stood, before, |slot| slots::tag(before, slot) == *tag)
        }
        (Call::Take { msg, .. }, 0) if outcome.answer[1] == 2 => {
            let (function, lun, task_tag) = (msg[30], field(&msg[20..28]), field(&msg[32..40]));
            let of_lun = |slot: usize| slots::lun(before, slot) == lun;
            ended(stood, before, |slot| match function {
                1 => of_lun(slot) && slots::tag(before, slot) == task_tag,
                2 | 4 | 8 => of_lun(slot),
                _ => false,
            })
        }
        _ => (stood, Vec::new()),
    }
}

type Changed = (Vec<Place>, Vec<&'static str>);

fn pieces_left(memory: &Memory, place: Place) -> bool {
    slot_of(memory, place.tag).is_some_and(|slot| slots::has_pieces(memory, slot, place.direction as usize))
}

fn moved(mut stood: Vec<Place>, after: &Memory, place: Place) -> Changed {
    if !pieces_left(after, place) {
        return (stood, Vec::new());
    }
    if stood.len() == MOST_IN_LINE {
        return (stood, vec!["line full: none joins"]);
    }
    let kind = if stood.contains(&place) { "joined, where it stands already" } else { "joined" };
    stood.push(place);
    (stood, vec![kind])
}

fn stepped(mut stood: Vec<Place>, after: &Memory, place: Place) -> Changed {
    if pieces_left(after, place) {
        return (stood, Vec::new());
    }
    let count = stood.len();
    stood.retain(|other| *other != place);
    let kind = match count - stood.len() {
        0 => None,
        1 => Some("left by a step"),
        _ => Some("left by a step, twice in line"),
    };
    (stood, kind.into_iter().collect())
}

fn turned(mut stood: Vec<Place>, served: bool, [before, after]: [&Memory; 2]) -> Changed {
    if !served {
        let kind = stood.first().map(|first| match slot_of(before, first.tag) {
            None => "no command has the tag: idle",
            Some(_) => "no pieces: idle",
        });
        return (stood, kind.into_iter().collect());
    }
    let first = stood.remove(0);
    let mut kinds = Vec::new();
    let slot = slot_of(before, first.tag).expect("a command that was served");
    let [planned, waits] = [PLANNED, WAITS].map(|at| before.words[word_of(slot, at)] % 2 == 1);
    kinds.extend((!planned || waits).then_some("served unplanned or waiting"));
    kinds.extend((before.words[FIRST] > 31).then_some("served, first above 31"));
    kinds.extend((before.words[COUNT] > 32).then_some("served, more than 32 counted"));
    kinds.extend(stood.contains(&first).then_some("served, twice in line"));
    if pieces_left(after, first) {
        stood.push(first);
    }
    (stood, kinds)
}

/// A move leaves where the first open command with its tag is one of those that end.
fn ended(mut stood: Vec<Place>, before: &Memory, ends: impl Fn(usize) -> bool) -> Changed {
    let count = stood.len();
    stood.retain(|place| !slot_of(before, place.tag).is_some_and(&ends));
    let kind = (stood.len() < count).then_some("left by an ending");
    (stood, kind.into_iter().collect())
}
