//! The owner's calls.

use super::super::call::Call;
use super::{buffer, chosen, random_open, TAGS};
use crate::model::channel::{OpenCommand, Transfer};
use crate::model::{segments, Channel};
use crate::random::Random;

/// Mostly the tag of an open command.
pub(super) fn tag(random: &mut Random, command: Option<u64>) -> u64 {
    match command {
        Some(tag) if !random.one_in(16) => random.of(&[tag, tag, tag, tag, tag, tag, tag, tag ^ 1 << 63, tag ^ 1]),
        _ => random.of(&TAGS),
    }
}

/// R: near B, 0, or of any size.
fn required(random: &mut Random, transfer: Option<&Transfer>) -> u32 {
    let b = transfer.map_or(0, |transfer| transfer.length());
    let r = match random.below(8) {
        0 => 0,
        1 => b.saturating_sub(1),
        2 => b + 1,
        3 => u64::from(random.any_size()),
        4 => random.up_to(b),
        5 => random.of(&[1, u64::from(u32::MAX)]),
        _ => b,
    };
    r.min(u64::from(u32::MAX)) as u32
}

/// Mostly one of the open commands that a test names, else any.
pub(super) fn preferred<'a>(
    random: &mut Random,
    channel: &'a Channel,
    test: fn(&OpenCommand) -> bool,
) -> Option<&'a OpenCommand> {
    let some: Vec<&OpenCommand> = channel.commands.iter().filter(|command| test(command)).collect();
    if some.is_empty() || random.one_in(12) {
        random_open(random, channel)
    } else {
        Some(some[random.below(some.len())])
    }
}

pub fn plan(random: &mut Random, channel: &Channel) -> Call {
    let command = preferred(random, channel, |command| !command.planned && command.waiting.is_none());
    let r_out = required(random, command.map(|command| &command.data_out));
    let r_in = required(random, command.map(|command| &command.data_in));
    Call::Plan { tag: tag(random, chosen(command)), r_out, r_in }
}

/// Where a move begins: at 0, at min(R, B) and beside it, at a segment's start and beside it, at h, below h, or
/// anywhere.
fn offset(random: &mut Random, transfer: &Transfer) -> u64 {
    match random.below(14) {
        0..=2 => 0,
        3 => transfer.due(),
        4 => transfer.due() + 1,
        5 => transfer.due().saturating_sub(1),
        6 | 7 => {
            let lengths: Vec<u64> = segments(&transfer.segments).map(|segment| segment.length.into()).collect();
            let last = lengths.len().saturating_sub(1);
            let earlier = if random.one_in(2) { last } else { random.below(33) };
            let start: u64 = lengths.iter().take(earlier).sum();
            (start + random.up_to(2)).saturating_sub(1)
        }
        8 | 9 => transfer.reached,
        10 => random.up_to(transfer.reached),
        11 => u64::from(random.any_size()),
        _ => random.up_to(transfer.due()),
    }
}

/// How many bytes: none, some pieces, up to min(R, B) and beside it, so many that the sum with the offset passes 2^32.
fn count(random: &mut Random, transfer: &Transfer, offset: u64, m: u64) -> u64 {
    let rest = transfer.due().saturating_sub(offset);
    match random.below(8) {
        0 => 0,
        1 | 2 => random.of(&[1, m - 1, m, m + 1, 3 * m]),
        3 => random.of(&[rest, rest, rest + 1, rest.saturating_sub(1)]),
        4 => (1 << 32) - offset.min(1 << 32) + random.of(&[0, 1, 600]),
        5 => u64::from(u32::MAX),
        6 => u64::from(random.any_size()),
        _ => random.up_to(rest),
    }
}

/// Whether a move with pieces can be named.
fn is_free(transfer: &Transfer) -> bool {
    transfer.due() > 0 && transfer.current.is_empty()
}

fn has_pieces(transfer: &Transfer) -> bool {
    !transfer.current.is_empty()
}

/// Whether pieces of the current move were handed out, and none is left.
fn is_finished(transfer: &Transfer) -> bool {
    transfer.number > 0 && transfer.current.is_empty()
}

fn free(command: &OpenCommand) -> bool {
    is_free(&command.data_out) || is_free(&command.data_in)
}

fn moving(command: &OpenCommand) -> bool {
    has_pieces(&command.data_out) || has_pieces(&command.data_in)
}

fn finished(command: &OpenCommand) -> bool {
    is_finished(&command.data_out) || is_finished(&command.data_in)
}

/// Mostly in a direction that is free, else in one whose move has pieces left; where none is free, mostly a plan.
pub fn name_move(random: &mut Random, channel: &Channel) -> Call {
    if !channel.commands.iter().any(free) && !random.one_in(3) {
        return plan(random, channel);
    }
    let second = random.one_in(8);
    let command = preferred(random, channel, if second { moving } else { free });
    let fits = if second { has_pieces } else { is_free };
    let Some(OpenCommand { data_out, data_in, .. }) = command else {
        return Call::Move { tag: random.of(&TAGS), direction: 0, offset: random.any_size(), count: random.any_size() };
    };
    let out = fits(data_out) && (!fits(data_in) || random.one_in(2)) || random.one_in(16);
    let (transfer, direction) = if out { (data_out, 0) } else { (data_in, random.of(&[1, 1, 2, 0x100, 0x8000_0000])) };
    let offset = offset(random, transfer);
    let count = count(random, transfer, offset, u64::from(channel.agreement.limits.m));
    let [offset, count] = [offset, count].map(|number| number.min(u64::from(u32::MAX)) as u32);
    Call::Move { tag: tag(random, chosen(command)), direction, offset, count }
}

/// Mostly in a direction whose move has pieces left, else in one whose move is finished; where no move has pieces left,
/// mostly a move.
pub fn step(random: &mut Random, channel: &Channel) -> Call {
    let again = random.one_in(8) && channel.commands.iter().any(finished);
    if !again && !channel.commands.iter().any(moving) && !random.one_in(4) {
        return name_move(random, channel);
    }
    let command = preferred(random, channel, if again { finished } else { moving });
    let fits = if again { is_finished } else { has_pieces };
    let only_in = command.is_some_and(|command| !fits(&command.data_out) && fits(&command.data_in));
    let directions = if only_in { [1, 1, 0, 2, 0x100, 0x8000_0000] } else { [0, 0, 0, 0, 1, 2] };
    let direction = random.of(&directions);
    Call::Step { tag: tag(random, chosen(command)), direction }
}

/// With few moves in line mostly one more.
pub fn turn(random: &mut Random, channel: &Channel) -> Call {
    let few = channel.line.len() < random.of(&[2, 4, 9]);
    if few && !random.one_in(4) {
        name_move(random, channel)
    } else {
        Call::Turn
    }
}

/// A command planned, or a direction that has no move given one, of all its bytes; where each has one, a turn.
pub fn busy(random: &mut Random, channel: &Channel) -> Call {
    let unplanned = |command: &&OpenCommand| !command.planned && command.waiting.is_none();
    let all = u32::MAX;
    let call = match (channel.commands.iter().find(unplanned), channel.commands.iter().find(|command| free(command))) {
        (Some(command), _) => Call::Plan { tag: command.request.tag, r_out: all, r_in: all },
        (None, Some(command)) => {
            let direction = u32::from(!is_free(&command.data_out));
            Call::Move { tag: command.request.tag, direction, offset: 0, count: all }
        }
        (None, None) => Call::Turn,
    };
    if random.one_in(4) {
        Call::Turn
    } else {
        call
    }
}

pub fn finish(random: &mut Random, command: Option<u64>) -> Call {
    let (status, length) = match random.below(8) {
        0..=3 => (0x00, 0),
        4 => (random.u8(), 0),
        5 => (0x02, random.of(&[0, 1, 18, 95, 96, 97, 98, 252, 500])),
        6 => (0x02, random.below(97)),
        _ => (random.of(&[0x00, 0x02, 0x08, 0x12, 0x82]), random.of(&[0, 1, 18, 96, 97])),
    };
    let sense = random.bytes(length);
    Call::Finish { tag: tag(random, command), status, sense, buf: buffer(random) }
}

/// k: small, around the bounds, or of any size.
pub fn number_of_buffers(random: &mut Random) -> u32 {
    match random.below(6) {
        0 => random.of(&[0, 0, 15, 16, 17, 0x8000_0000, 0xffff_fff0, u32::MAX - 1, u32::MAX]),
        1 => random.any_size(),
        2 => random.below(18) as u32,
        _ => 1 + random.below(3) as u32,
    }
}
