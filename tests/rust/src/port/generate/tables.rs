//! Tables, mostly for commands that wait.

use std::mem;

use super::super::call::Call;
use super::owner::{preferred, step, tag};
use super::{buffer, chosen, Memory};
use crate::model::channel::OpenCommand;
use crate::model::Channel;
use crate::random::Random;

fn waits(command: &OpenCommand) -> bool {
    command.waiting.is_some()
}

/// Mostly for a command that waits and as its table lies in memory, else damaged, or another command's. Where none
/// waits, mostly a step.
pub fn tables(random: &mut Random, channel: &Channel, memory: &Memory) -> Call {
    if !channel.commands.iter().any(waits) && !random.one_in(4) {
        return step(random, channel);
    }
    let command = preferred(random, channel, waits);
    let tag = tag(random, chosen(command));
    let mut tables = memory.get(&tag).cloned().unwrap_or_default();
    match random.below(12) {
        0 => damage_lengths(random, &mut tables),
        1 => damage_content(random, &mut tables),
        2 if !memory.is_empty() => {
            let others: Vec<&[Vec<u8>; 2]> = memory.values().collect();
            tables = others[random.below(others.len())].clone();
        }
        _ => {}
    }
    Call::Tables { tag, tables, buf: buffer(random) }
}

/// Lends a table that is missing, too short, too long, of the other direction, or where none is due.
fn damage_lengths(random: &mut Random, [out, inn]: &mut [Vec<u8>; 2]) {
    let length = random.of(&[1, 16, 32, 512]);
    match random.below(6) {
        0 => mem::swap(out, inn),
        1 => out.clear(),
        2 => inn.clear(),
        3 => out.extend(random.bytes(length)),
        4 => inn.extend(random.bytes(length)),
        _ => {
            let table = if random.one_in(2) { out } else { inn };
            table.truncate(table.len().saturating_sub(length));
        }
    }
}

/// Changes a bit of a table; or all of it is FFh, which no table may be.
fn damage_content(random: &mut Random, tables: &mut [Vec<u8>; 2]) {
    let table = &mut tables[random.below(2)];
    if table.is_empty() || random.one_in(4) {
        table.fill(0xff);
    } else {
        let at = random.below(table.len());
        table[at] ^= 1 << random.below(8);
    }
}
