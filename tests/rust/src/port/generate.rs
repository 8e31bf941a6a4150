//! Random calls on a port, chosen by what the model says of it, so that every outcome comes up.

mod data;
mod login;
mod message;
mod owner;
mod tables;

use std::collections::BTreeMap;

use super::call::Call;
use crate::model::channel::OpenCommand;
use crate::model::{Channel, Port};
use crate::random::Random;

pub use data::Data;
pub use message::{command, request_with, Sent};

/// How an initiator and an owner behave from one login to the next.
#[derive(Clone, Copy, PartialEq)]
enum Manner {
    /// Requests only with credit and with a tag of their own; few faults: many commands are open at a time.
    Careful,
    /// As careful, and moves are named wherever one can be: many are in line.
    Busy,
    /// Anything.
    Wild,
}

pub struct Generator {
    random: Random,
    manner: Manner,
    memory: Memory,
}

/// The tables in the initiator's memory that the last command of each tag describes: data-out, data-in.
type Memory = BTreeMap<u64, [Vec<u8>; 2]>;

/// So few tags that they meet, and tags that are alike but for one byte.
#[rustfmt::skip]
const TAGS: [u64; 22] = [
    0, 1, 2, 3, 4, 5, 6, 7, 8, 9, 10, 11, 12, 13, 14, 15,
    1 << 8, 1 << 32, 1 << 56, (1 << 32) + 1, 0xff << 56, u64::MAX,
];
const LUNS: [u64; 4] = [0, 1, 1 << 56, 0x0001_0000_0000_0001];

/// Something to fill a lent buffer with: no byte is like the next, so that one moved or written shows.
pub fn filled(random: &mut Random, length: usize) -> Vec<u8> {
    let first = random.u8();
    (0..length).map(|i| first.wrapping_add((i % 253) as u8 ^ 0x80)).collect()
}

/// A lent buffer, of 132 bytes or more, else too short.
fn buffer(random: &mut Random) -> Vec<u8> {
    let length = match random.below(16) {
        0 => random.of(&[0, 1, 16, 40, 64, 100, 131, 131]),
        1..=6 => 132,
        _ => 132 + random.below(40),
    };
    filled(random, length)
}

/// A record list, mostly of the 64 words or some more.
fn record_list(random: &mut Random) -> Vec<u64> {
    let words = if random.one_in(6) { random.of(&[0, 1, 4, 60, 63]) } else { random.of(&[64, 64, 65, 67, 68, 80]) };
    (0..words).map(|_| random.u64() | 1).collect()
}

impl Generator {
    pub fn new(seed: u64) -> Self {
        Generator { random: Random::new(seed), manner: Manner::Wild, memory: Memory::new() }
    }

    /// The next call. A closed port soon gets a login.
    pub fn call(&mut self, port: &Port) -> Call {
        match &port.channel {
            None if self.random.one_in(4) => self.call_on_closed(),
            None => self.login(),
            Some(_) if self.random.one_in(250) => self.login(),
            Some(channel) => self.call_on_open(channel),
        }
    }

    pub fn login(&mut self) -> Call {
        self.manner = self.random.of(&[Manner::Careful, Manner::Careful, Manner::Busy, Manner::Wild, Manner::Wild]);
        login::login(&mut self.random)
    }

    /// A call that draws 21, or 1.
    fn call_on_closed(&mut self) -> Call {
        let random = &mut self.random;
        match random.below(13) {
            0 => message::any(random),
            1 => Call::Plan { tag: random.of(&TAGS), r_out: random.any_size(), r_in: random.any_size() },
            2 => Call::Step { tag: random.of(&TAGS), direction: random.any_size() },
            3 => owner::finish(random, None),
            4 => Call::Add { k: random.any_size() },
            5 => Call::Withdraw { k: random.any_size() },
            6 => Call::Grant { buf: buffer(random) },
            7 => Call::Close { reason: random.any_size(), buf: buffer(random) },
            8 => Call::Counters,
            9 => {
                Call::Move { tag: random.of(&TAGS), direction: random.any_size(), offset: 0, count: random.any_size() }
            }
            10 => Call::Tables { tag: random.of(&TAGS), tables: Default::default(), buf: buffer(random) },
            11 => Call::Turn,
            _ => Call::List { records: record_list(random) },
        }
    }

    fn call_on_open(&mut self, channel: &Channel) -> Call {
        let random = &mut self.random;
        if random.one_in(60) {
            self.manner = Manner::Wild; // with what a careful manner has made of the port
        }
        let careful = self.manner != Manner::Wild;
        if self.manner == Manner::Busy && channel.commands.len() > 2 && random.one_in(2) {
            return owner::busy(random, channel);
        }
        // Without an open command mostly a request comes next.
        let nothing_open = channel.commands.is_empty() && random.one_in(2);
        match if nothing_open { 0 } else { random.below(124) } {
            // A careful initiator without credit sends no request.
            0..=29 if careful && channel.credit.announced == 0 => owner::step(random, channel),
            0..=29 => {
                let Sent { msg, tables } = message::request(random, channel, careful);
                self.memory.extend(tables);
                Call::Take { msg, buf: buffer(random) }
            }
            100..=109 => tables::tables(random, channel, &self.memory),
            110..=123 => owner::turn(random, channel),
            30..=35 => message::other(random, channel, careful),
            36..=43 => owner::plan(random, channel),
            44..=53 => owner::name_move(random, channel),
            54..=73 => owner::step(random, channel),
            74..=81 => {
                let tag = chosen(random_open(random, channel));
                owner::finish(random, tag)
            }
            82..=86 => Call::Add { k: owner::number_of_buffers(random) },
            87..=91 => Call::Withdraw { k: owner::number_of_buffers(random) },
            92..=96 => Call::Grant { buf: buffer(random) },
            97 if random.one_in(3) => Call::Close { reason: random.any_size(), buf: buffer(random) },
            97 => Call::Counters,
            _ => Call::List { records: record_list(random) },
        }
    }
}

/// One of the open commands, if there is any.
fn random_open<'a>(random: &mut Random, channel: &'a Channel) -> Option<&'a OpenCommand> {
    (!channel.commands.is_empty()).then(|| &channel.commands[random.below(channel.commands.len())])
}

fn chosen(command: Option<&OpenCommand>) -> Option<u64> {
    command.map(|command| command.request.tag)
}
