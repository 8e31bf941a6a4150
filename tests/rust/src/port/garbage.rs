//! Calls on words that no login made. "The calls are total: any words are a port": each returns, and what `frame` says
//! holds; the numbers that are read lie in document 01's ranges.

pub mod line;
mod waiting;

use super::call::{Call, Outcome, Target};
use super::frame::Memory;
use super::generate::Generator;
use super::heap::Heap;
use super::kinds;
use super::library::Library;
use super::slots;
use crate::generate::{boundary, is_boundary};
use crate::model;
use crate::random::Random;
use crate::tally::Tally;

/// The word of a port that has Q, as itself; and bad ones for it, which are read as 0.
pub const BOUNDARY_WORD: usize = 10;
const BAD_BOUNDARIES: [u64; 10] = [1, 2, 255, 256, 511, 513, 768, (1 << 32) + 512, 1 << 33, u64::MAX];

/// A target whose memory can be overwritten.
pub trait InMemory: Target {
    fn memory(&mut self) -> &mut Memory;
}

impl InMemory for Library {
    fn memory(&mut self) -> &mut Memory {
        &mut self.memory
    }
}

impl InMemory for Heap {
    fn memory(&mut self) -> &mut Memory {
        &mut self.memory
    }
}

pub struct Garbage<T> {
    target: T,
    /// A port like the target's before its memory was overwritten; calls are chosen by it.
    guide: model::Port,
    generator: Generator,
    random: Random,
    pub tally: Tally,
    /// Pieces, by what stands for Q in the words.
    pub pieces: Tally,
    /// Tables, by what the words of their command's slot say.
    pub tables: Tally,
    /// What befell the line.
    pub line: Tally,
}

impl<T: InMemory> Garbage<T> {
    pub fn new(target: T, seed: u64) -> Self {
        Garbage {
            target,
            guide: model::Port::default(),
            generator: Generator::new(seed),
            random: Random::new(!seed),
            tally: Tally::default(),
            pieces: Tally::default(),
            tables: Tally::default(),
            line: Tally::default(),
        }
    }

    /// Makes a port of garbage, and some calls on it.
    pub fn round(&mut self) {
        self.make_port();
        for _ in 0..16 {
            let call = match self.random.below(30) {
                0..=2 => waiting::tables(&mut self.random, self.target.memory()),
                3..=9 => Call::Turn,
                _ => self.generator.call(&self.guide),
            };
            let expected = waiting::expected(&call, self.target.memory());
            let outcome = self.judged_by_line(&call);
            if let Some((refusal, kind)) = expected {
                assert_eq!(outcome.returned, refusal, "{kind}: {call:02x?}");
                self.tables.add(kind);
            }
            self.assert_lawful(&call, &outcome);
            self.tally.add(kinds::outcome(&call, &outcome));
            self.assert_counted(&call, &outcome);
            let open = self.assert_ranges();
            if matches!(call, Call::Login { .. }) || !open && self.random.one_in(3) {
                return;
            }
        }
    }

    /// Makes a call; the line is as the words before it say. What a turn hands out, a step would have.
    fn judged_by_line(&mut self, call: &Call) -> Outcome {
        let before = self.target.memory().clone();
        let stepped = match call {
            Call::Turn => self.stepped_instead(),
            _ => None,
        };
        let outcome = self.target.call(call);
        let after = self.target.memory().clone();
        let (line, kinds) = line::expected(call, &outcome, [&before, &after]);
        assert_eq!(slots::line(&after), line, "{call:02x?}\n{outcome:02x?}");
        kinds.into_iter().for_each(|kind| self.line.add(kind));
        if let (Call::Turn, 0) = (call, outcome.returned) {
            let mut expected = [0; 8];
            if let Some((stepped, memory, slot)) = stepped {
                if stepped.answer[0] == 1 {
                    expected = stepped.answer;
                    expected[7] = slots::tag(&before, slot);
                    assert!(line::same_slot(&memory, &after, slot), "the slot after a turn\n{outcome:x?}");
                }
            }
            assert_eq!(outcome.answer, expected, "a turn beside a step");
        }
        outcome
    }

    /// What a step gives where the next turn's move is, what it leaves, and the command's slot; the target's memory is
    /// as it was.
    fn stepped_instead(&mut self) -> Option<(Outcome, Memory, usize)> {
        let before = self.target.memory().clone();
        let (step, ready, slot) = line::step_instead(&before)?;
        *self.target.memory() = ready;
        let stepped = self.target.call(&step);
        let left = std::mem::replace(self.target.memory(), before);
        Some((stepped, left, slot))
    }

    fn make_port(&mut self) {
        let manner = self.random.below(8);
        if manner >= 4 || self.guide.channel.is_none() {
            self.real_port();
        }
        let random = &mut self.random;
        let memory = self.target.memory();
        match manner {
            0 => memory.words.fill_with(|| random.u64()),
            1 => memory.words.fill_with(|| random.up_to(2)),
            2 => memory.words.fill_with(|| random.up_to(40)),
            3 => memory.words.fill_with(|| number(random)),
            _ => {
                for _ in 0..random.of(&[1, 1, 2, 4, 8, 40]) {
                    let at = random.below(memory.words.len());
                    memory.words[at] = number(random);
                }
            }
        }
        if random.one_in(2) {
            memory.words[BOUNDARY_WORD] = if random.one_in(2) { boundary(random) } else { random.of(&BAD_BOUNDARIES) };
        }
        if random.one_in(3) {
            memory.store = random.bytes(memory.store.len());
        }
        if random.one_in(5) {
            waiting::write_words(random, memory);
        }
        if random.one_in(2) {
            line::write_words(random, memory);
        }
    }

    /// An open port, as some calls after a login leave it.
    fn real_port(&mut self) {
        self.guide = model::Port::default();
        let calls = 4 + self.random.below(40);
        let mut made = 0;
        while made < calls || self.guide.channel.is_none() {
            let call = self.generator.call(&self.guide);
            self.guide.call(&call);
            self.target.call(&call);
            made += 1;
        }
    }

    /// An outcome that the call has on some port, and messages of their lengths.
    fn assert_lawful(&mut self, call: &Call, outcome: &Outcome) {
        let kind = kinds::outcome(call, outcome);
        assert!(kinds::OUTCOMES.contains(&kind.as_str()), "{kind}: {call:02x?}\n{outcome:02x?}");
        if let Call::Take { .. } | Call::Tables { .. } = call {
            let length = match (outcome.returned, outcome.answer[1]) {
                (0, 2) | (10, _) => 40,
                (0 | 1 | 9 | 21 | 24 | 33, _) => 0,
                _ => 16,
            };
            assert_eq!(outcome.answer[0], length, "{call:02x?}\n{outcome:02x?}");
        }
        if let (Call::Step { .. } | Call::Turn, [1, operation, _, address, length, offset, number, _]) =
            (call, outcome.answer)
        {
            let lawful = match call {
                Call::Step { direction: 0, .. } => operation == 1,
                Call::Step { .. } => operation == 2,
                _ => [1, 2].contains(&operation),
            };
            assert!(lawful, "RDMA Read or Write");
            assert!((1..=1_048_576).contains(&length), "a piece of {length} bytes");
            // Each operation before it had a byte below its offset.
            assert!((1..=offset + 1).contains(&number), "{number} operations up to a piece at {offset}");
            self.assert_bounded(address, length);
        }
    }

    /// A piece crosses no multiple of the Q that stands in the words; of a bad one it may, as where there is none.
    fn assert_bounded(&mut self, address: u64, length: u64) {
        let q = self.target.memory().words[BOUNDARY_WORD];
        let last = address.wrapping_add(length - 1);
        let crosses = q > 0 && address / q != last / q;
        assert!(!is_boundary(q) || !crosses, "{length} bytes at {address:x}, Q {q}");
        let kind = match q {
            0 => "no boundary",
            _ if is_boundary(q) => "a boundary",
            _ if crosses => "a bad boundary, across a multiple",
            _ => "a bad boundary, across none",
        };
        self.pieces.add(kind);
    }

    /// A step that is not refused, made once more: its number goes on from the first one's.
    fn assert_counted(&mut self, call: &Call, first: &Outcome) {
        if let (Call::Step { .. }, 0) = (call, first.returned) {
            let second = self.target.call(call);
            self.assert_lawful(call, &second);
            assert_eq!(second.returned, 0, "{call:x?}");
            assert_eq!(second.answer[6], first.answer[6] + second.answer[0], "{call:x?}\n{first:x?}\n{second:x?}");
            assert!(first.answer[0] == 1 || second.answer[0] == 0, "a piece after done");
        }
    }

    /// "W stays in 1 to 16"; A and H are at most 16 together; A + H + D = W; as many commands are listed as H says.
    /// Whether the port is open.
    fn assert_ranges(&mut self) -> bool {
        let counters = self.target.call(&Call::Counters);
        let listed = self.target.call(&Call::List { records: vec![0x5b; 70] });
        assert_eq!(counters.returned, listed.returned, "open, or closed");
        if counters.returned != 0 {
            assert_eq!(counters.returned, 21);
            return false;
        }
        let [w, a, h, d, rest @ ..] = counters.answer.map(|word| word as i64);
        assert!((1..=16).contains(&w) && a >= 0 && h >= 0 && a + h <= 16, "{counters:x?}");
        assert_eq!((a + h + d, rest), (w, [0; 4]), "{counters:x?}");
        assert_eq!(listed.answer[0], h as u64, "H, and how many are listed");
        assert!(listed.records[4 * h as usize..].iter().all(|&word| word == 0x5b), "the rest of the list");
        true
    }
}

/// A word that code might stumble over.
fn number(random: &mut Random) -> u64 {
    match random.below(4) {
        0 => random.u64(),
        1 => random.up_to(40),
        2 => random.of(&[511, 512, 513, 1364, 1365, 16_383, 16_384, 1 << 20, 1 << 31, 1 << 32, 1 << 60, 1 << 63]),
        _ => random.of(&[u64::MAX, u64::MAX - 1, u64::from(u32::MAX), u64::MAX << 4, 1 << 32 | 16, 255, 256, 3]),
    }
}
