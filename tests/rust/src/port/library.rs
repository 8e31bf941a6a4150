//! The library's port. Every argument of a call lies in guarded memory of its own, the port and its store too; after
//! each call every byte around them, every input and what `frame` says is checked.

use super::call::{Call, Lent, Outcome, Restore, Target, UNWRITTEN};
use super::frame::{self, Change, Memory};
use crate::guarded::{GuardedMemory, Number, Placed, Side};
use crate::interface::{self, PORT_WORDS, STORE_BYTES};
use crate::random::Random;

pub struct Library {
    /// The port between calls; `place` copies it to where the call finds it.
    pub memory: Memory,
    places: Places,
    /// Decides at which side of its memory each argument lies.
    random: Random,
}

struct Places {
    words: GuardedMemory,
    store: GuardedMemory,
    settings: GuardedMemory,
    own: GuardedMemory,
    input: GuardedMemory,
    tables: [GuardedMemory; 2],
    buf: GuardedMemory,
    answer: GuardedMemory,
    records: GuardedMemory,
}

impl Library {
    pub fn new(seed: u64) -> Self {
        let page = || GuardedMemory::holding(1);
        let places = Places {
            words: GuardedMemory::holding(8 * PORT_WORDS),
            store: GuardedMemory::holding(STORE_BYTES),
            settings: page(),
            own: page(),
            input: GuardedMemory::default(),
            tables: [page(), page()],
            buf: page(),
            answer: page(),
            records: page(),
        };
        Library { memory: Memory::default(), places, random: Random::new(seed) }
    }
}

/// A call's arguments in their places.
struct Placement<'a> {
    words: Placed<'a, u64>,
    store: Placed<'a, u8>,
    settings: Placed<'a, u32>,
    own: Placed<'a, u8>,
    input: Placed<'a, u8>,
    tables: [Placed<'a, u8>; 2],
    buf: Placed<'a, u8>,
    answer: Placed<'a, u64>,
    records: Placed<'a, u64>,
}

impl Places {
    fn place(&mut self, call: &Call, memory: &Memory, random: &mut Random) -> Placement<'_> {
        let mut side = || random.of(&[Side::Start, Side::End]);
        let [out_table, in_table] = &mut self.tables;
        let [out, inn] = call.tables();
        Placement {
            words: self.words.place(&memory.words, side()),
            store: self.store.place(memory.lent_to(call), side()),
            settings: self.settings.place(call.settings(), side()),
            own: self.own.place(call.own(), side()),
            input: self.input.place(call.input(), side()),
            tables: [out_table.place(out, side()), in_table.place(inn, side())],
            buf: self.buf.place(call.buf(), side()),
            answer: self.answer.place(&UNWRITTEN, side()),
            records: self.records.place(call.records(), side()),
        }
    }
}

fn whole<T: Number + PartialEq>(placed: &Placed<T>, input: &[T]) -> bool {
    placed.guard_is_whole() && placed.values() == input
}

impl Placement<'_> {
    fn make(&mut self, call: &Call) -> u32 {
        let [out, inn] = &self.tables;
        let lent = Lent {
            settings: self.settings.values(),
            own: self.own.values(),
            input: self.input.values(),
            tables: [out.values(), inn.values()],
            buf: self.buf.values_mut(),
            records: self.records.values_mut(),
        };
        let (words, store) = (self.words.values_mut(), self.store.values_mut());
        call.on_library(interface::Port::new(words, store, self.answer.values_mut()), lent)
    }

    /// Whether no input was written, and no byte around any argument.
    fn is_whole(&self, call: &Call) -> bool {
        let [out, inn] = call.tables();
        let inputs = whole(&self.settings, call.settings())
            && whole(&self.own, call.own())
            && whole(&self.input, call.input())
            && whole(&self.tables[0], out)
            && whole(&self.tables[1], inn);
        let words = self.words.guard_is_whole() && self.answer.guard_is_whole() && self.records.guard_is_whole();
        inputs && words && self.store.guard_is_whole() && self.buf.guard_is_whole()
    }
}

impl Target for Library {
    fn call(&mut self, call: &Call) -> Outcome {
        let mut placement = self.places.place(call, &self.memory, &mut self.random);
        let returned = placement.make(call);
        assert!(placement.is_whole(call), "an input or a byte around an argument was written\n{call:02x?}");
        let outcome = Outcome {
            returned,
            answer: placement.answer.values().try_into().expect("eight words"),
            buf: placement.buf.values().to_vec(),
            records: placement.records.values().to_vec(),
        };
        let (before, store) = (&self.memory.words, self.memory.lent_to(call));
        let change = Change { words: [before, placement.words.values()], store: [store, placement.store.values()] };
        frame::check(call, &outcome, &change);
        self.memory.words.copy_from_slice(placement.words.values());
        if call.has_store() {
            self.memory.store.copy_from_slice(placement.store.values());
        }
        outcome
    }
}

impl Restore for Library {
    type State = Memory;

    fn state(&self) -> Memory {
        self.memory.clone()
    }

    fn restore(&mut self, state: Memory) {
        self.memory = state;
    }
}
