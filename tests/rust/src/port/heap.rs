//! The library's port with every argument in heap memory of just its length, so that valgrind sees a byte read or
//! written outside it.

use super::call::{Call, Lent, Outcome, Target, UNWRITTEN};
use super::frame::{self, Change, Memory};
use crate::interface;

#[derive(Default)]
pub struct Heap {
    pub memory: Memory,
}

fn exactly<T: Clone>(values: &[T]) -> Box<[T]> {
    values.into()
}

impl Target for Heap {
    fn call(&mut self, call: &Call) -> Outcome {
        let mut words = exactly(&self.memory.words);
        let mut store = exactly(self.memory.lent_to(call));
        let (mut answer, mut records) = (exactly(&UNWRITTEN), exactly(call.records()));
        let (settings, own, input) = (exactly(call.settings()), exactly(call.own()), exactly(call.input()));
        let (tables, mut buf) = (call.tables().map(exactly), exactly(call.buf()));
        let lent = Lent {
            settings: &settings,
            own: &own,
            input: &input,
            tables: [&tables[0], &tables[1]],
            buf: &mut buf,
            records: &mut records,
        };
        let returned = call.on_library(interface::Port::new(&mut words, &mut store, &mut answer), lent);
        let inputs = *settings == *call.settings() && *own == *call.own() && *input == *call.input();
        assert!(inputs && [&tables[0][..], &tables[1]] == call.tables(), "an input was written\n{call:02x?}");
        let answer = answer[..].try_into().expect("eight words");
        let outcome = Outcome { returned, answer, buf: buf.into_vec(), records: records.into_vec() };
        let before = self.memory.lent_to(call);
        frame::check(call, &outcome, &Change { words: [&self.memory.words, &words], store: [before, &store] });
        self.memory.words = words.into_vec();
        if call.has_store() {
            self.memory.store = store.into_vec();
        }
        outcome
    }
}
