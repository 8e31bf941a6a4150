//! The library's port and the model's, each call made on both and compared.

use super::call::{Call, Outcome, Target};
use super::frame::Memory;
use super::library::Library;
use super::slots;
use crate::model;

pub struct Both {
    library: Library,
    pub model: model::Port,
    /// Lists that the listing is compared in.
    words: usize,
}

/// A state of both, to go back to.
#[derive(Clone)]
pub struct Saved {
    memory: Memory,
    model: model::Port,
}

impl Both {
    /// What the library's words are before the first login is no port that the model has: a login comes first.
    pub fn new(seed: u64) -> Self {
        Both { library: Library::new(seed), model: model::Port::default(), words: 64 }
    }

    pub fn save(&self) -> Saved {
        Saved { memory: self.library.memory.clone(), model: self.model.clone() }
    }

    pub fn restore(&mut self, saved: &Saved) {
        self.library.memory.clone_from(&saved.memory);
        self.model.clone_from(&saved.model);
    }

    fn compare(&mut self, call: &Call) -> Outcome {
        let library = self.library.call(call);
        let model = self.model.call(call);
        assert!(library == model, "{call:02x?}\nlibrary: {library:02x?}\n  model: {model:02x?}");
        library
    }
}

impl Target for Both {
    /// The outcome of both. Panics where they differ, or where afterwards the counters, the listing or the line do.
    fn call(&mut self, call: &Call) -> Outcome {
        let outcome = self.compare(call);
        let counters = self.compare(&Call::Counters);
        self.words = 64 + (self.words + 1) % 9;
        let records = (1..=self.words as u64).map(|word| word << 32 | word).collect();
        let listed = self.compare(&Call::List { records });
        assert_eq!(counters.answer[2], listed.answer[0], "H, and how many are listed");
        let line = self.model.channel.iter().flat_map(|channel| channel.line.clone()).collect::<Vec<_>>();
        assert_eq!(slots::line(&self.library.memory), line, "the line after {call:02x?}");
        outcome
    }
}
