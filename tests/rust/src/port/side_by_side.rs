//! Random calls on the library's port and on the model's, and a tally of what came up.

use super::both::Both;
use super::call::{Call, Target};
use super::generate::Generator;
use super::kinds;
use crate::tally::Tally;

pub struct SideBySide {
    both: Both,
    generator: Generator,
    /// The calls since the last login.
    history: Vec<Call>,
    pub outcomes: Tally,
    pub features: Tally,
}

impl SideBySide {
    pub fn new(seed: u64) -> Self {
        SideBySide {
            both: Both::new(seed),
            generator: Generator::new(seed),
            history: Vec::new(),
            outcomes: Tally::default(),
            features: Tally::default(),
        }
    }

    pub fn call(&mut self) {
        let call = match self.history.len() {
            0 => self.generator.login(),
            _ => self.generator.call(&self.both.model),
        };
        if matches!(call, Call::Login { .. }) {
            self.history.clear();
        }
        self.history.push(call.clone());
        let before = self.both.model.clone();
        let outcome = self.both.call(&call);
        self.outcomes.add(kinds::outcome(&call, &outcome));
        for feature in kinds::features(&call, &outcome, &before) {
            self.features.add(feature);
        }
    }
}

/// A difference is shown with all that led to it.
impl Drop for SideBySide {
    fn drop(&mut self) {
        if std::thread::panicking() {
            println!("calls since the login:");
            self.history.iter().for_each(|call| println!("{call:02x?}"));
        }
    }
}
