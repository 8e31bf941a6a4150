//! Counts how often each outcome came up, so that a test can show that its inputs reach all of them.

use std::collections::BTreeMap;

#[derive(Default)]
pub struct Tally(BTreeMap<String, u64>);

impl Tally {
    pub fn add(&mut self, outcome: impl Into<String>) {
        *self.0.entry(outcome.into()).or_default() += 1;
    }

    pub fn join(&mut self, other: &Tally) {
        for (outcome, n) in &other.0 {
            *self.0.entry(outcome.clone()).or_default() += n;
        }
    }

    pub fn count(&self, outcome: &str) -> u64 {
        self.0.get(outcome).copied().unwrap_or(0)
    }

    pub fn total(&self) -> u64 {
        self.0.values().sum()
    }

    pub fn print(&self, title: &str) {
        self.print_as(title, "calls");
    }

    /// With the unit of what was counted.
    pub fn print_as(&self, title: &str, unit: &str) {
        let lines: Vec<String> = self.0.iter().map(|(outcome, n)| format!("{n:>10}  {outcome}\n")).collect();
        println!("{title}: {} {unit}\n{}", self.total(), lines.concat());
    }

    /// Panics unless just these outcomes came up, each at least so often.
    pub fn assert_each(&self, least: u64, outcomes: &[&str]) {
        self.assert_at_least(least, outcomes);
        for outcome in self.0.keys() {
            assert!(outcomes.contains(&outcome.as_str()), "'{outcome}' is not to come up");
        }
    }

    /// Panics unless these outcomes came up, each at least so often.
    pub fn assert_at_least(&self, least: u64, outcomes: &[&str]) {
        for outcome in outcomes {
            let n = self.count(outcome);
            assert!(n >= least, "'{outcome}' came up {n} times, under {least}");
        }
    }
}
