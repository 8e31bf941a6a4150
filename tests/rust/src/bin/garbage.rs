//! garbage CALLS [SEED]: so many calls on words that no login made, a fourth as many of look, of the cut and of the trace
//! and a fortieth of the format counts, with random arguments, and srp_target_words. Each argument lies in heap memory
//! of just its length. For valgrind, which sees a byte read or written outside one. Fails where a function of the header
//! was not called, or only to be refused.

use std::env;

use srp_tests::calls::{Call, Cut, Look, Trace};
use srp_tests::formats;
use srp_tests::interface::{port_words, PORT_WORDS};
use srp_tests::line::{kind, KINDS};
use srp_tests::port::{garbage::Garbage, heap::Heap, kinds};
use srp_tests::random::Random;
use srp_tests::tally::Tally;

fn main() {
    let number = |at: usize| env::args().nth(at).map(|word| word.parse::<u64>().expect("garbage CALLS [SEED]"));
    let (calls, seed) = (number(1).expect("garbage CALLS [SEED]"), number(2).unwrap_or(1));
    assert_eq!(port_words(), PORT_WORDS as u64, "srp_target_words");

    let mut garbage = Garbage::new(Heap::default(), seed);
    while garbage.tally.total() < calls {
        garbage.round();
    }
    garbage.tally.print("garbage");
    assert_each_function(&garbage.tally);

    let mut random = Random::new(seed);
    let looks = tally(calls / 4, || Look::random(&mut random).compared_on_heap(0x5b).returned.to_string());
    looks.print("look");
    looks.assert_each(1, &["0", "1", "2", "3", "4", "5", "6", "7", "8"]);
    let cuts = tally(calls / 4, || Cut::random(&mut random).compared_on_heap(0x5b).returned.to_string());
    cuts.print("cut");
    cuts.assert_each(1, &["0", "1", "2", "10", "11"]);
    let traces = tally(calls / 4, || {
        let trace = Trace::random(&mut random);
        kind(&trace, &trace.compared_on_heap(0x5b))
    });
    traces.print("trace");
    traces.assert_each(1, &KINDS);
    let counts = tally(calls / 40, || formats::kind(&formats::compared_on_heap(formats::random(&mut random))));
    counts.print("format counts");
    counts.assert_each(1, &formats::KINDS);
}

/// Each function on a port came up unrefused.
fn assert_each_function(tally: &Tally) {
    let name = |outcome: &'static str| outcome.split(':').next();
    for function in kinds::OUTCOMES.map(name) {
        let unrefused = |outcome: &&'static str| name(outcome) == function && !outcome.contains("refused");
        let calls: u64 = kinds::OUTCOMES.into_iter().filter(unrefused).map(|outcome| tally.count(outcome)).sum();
        assert!(calls > 0, "{function:?} did not come up unrefused");
    }
}

/// What so many calls came to.
fn tally(calls: u64, mut call: impl FnMut() -> String) -> Tally {
    let mut tally = Tally::default();
    (0..calls).for_each(|_| tally.add(call()));
    tally
}
