//! The rounds of the cases, and their times.

use std::time::{Duration, Instant};

use crate::batch::{Batch, Lent};
use crate::cases::Case;
use crate::sides::Side;

/// All cases are gone through SWEEPS times, each for TURN, so that a slow moment of the machine does not cover a case.
const SWEEPS: u32 = 12;
const TURN: Duration = Duration::from_millis(100);

/// Nanoseconds a call, for each side of a case.
pub type Times = Vec<f64>;

/// A case set up on one side.
struct Round<'a> {
    side: &'a Side,
    case: &'a Case,
    ports: Vec<Lent>,
}

/// The calls that are timed, and nothing else. bench/callgrind counts instructions in this function.
#[no_mangle]
#[inline(never)]
fn srp_bench_measured(side: &Side, batch: &Batch, ports: &mut [Lent]) {
    // SAFETY: `Round` has its ports from its side.
    unsafe { batch.run(side, ports, |_, _| ()) }
}

impl<'a> Round<'a> {
    fn new(side: &'a Side, case: &'a Case) -> Self {
        let ports = (0..case.ports).map(|_| Lent::after_login(side)).collect();
        Round { side, case, ports }
    }

    /// Makes the case's calls once; gives the time of those that are timed, in ns.
    fn run(&mut self) -> f64 {
        let Round { side, case, ports } = self;
        let untimed = |batch: &Batch, ports: &mut [Lent]| {
            // SAFETY: as above.
            unsafe { batch.run(side, ports, |_, _| ()) }
        };
        case.before.iter().for_each(|batch| untimed(batch, ports));
        let start = Instant::now();
        srp_bench_measured(side, &case.timed, ports);
        let elapsed = start.elapsed();
        case.after.iter().for_each(|batch| untimed(batch, ports));
        elapsed.as_nanos() as f64
    }

    fn calls(&self) -> f64 {
        (self.case.timed.calls() * self.case.ports) as f64
    }
}

/// The smallest time that the clock shows between two readings in a row, in ns.
fn clock_time() -> f64 {
    let once = |_| {
        let start = Instant::now();
        start.elapsed().as_nanos() as f64
    };
    (0..100_000).map(once).fold(f64::MAX, f64::min)
}

/// The smallest times of each case, a call, without the clock's own.
pub fn time(cases: &[Case]) -> Vec<Times> {
    let clock = clock_time();
    let of_case = |case| Case::sides(case).into_iter().map(|side| Round::new(side, case)).collect();
    let mut rounds: Vec<Vec<Round>> = cases.iter().map(of_case).collect();
    let mut best: Vec<Times> = rounds.iter().map(|sides| vec![f64::MAX; sides.len()]).collect();
    for _ in 0..SWEEPS {
        for (sides, best) in rounds.iter_mut().zip(&mut best) {
            let start = Instant::now();
            while start.elapsed() < TURN {
                for (round, best) in sides.iter_mut().zip(best.iter_mut()) {
                    *best = best.min((round.run() - clock) / round.calls());
                }
            }
        }
    }
    best
}

/// Makes a case's calls once on each side; prints for each the case, the side and the number of calls measured.
pub fn count(case: &Case) {
    for side in case.sides() {
        let mut round = Round::new(side, case);
        round.run();
        println!("{}\t{}\t{}", case.name, side.name, round.calls());
    }
}
