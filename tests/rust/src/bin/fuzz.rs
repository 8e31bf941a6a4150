//! fuzz SECONDS [SEED]: compares the library with the model on random calls for that long, of look, the cut, the trace,
//! the format counts and the calls on a port, and runs the two-ended machine. The seed is the clock's unless it is
//! given; it is printed first, so that a failure can be had again.

use std::env;
use std::time::{Duration, Instant, SystemTime, UNIX_EPOCH};

use srp_tests::calls::{Call, Cut, Look, Memory, Placement, Trace};
use srp_tests::formats;
use srp_tests::guarded::{GuardedMemory, Side};
use srp_tests::line::kind;
use srp_tests::port::{library::Library, machine::Machine, side_by_side::SideBySide};
use srp_tests::random::Random;
use srp_tests::tally::Tally;

fn main() {
    let number = |at: usize| env::args().nth(at).map(|word| word.parse::<u64>().expect("fuzz SECONDS [SEED]"));
    let seconds = number(1).unwrap_or(60);
    let seed = number(2).unwrap_or_else(clock);
    println!("seed {seed}, {seconds} seconds");

    let (mut random, mut memory) = (Random::new(seed), Memory::default());
    let (mut looks, mut cuts, mut traces) = (Tally::default(), Tally::default(), Tally::default());
    let (mut counts, mut answer) = (Tally::default(), GuardedMemory::holding(1));
    let mut ports = SideBySide::new(seed);
    let mut machine = Machine::new(Library::new(seed), seed);
    let end = Instant::now() + Duration::from_secs(seconds);
    while Instant::now() < end {
        for _ in 0..1000 {
            let placement = Placement::random(&mut random);
            looks.add(returned(Look::random(&mut random).compared(&mut memory, placement).returned));
            cuts.add(returned(Cut::random(&mut random).compared(&mut memory, placement).returned));
            let trace = Trace::random(&mut random);
            traces.add(kind(&trace, &trace.compared(&mut memory, placement)));
            ports.call();
        }
        let side = random.of(&[Side::Start, Side::End]);
        counts.add(formats::kind(&formats::compared(formats::random(&mut random), &mut answer, side)));
        machine.list(true, 500);
        machine.list(false, 500);
        machine.crowded(200);
    }
    looks.print("look");
    cuts.print("cut");
    traces.print("trace");
    counts.print("format counts");
    ports.outcomes.print("port");
    machine.events.print_as("machine", "events");
    println!("no difference");
}

fn returned(number: u32) -> String {
    match number {
        0 => "not refused".into(),
        refusal => format!("refused {refusal}"),
    }
}

fn clock() -> u64 {
    let since = SystemTime::now().duration_since(UNIX_EPOCH).expect("a clock after 1970");
    since.as_nanos() as u64
}
