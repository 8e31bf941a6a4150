//! Calls of srp_format_counts, on the library and on the model, compared in every word.

use crate::guarded::{GuardedMemory, Side};
use crate::interface;
use crate::model::formats::format_counts_in_c;
use crate::model::writing::Answer;
use crate::port::call::UNWRITTEN;
use crate::random::Random;

/// What a call returned, and the answer after it.
#[derive(Clone, Copy, Debug, PartialEq, Eq)]
pub struct Outcome {
    pub returned: u32,
    pub answer: Answer,
}

/// What a call comes to: refused, or by how many formats are agreed.
pub const KINDS: [&str; 4] = ["refused 2", "none agreed", "one agreed", "both agreed"];

/// One of KINDS, by the number returned and how many values pass.
pub fn kind(outcome: &Outcome) -> String {
    match (outcome.returned, outcome.answer[0]) {
        (0, 1) => "none agreed".into(),
        (0, 4) => "one agreed".into(),
        (0, 9) => "both agreed".into(),
        (0, pass) => format!("{pass} pass"),
        (refusal, _) => format!("refused {refusal}"),
    }
}

/// Formats: agreed ones, each as often; such with a bit beside; any.
pub fn random(random: &mut Random) -> u32 {
    let agreed = random.of(&[0b000, 0b010, 0b100, 0b110]);
    match random.below(4) {
        0 => agreed | 1 << random.below(32),
        1 => random.any_size(),
        _ => agreed,
    }
}

/// The library's outcome, with the answer at that side of its memory. Panics where it is not the model's, or a byte
/// around the answer was written.
pub fn compared(formats: u32, memory: &mut GuardedMemory, side: Side) -> Outcome {
    let mut answer = memory.place(&UNWRITTEN, side);
    let returned = interface::format_counts(formats, answer.values_mut());
    assert!(answer.guard_is_whole(), "a byte around the answer was written: formats {formats:x}");
    as_the_model(formats, returned, answer.values())
}

/// As `compared`, with the answer in heap memory of just its length, so that valgrind sees a byte read or written
/// outside it.
pub fn compared_on_heap(formats: u32) -> Outcome {
    let mut answer: Box<[u64]> = UNWRITTEN.into();
    let returned = interface::format_counts(formats, &mut answer);
    as_the_model(formats, returned, &answer)
}

fn as_the_model(formats: u32, returned: u32, answer: &[u64]) -> Outcome {
    let mut expected = UNWRITTEN;
    let number = format_counts_in_c(formats, &mut expected);
    assert!(
        returned == number && answer == expected,
        "formats {formats:x}\nlibrary: {returned} {answer:x?}\n  model: {number} {expected:x?}"
    );
    Outcome { returned, answer: expected }
}
