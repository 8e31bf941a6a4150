//! Whether all sides do the same in a case, call by call.

use srp_target_sys::{Answer, MESSAGE_BYTES, RECORD_WORDS};

use crate::batch::{Batch, Lent};
use crate::cases::Case;
use crate::sides::Side;

/// What a call returned and left, and after a batch what counters and list say of a port.
#[derive(Debug, PartialEq)]
enum Seen {
    Call { returned: u32, answer: Answer, buf: [u8; MESSAGE_BYTES] },
    Port { counters: (u32, Answer), open: (u32, Vec<[u64; RECORD_WORDS]>) },
}

fn watch(side: &Side, batch: &Batch, ports: &mut [Lent], seen: &mut Vec<Seen>) {
    let note = |returned, lent: &Lent| seen.push(Seen::Call { returned, answer: *lent.answer, buf: *lent.buf });
    // SAFETY: the ports are of this side.
    unsafe { batch.run(side, ports, note) };
    for lent in ports {
        let (counters, open) = (lent.counters(side), lent.list(side));
        seen.push(Seen::Port { counters, open });
    }
}

fn once(side: &Side, case: &Case) -> Vec<Seen> {
    let mut ports: Vec<Lent> = (0..case.ports).map(|_| Lent::after_login(side)).collect();
    let first = ports[0].counters(side);
    let mut seen = Vec::new();
    // Twice, so that what a round leaves behind is seen too.
    for batch in [case.batches(), case.batches()].into_iter().flatten() {
        watch(side, batch, &mut ports, &mut seen);
    }
    for lent in &mut ports {
        assert_eq!(lent.counters(side), first, "{}, {}: the counters are not as before", case.name, side.name);
        let returned = lent.close(side);
        seen.push(Seen::Call { returned, answer: *lent.answer, buf: *lent.buf });
    }
    seen
}

/// Panics unless all sides of a case return, answer and write the same in every call, and no call is refused.
pub fn compare(case: &Case) {
    let sides = case.sides();
    let library = once(sides[0], case);
    for side in &sides[1..] {
        let other = once(side, case);
        assert_eq!(library.len(), other.len());
        for (call, (library, other)) in library.iter().zip(&other).enumerate() {
            assert_eq!(library, other, "{}: library and {} differ in call {call}", case.name, side.name);
            let refused = matches!(library, Seen::Call { returned: 1.., .. });
            assert!(!refused, "{}: call {call} is refused", case.name);
        }
    }
}
