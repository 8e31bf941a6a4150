//! Refusals and their numbers, as values and as errors.

use srp_target::{LoginRefusal, Message, NoRefusal, Port, Refusal, TablesRefusal, TakeRefusal};
use srp_target_sys::{PORT_WORDS, STORE_BYTES};

const NUMBERED: [(u32, Refusal); 24] = [
    (1, Refusal::ShortBuffer),
    (2, Refusal::Setting),
    (3, Refusal::Length),
    (4, Refusal::OtherType),
    (5, Refusal::OutFormat),
    (6, Refusal::InFormat),
    (7, Refusal::OutCount),
    (8, Refusal::InCount),
    (9, Refusal::TableLength),
    (10, Refusal::Fields),
    (11, Refusal::Argument),
    (21, Refusal::Closed),
    (22, Refusal::NoCredit),
    (23, Refusal::TagOpen),
    (24, Refusal::TagNotOpen),
    (25, Refusal::CreditResponse),
    (26, Refusal::Unanswered),
    (27, Refusal::NotOwed),
    (28, Refusal::Wanted),
    (29, Refusal::Unplanned),
    (30, Refusal::Planned),
    (31, Refusal::Offset),
    (32, Refusal::Unfinished),
    (33, Refusal::Waiting),
];

#[test]
fn every_refusal_has_its_number() {
    assert_eq!(Refusal::ALL, NUMBERED.map(|(_, refusal)| refusal));
    for (number, refusal) in NUMBERED {
        assert_eq!((u32::from(refusal), refusal.number()), (number, number));
        assert_eq!(Refusal::try_from(number), Ok(refusal));
    }
}

#[test]
fn other_numbers_are_no_refusals() {
    let others = (0..1000).chain([u32::MAX - 1, u32::MAX]).filter(|n| !NUMBERED.iter().any(|(m, _)| n == m));
    assert_eq!(others.clone().count(), 1002 - 24);
    others.for_each(|number| assert_eq!(Refusal::try_from(number), Err(NoRefusal(number))));
}

#[test]
fn refusals_are_errors_with_their_number() {
    let texts = NUMBERED.map(|(_, refusal)| refusal.to_string());
    for (at, (number, _)) in NUMBERED.into_iter().enumerate() {
        let text = texts[at].strip_prefix(&format!("refused {number}: "));
        assert!(text.is_some_and(|text| text.len() > 3), "{}", texts[at]);
        assert!(!texts[..at].contains(&texts[at]));
    }
    let rejected = LoginRefusal::Rejected { reason: 0x0001_0003, message: Message(&[]) };
    let hung_up = TakeRefusal::HungUp { refusal: Refusal::NoCredit, message: Message(&[]) };
    let answered = TablesRefusal::Answered { refusal: Refusal::Fields, message: Message(&[]) };
    let errors: [&dyn std::error::Error; 4] = [&rejected, &hung_up, &answered, &NoRefusal(12)];
    let texts = errors.map(|error| error.to_string());
    assert_eq!(texts[..2], ["login rejected: 00010003h", "refused 22: request without credit"]);
    assert_eq!(texts[2..], ["refused 10: bad fields", "12 is the number of no refusal"]);
}

/// A port is its words and its store, and may go to another thread.
#[test]
fn a_port_is_its_memory() {
    fn may_move<T: Send + Sync + 'static>() {}
    may_move::<Port>();
    assert_eq!(size_of::<Port>(), 8 * PORT_WORDS + STORE_BYTES);
}
