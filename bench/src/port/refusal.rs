//! The refusals, and which of them hang up.

#[derive(Clone, Copy, Debug, PartialEq, Eq)]
#[repr(u32)]
pub enum Refusal {
    ShortBuffer = 1,
    Setting = 2,
    Length = 3,
    OtherType = 4,
    OutFormat = 5,
    InFormat = 6,
    OutCount = 7,
    InCount = 8,
    TableLength = 9,
    Fields = 10,
    Argument = 11,
    Closed = 21,
    NoCredit = 22,
    TagOpen = 23,
    TagNotOpen = 24,
    CreditResponse = 25,
    GrantUnanswered = 26,
    NothingOwed = 27,
    Wanted = 28,
    Unplanned = 29,
    Planned = 30,
    Offset = 31,
    Unfinished = 32,
    Waiting = 33,
}

/// A refusal of take or of tables, and how many bytes were written with it.
#[derive(Debug, PartialEq, Eq)]
pub struct Refused {
    pub refusal: Refusal,
    pub wrote: usize,
}

impl From<Refusal> for Refused {
    fn from(refusal: Refusal) -> Self {
        Refused { refusal, wrote: 0 }
    }
}

impl Refusal {
    /// The reason of the SRP_T_LOGOUT with which take hangs up; None where it does not.
    pub fn logout_reason(self) -> Option<u32> {
        match self {
            Refusal::Length | Refusal::OtherType => Some(0),
            Refusal::NoCredit | Refusal::TagOpen | Refusal::CreditResponse => Some(0),
            Refusal::OutFormat => Some(6),
            Refusal::InFormat => Some(7),
            Refusal::OutCount => Some(8),
            Refusal::InCount => Some(9),
            _ => None,
        }
    }
}
