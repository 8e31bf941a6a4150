//! The refusals, with the numbers of documents 01 and 02.

#[derive(Clone, Copy, Debug, PartialEq, Eq)]
pub enum Refusal {
    // "From the message or the caller"
    ShortBuffer = 1,
    Setting = 2,
    Length = 3,
    OtherType = 4,
    OutFormat = 5,
    InFormat = 6,
    OutCount = 7,
    InCount = 8,
    TableLength = 9,
    BadFields = 10,
    Argument = 11,
    // "From what went before"
    Closed = 21,
    NoCredit = 22,
    TagOpen = 23,
    TagNotOpen = 24,
    UnexpectedCreditResponse = 25,
    GrantUnanswered = 26,
    NothingOwed = 27,
    Wanted = 28,
    Unplanned = 29,
    PlannedAlready = 30,
    // Document 02: "Refused: 31 offset above min(R, B); 32 the direction's earlier move still has pieces."
    Offset = 31,
    EarlierMove = 32,
    // "33 plan, move, step or finish on a waiting command, or tables for one that isn't waiting."
    Waiting = 33,
}

impl Refusal {
    pub fn number(self) -> u32 {
        self as u32
    }

    /// "Take's 3 to 8, 22, 23 and 25 write SRP_T_LOGOUT, drop all commands and close."
    pub fn hangs_up(number: u32) -> bool {
        matches!(number, 3..=8 | 22 | 23 | 25)
    }

    /// "Reasons 0, but 6, 7, 8, 9 for 5, 6, 7, 8."
    pub fn logout_reason(self) -> u32 {
        match self.number() {
            number @ 5..=8 => number + 1,
            _ => 0,
        }
    }
}
