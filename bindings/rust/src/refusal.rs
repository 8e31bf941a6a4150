//! The refusals and their numbers; what a refused login, take or tables gives.

use core::error::Error;
use core::fmt;

use srp_target_sys as sys;

use crate::message::Message;

/// Why a call is refused. The numbers are those of documents 01 and 02; `u32::from` and `Refusal::try_from` convert.
#[derive(Clone, Copy, Debug, PartialEq, Eq, PartialOrd, Ord, Hash)]
#[repr(u32)]
pub enum Refusal {
    /// 1: lent buffer under 132 bytes, or under 81 for the line of [`trace`](crate::trace).
    ShortBuffer = sys::REFUSED_SHORT_BUFFER,
    /// 2: setting out of range.
    Setting = sys::REFUSED_SETTING,
    /// 3: message under 16 bytes, over the agreed length, or not of its type's length.
    Length = sys::REFUSED_LENGTH,
    /// 4: message of another type.
    OtherType = sys::REFUSED_OTHER_TYPE,
    /// 5: out format not agreed.
    OutFormat = sys::REFUSED_OUT_FORMAT,
    /// 6: in format not agreed.
    InFormat = sys::REFUSED_IN_FORMAT,
    /// 7: out count above 32, or more copies than the table's length holds.
    OutCount = sys::REFUSED_OUT_COUNT,
    /// 8: in count, likewise.
    InCount = sys::REFUSED_IN_COUNT,
    /// 9: lent table not of the fetched length.
    TableLength = sys::REFUSED_TABLE_LENGTH,
    /// 10: bad fields.
    Fields = sys::REFUSED_FIELDS,
    /// 11: argument bad.
    Argument = sys::REFUSED_ARGUMENT,
    /// 21: channel closed.
    Closed = sys::REFUSED_CLOSED,
    /// 22: request with A = 0.
    NoCredit = sys::REFUSED_NO_CREDIT,
    /// 23: request with the tag of an open command.
    TagOpen = sys::REFUSED_TAG_OPEN,
    /// 24: no open command has the tag.
    TagNotOpen = sys::REFUSED_TAG_NOT_OPEN,
    /// 25: SRP_CRED_RSP unexpected, or with another tag.
    CreditResponse = sys::REFUSED_CREDIT_RESPONSE,
    /// 26: the last SRP_CRED_REQ is unanswered.
    Unanswered = sys::REFUSED_UNANSWERED,
    /// 27: D not above 0.
    NotOwed = sys::REFUSED_NOT_OWED,
    /// 28: W would leave 1 to 16.
    Wanted = sys::REFUSED_WANTED,
    /// 29: move or step before plan.
    Unplanned = sys::REFUSED_UNPLANNED,
    /// 30: planned already.
    Planned = sys::REFUSED_PLANNED,
    /// 31: a move's offset above the smaller of R and B.
    Offset = sys::REFUSED_OFFSET,
    /// 32: the direction's earlier move still has pieces.
    Unfinished = sys::REFUSED_UNFINISHED,
    /// 33: the command waits for its tables; or tables, and it does not.
    Waiting = sys::REFUSED_WAITING,
}

impl Refusal {
    /// Every refusal, in the order of the numbers.
    pub const ALL: [Refusal; 24] = [
        Refusal::ShortBuffer,
        Refusal::Setting,
        Refusal::Length,
        Refusal::OtherType,
        Refusal::OutFormat,
        Refusal::InFormat,
        Refusal::OutCount,
        Refusal::InCount,
        Refusal::TableLength,
        Refusal::Fields,
        Refusal::Argument,
        Refusal::Closed,
        Refusal::NoCredit,
        Refusal::TagOpen,
        Refusal::TagNotOpen,
        Refusal::CreditResponse,
        Refusal::Unanswered,
        Refusal::NotOwed,
        Refusal::Wanted,
        Refusal::Unplanned,
        Refusal::Planned,
        Refusal::Offset,
        Refusal::Unfinished,
        Refusal::Waiting,
    ];

    /// Its number.
    pub const fn number(self) -> u32 {
        self as u32
    }

    const fn text(self) -> &'static str {
        match self {
            Refusal::ShortBuffer => "lent buffer too short",
            Refusal::Setting => "setting out of range",
            Refusal::Length => "length of the message",
            Refusal::OtherType => "message of another type",
            Refusal::OutFormat => "out format not agreed",
            Refusal::InFormat => "in format not agreed",
            Refusal::OutCount => "out count",
            Refusal::InCount => "in count",
            Refusal::TableLength => "lent table not of the fetched length",
            Refusal::Fields => "bad fields",
            Refusal::Argument => "argument bad",
            Refusal::Closed => "channel closed",
            Refusal::NoCredit => "request without credit",
            Refusal::TagOpen => "tag already open",
            Refusal::TagNotOpen => "tag not open",
            Refusal::CreditResponse => "unexpected SRP_CRED_RSP",
            Refusal::Unanswered => "SRP_CRED_REQ unanswered",
            Refusal::NotOwed => "nothing owed",
            Refusal::Wanted => "W would leave 1 to 16",
            Refusal::Unplanned => "not planned",
            Refusal::Planned => "planned already",
            Refusal::Offset => "offset of a move",
            Refusal::Unfinished => "the earlier move has pieces left",
            Refusal::Waiting => "the command waits for its tables, or does not",
        }
    }
}

impl From<Refusal> for u32 {
    fn from(refusal: Refusal) -> u32 {
        refusal.number()
    }
}

/// A number that is no refusal's.
#[derive(Clone, Copy, Debug, PartialEq, Eq)]
pub struct NoRefusal(
    /// The number.
    pub u32,
);

impl TryFrom<u32> for Refusal {
    type Error = NoRefusal;

    fn try_from(number: u32) -> Result<Refusal, NoRefusal> {
        Refusal::ALL.into_iter().find(|refusal| refusal.number() == number).ok_or(NoRefusal(number))
    }
}

/// Why a login gave no open port.
#[derive(Clone, Copy, Debug, PartialEq, Eq)]
#[must_use = "the message of a rejection is to be sent"]
pub enum LoginRefusal<'b> {
    /// Refused 1 to 4: no message, and the lent buffer is as it was.
    Refused(Refusal),
    /// Rejected. The message is to be sent; no connection is made.
    Rejected {
        /// The reason, 0001 0000h to 0001 0005h, as the message has it.
        reason: u32,
        /// The SRP_LOGIN_REJ, in the lent buffer.
        message: Message<'b>,
    },
}

/// Why a message was not taken, or was taken and ended at once. It does not convert into a [`Refusal`], so that `?`
/// loses no message.
#[derive(Clone, Copy, Debug, PartialEq, Eq)]
#[must_use = "the message of a hang-up or of refusal 10 is to be sent"]
pub enum TakeRefusal<'b> {
    /// 1, 21: no message; port and lent buffer are as they were. After 1 the message is still to be taken.
    Unaltered(Refusal),
    /// 10: the command was taken, answered and ended. The channel is open, and the message is to be sent.
    Answered {
        /// [`Refusal::Fields`].
        refusal: Refusal,
        /// The SRP_RSP, in the lent buffer.
        message: Message<'b>,
    },
    /// 3 to 8, 22, 23, 25: the port is closed, its commands dropped. The message is to be sent, and then the owner
    /// disconnects.
    HungUp {
        /// Why.
        refusal: Refusal,
        /// The SRP_T_LOGOUT, in the lent buffer.
        message: Message<'b>,
    },
}

impl<'b> TakeRefusal<'b> {
    /// Which refusal it is.
    pub fn refusal(&self) -> Refusal {
        match *self {
            TakeRefusal::Unaltered(refusal) => refusal,
            TakeRefusal::Answered { refusal, .. } | TakeRefusal::HungUp { refusal, .. } => refusal,
        }
    }

    /// The message to send, if any.
    pub fn message(&self) -> Option<Message<'b>> {
        match *self {
            TakeRefusal::Unaltered(_) => None,
            TakeRefusal::Answered { message, .. } | TakeRefusal::HungUp { message, .. } => Some(message),
        }
    }
}

/// Why tables were not accepted. It does not convert into a [`Refusal`], so that `?` loses no message.
#[derive(Clone, Copy, Debug, PartialEq, Eq)]
#[must_use = "the message of refusal 10 is to be sent"]
pub enum TablesRefusal<'b> {
    /// 1, 21, 24, 33, 9: no message; port and lent buffer are as they were. After 1 and 9 the command waits on.
    Unaltered(Refusal),
    /// 10: the command was answered and ended. The message is to be sent.
    Answered {
        /// [`Refusal::Fields`].
        refusal: Refusal,
        /// The SRP_RSP, in the lent buffer.
        message: Message<'b>,
    },
}

impl<'b> TablesRefusal<'b> {
    /// Which refusal it is.
    pub fn refusal(&self) -> Refusal {
        match *self {
            TablesRefusal::Unaltered(refusal) | TablesRefusal::Answered { refusal, .. } => refusal,
        }
    }

    /// The message to send, if any.
    pub fn message(&self) -> Option<Message<'b>> {
        match *self {
            TablesRefusal::Unaltered(_) => None,
            TablesRefusal::Answered { message, .. } => Some(message),
        }
    }
}

impl fmt::Display for Refusal {
    fn fmt(&self, f: &mut fmt::Formatter<'_>) -> fmt::Result {
        write!(f, "refused {}: {}", self.number(), self.text())
    }
}

impl fmt::Display for NoRefusal {
    fn fmt(&self, f: &mut fmt::Formatter<'_>) -> fmt::Result {
        write!(f, "{} is the number of no refusal", self.0)
    }
}

impl fmt::Display for LoginRefusal<'_> {
    fn fmt(&self, f: &mut fmt::Formatter<'_>) -> fmt::Result {
        match self {
            LoginRefusal::Refused(refusal) => refusal.fmt(f),
            LoginRefusal::Rejected { reason, .. } => write!(f, "login rejected: {reason:08x}h"),
        }
    }
}

impl fmt::Display for TakeRefusal<'_> {
    fn fmt(&self, f: &mut fmt::Formatter<'_>) -> fmt::Result {
        self.refusal().fmt(f)
    }
}

impl fmt::Display for TablesRefusal<'_> {
    fn fmt(&self, f: &mut fmt::Formatter<'_>) -> fmt::Result {
        self.refusal().fmt(f)
    }
}

impl Error for Refusal {}
impl Error for NoRefusal {}
impl Error for LoginRefusal<'_> {}
impl Error for TakeRefusal<'_> {}
impl Error for TablesRefusal<'_> {}
