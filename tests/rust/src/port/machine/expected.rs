//! Which refusal a call draws, and the type of the message that it writes. The model's are the reading of big-endian
//! fields, a request's tag and LUN, and of a command its 3 (but for 16 bytes and the agreed length), 5 to 8, the lengths
//! of its tables (9), its bad fields (10) and its segments. All else is the machine's own: 1, 4, 11, the lengths of other
//! messages, which commands wait, and 22 to 33 by its counts.

use super::ends::{Ends, Waiting};
use super::Call;
use crate::model::command::Request;
use crate::model::descriptors::Descriptor;
use crate::model::{number, Command};

/// A message that take does not refuse for what is in it.
pub enum Message {
    Command(Command),
    Task { request: Request, function: u8, task_tag: u64 },
    CreditResponse,
    Logout,
}

/// "With a fetch named": in either direction.
pub fn has_fetch(descriptors: [&Descriptor; 2]) -> bool {
    descriptors.iter().any(|descriptor| descriptor.fetch_length() > 0)
}

fn are_bad(descriptors: [&Descriptor; 2], tables: [&[u8]; 2]) -> bool {
    descriptors.iter().zip(tables).any(|(descriptor, table)| descriptor.bad_field(table).is_some())
}

impl Ends {
    /// What a message is, or take's 3 to 8.
    pub fn read(&self, msg: &[u8]) -> Result<Message, u32> {
        if msg.len() < 16 || msg.len() > self.login.agreed as usize {
            return Err(3);
        }
        match (msg[0], msg.len()) {
            (0x01, 48) => {
                Ok(Message::Task { request: Request::read(msg), function: msg[30], task_tag: number(&msg[32..40]) })
            }
            (0x02, _) => {
                let command = Command::read(msg, self.login.formats).map_err(|refusal| refusal.number())?;
                Ok(Message::Command(command))
            }
            (0x03, 16) => Ok(Message::Logout),
            (0x41, 16) => Ok(Message::CreditResponse),
            (0x01 | 0x03 | 0x41, _) => Err(3),
            _ => Err(4),
        }
    }

    /// Take's refusal, 0 for none: 1, 3 to 8 by what the message is, 22, 23 and 25 by the counts; then 10 of a command
    /// without a fetch.
    pub fn refusal_of_take(&self, msg: &[u8], lent: usize) -> u32 {
        if lent < 132 {
            return 1;
        }
        let command = match self.read(msg) {
            Err(refusal) => return refusal,
            Ok(Message::Logout) => return 0,
            Ok(Message::CreditResponse) if self.unanswered && number(&msg[8..16]) == 1 => return 0,
            Ok(Message::CreditResponse) => return 25,
            Ok(Message::Task { request, .. }) => return self.refusal_of_request(&request),
            Ok(Message::Command(command)) => command,
        };
        let descriptors = [&command.data_out, &command.data_in];
        match self.refusal_of_request(&command.request) {
            0 if !has_fetch(descriptors) && are_bad(descriptors, [&[], &[]]) => 10,
            refusal => refusal,
        }
    }

    /// The refusal of tables: 1, 24, 33, 9, 10.
    pub fn refusal_of_tables(&self, tag: u64, tables: [&[u8]; 2], lent: usize) -> u32 {
        if lent < 132 {
            return 1;
        }
        let Some(place) = self.place_of(tag) else {
            return 24;
        };
        let Some(Waiting { descriptors: [out, inn], .. }) = &self.open[place].waiting else {
            return 33;
        };
        if tables.map(<[u8]>::len) != [out.fetch_length(), inn.fetch_length()] {
            9
        } else if are_bad([out, inn], tables) {
            10
        } else {
            0
        }
    }

    /// The type byte of the message that a call writes, None where it writes none. Plan, move, step, add and withdraw
    /// are lent no buffer for one.
    pub fn message_of(&self, call: &Call, returned: u32) -> Option<u8> {
        match (call, returned) {
            (Call::Login { .. }, 0) => Some(0xc0),
            (Call::Take { msg, .. }, 0) => matches!(self.read(msg), Ok(Message::Task { .. })).then_some(0xc1),
            (Call::Take { .. } | Call::Tables { .. }, 10) | (Call::Finish { .. }, 0) => Some(0xc1),
            (Call::Take { .. }, 3..=8 | 22 | 23 | 25) => Some(0x80),
            (Call::Grant { .. }, 0) => Some(0x81),
            _ => None,
        }
    }

    fn refusal_of_request(&self, request: &Request) -> u32 {
        if self.announced() == 0 {
            22
        } else if self.place_of(request.tag).is_some() {
            23
        } else {
            0
        }
    }

    /// Of all calls that carry a command out: "33 .. directly after 24".
    fn refusal_of_tag(&self, tag: u64) -> u32 {
        self.place_of(tag).map_or(24, |place| if self.open[place].waiting.is_some() { 33 } else { 0 })
    }

    fn is_planned(&self, tag: u64) -> bool {
        self.place_of(tag).is_some_and(|place| self.open[place].planned)
    }

    pub fn refusal_of_plan(&self, tag: u64) -> u32 {
        match self.refusal_of_tag(tag) {
            0 if self.is_planned(tag) => 30,
            refusal => refusal,
        }
    }

    pub fn refusal_of_step(&self, tag: u64) -> u32 {
        match self.refusal_of_tag(tag) {
            0 if !self.is_planned(tag) => 29,
            refusal => refusal,
        }
    }

    pub fn refusal_of_move(&self, tag: u64, direction: usize, offset: u32) -> u32 {
        match self.refusal_of_step(tag) {
            0 => self.place_of(tag).map_or(24, |place| self.open[place].pieces[direction].refusal_of_move(offset)),
            refusal => refusal,
        }
    }

    pub fn refusal_of_finish(&self, tag: u64, status: u8, sense: usize, lent: usize) -> u32 {
        if lent < 132 {
            1
        } else if sense > 96 || sense > 0 && status != 2 {
            11
        } else {
            self.refusal_of_tag(tag)
        }
    }

    pub fn refusal_of_grant(&self, lent: usize) -> u32 {
        if lent < 132 {
            1
        } else if self.unanswered {
            26
        } else if self.lack() <= 0 {
            27
        } else {
            0
        }
    }

    /// Of add, and of withdraw with the other sign: "W would leave 1 to 16".
    pub fn refusal_of_change(&self, k: u32, change: i64) -> u32 {
        if k == 0 {
            11
        } else if (1..=16).contains(&(self.right_side() + change)) {
            0
        } else {
            28
        }
    }
}
