//! Take: one message from the initiator.

use super::message;
use super::request::{u64_at, CommandMessage};
use super::transfer::{SegmentList, Transfer};
use super::waiting::Awaited;
use super::{Channel, Command, Port, Refusal, Refused, BUFFER_BYTES, MAX_BUFFERS};

/// RSP_CODEs.
const TASK_DONE: u8 = 0x00;
pub const FIELDS_INVALID: u8 = 0x02;
const TASK_NOT_SUPPORTED: u8 = 0x04;

/// The tag of our SRP_CRED_REQ.
const GRANT_TAG: u64 = 1;

#[derive(Debug, PartialEq, Eq)]
pub enum Taken {
    Command { tag: u64, lun: u64, cdb_at: usize, cdb_length: usize, waits: bool },
    Task { tag: u64, lun: u64, wrote: usize },
    CreditResponse,
    Logout,
}

impl Port {
    pub fn take(&mut self, msg: &[u8], buf: &mut [u8]) -> Result<Taken, Refused> {
        let buf = message::lent(buf)?;
        let channel = self.channel.as_mut().ok_or(Refusal::Closed)?;
        let taken = channel.take(&mut self.lists, msg, buf);
        match taken {
            Ok(Taken::Logout) => self.channel = None,
            Ok(_) => {}
            Err(Refused { refusal, .. }) => {
                if let Some(reason) = refusal.logout_reason() {
                    let wrote = message::target_logout(buf, channel.losolnt, reason);
                    self.channel = None;
                    return Err(Refused { refusal, wrote });
                }
            }
        }
        taken
    }
}

impl Channel {
    fn take(
        &mut self,
        lists: &mut [[SegmentList; 2]; MAX_BUFFERS],
        msg: &[u8],
        buf: &mut [u8; BUFFER_BYTES],
    ) -> Result<Taken, Refused> {
        if msg.len() < 16 || msg.len() > self.agreed_length {
            return Err(Refusal::Length.into());
        }
        match msg[0] {
            0x01 => self.take_task(msg, buf),
            0x02 => self.take_command(lists, msg, buf),
            0x03 if msg.len() == 16 => Ok(Taken::Logout),
            0x41 if msg.len() == 16 => self.take_credit_response(u64_at(msg, 8)),
            0x03 | 0x41 => Err(Refusal::Length.into()),
            _ => Err(Refusal::OtherType.into()),
        }
    }

    fn take_command(
        &mut self,
        lists: &mut [[SegmentList; 2]; MAX_BUFFERS],
        msg: &[u8],
        buf: &mut [u8; BUFFER_BYTES],
    ) -> Result<Taken, Refused> {
        let message = CommandMessage::read(msg, self.formats)?;
        let tag = u64_at(message.head, 8);
        self.check_request(tag)?;
        let Some(free) = self.commands.iter().position(Option::is_none) else {
            return Err(Refusal::NoCredit.into());
        };
        self.announced -= 1;
        let waits = message.out.fetch_length() > 0 || message.inn.fetch_length() > 0;
        let lists = &mut lists[free];
        let (transfers, awaited) = if waits {
            ([Transfer::EMPTY; 2], Some(Awaited::of(&message, lists)))
        } else if let Some(transfers) = transfers(&message, lists) {
            (transfers, None)
        } else {
            self.owed += 1;
            let ucsolnt = message.head[1] & 1 << 2 != 0;
            let wrote = message::response_code(buf, ucsolnt, self.delta(), tag, FIELDS_INVALID);
            return Err(Refused { refusal: Refusal::Fields, wrote });
        };
        let lun = u64_at(message.head, 20);
        self.commands[free] = Some(Command { awaited, ..Command::new(message.head, self.taken, tag, lun, transfers) });
        self.taken += 1;
        Ok(Taken::Command { tag, lun, cdb_at: 32, cdb_length: message.cdb_length, waits })
    }

    fn take_task(&mut self, msg: &[u8], buf: &mut [u8; BUFFER_BYTES]) -> Result<Taken, Refused> {
        let msg: &[u8; 48] = msg.try_into().map_err(|_| Refusal::Length)?;
        let (tag, lun) = (u64_at(msg, 8), u64_at(msg, 20));
        self.check_request(tag)?;
        self.announced -= 1;
        let code = match msg[30] {
            0x01 => {
                let task_tag = u64_at(msg, 32);
                self.abort(|command| command.lun == lun && command.tag == task_tag);
                TASK_DONE
            }
            0x02 | 0x04 | 0x08 => {
                self.abort(|command| command.lun == lun);
                TASK_DONE
            }
            0x40 => TASK_NOT_SUPPORTED,
            _ => FIELDS_INVALID,
        };
        self.owed += 1;
        let solnt_bit = if code == TASK_DONE { 1 } else { 2 };
        let solnt = msg[1] & 1 << solnt_bit != 0;
        let wrote = message::response_code(buf, solnt, self.delta(), tag, code);
        Ok(Taken::Task { tag, lun, wrote })
    }

    fn take_credit_response(&mut self, tag: u64) -> Result<Taken, Refused> {
        if !self.grant_unanswered || tag != GRANT_TAG {
            return Err(Refusal::CreditResponse.into());
        }
        self.grant_unanswered = false;
        Ok(Taken::CreditResponse)
    }

    /// Refuses a request without credit, or with the tag of an open command.
    fn check_request(&self, tag: u64) -> Result<(), Refusal> {
        if self.announced == 0 {
            return Err(Refusal::NoCredit);
        }
        if self.commands.iter().flatten().any(|command| command.tag == tag) {
            return Err(Refusal::TagOpen);
        }
        Ok(())
    }

    /// Ends the open commands that the test names.
    fn abort(&mut self, aborted: impl Fn(&Command) -> bool) {
        for slot in 0..MAX_BUFFERS {
            if self.commands[slot].as_ref().is_some_and(&aborted) {
                self.end(slot);
            }
        }
    }
}

/// Both directions of a command without a fetch; None where a field is bad.
fn transfers(message: &CommandMessage, [out_list, in_list]: &mut [SegmentList; 2]) -> Option<[Transfer; 2]> {
    let out = Transfer::new(out_list, message.out.segment_bytes()?, message.out.total())?;
    let inn = Transfer::new(in_list, message.inn.segment_bytes()?, message.inn.total())?;
    Some([out, inn])
}

impl Command {
    fn new(head: &[u8; 48], taken_before: u64, tag: u64, lun: u64, transfers: [Transfer; 2]) -> Self {
        let (ucsolnt, scsolnt) = (head[1] & 1 << 2 != 0, head[1] & 1 << 1 != 0);
        Command { taken_before, tag, lun, ucsolnt, scsolnt, awaited: None, planned: false, transfers }
    }
}
