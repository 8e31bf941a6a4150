//! Take: any message to the port.

use super::channel::{Channel, OpenCommand, Port};
use super::command::{Command, Request, SRP_CMD};
use super::writing::{response_with_code, target_logout, write, Answer, LENT_BYTES};
use super::{number, Refusal};

pub const SRP_TSK_MGMT: u8 = 0x01;
pub const SRP_I_LOGOUT: u8 = 0x03;
pub const SRP_CRED_RSP: u8 = 0x41;

/// What take says of a message that it does not refuse, or refuses and answers.
enum Taken {
    Command {
        command: Command,
        waits: bool,
    },
    /// A command with bad fields, and its answer.
    BadFields(Vec<u8>),
    /// A task request, and its answer.
    Task(Request, Vec<u8>),
    CreditResponse,
    Logout,
}

impl Port {
    /// Take's answer words: bytes written, kind, and of a command its tag, LUN, place and length of the CDB, and whether
    /// it waits for its tables, of a task request its tag and LUN.
    pub fn take(&mut self, msg: &[u8], buf: &mut [u8], answer: &mut Answer) -> u32 {
        *answer = [0; 8];
        if buf.len() < LENT_BYTES {
            return Refusal::ShortBuffer.number();
        }
        let Some(channel) = &mut self.channel else {
            return Refusal::Closed.number();
        };
        match channel.take(msg) {
            Err(refusal) => return self.refused(refusal, buf, answer),
            Ok(Taken::BadFields(message)) => {
                write(&message, buf, answer);
                return Refusal::BadFields.number();
            }
            Ok(Taken::Command { command: Command { request, cdb, .. }, waits }) => {
                *answer = [0, 1, request.tag, request.lun, cdb.start as u64, cdb.len() as u64, waits.into(), 0];
            }
            Ok(Taken::Task(request, message)) => {
                *answer = [0, 2, request.tag, request.lun, 0, 0, 0, 0];
                write(&message, buf, answer);
            }
            Ok(Taken::CreditResponse) => answer[1] = 3,
            // "Logout closes the channel, drops open commands, writes nothing."
            Ok(Taken::Logout) => {
                self.channel = None;
                answer[1] = 4;
            }
        }
        0
    }

    /// "Take's 3 to 8, 22, 23 and 25 write SRP_T_LOGOUT, drop all commands and close .. Every other refusal returns its
    /// number and alters nothing."
    fn refused(&mut self, refusal: Refusal, buf: &mut [u8], answer: &mut Answer) -> u32 {
        if Refusal::hangs_up(refusal.number()) {
            if let Some(channel) = self.channel.take() {
                write(&target_logout(channel.agreement.losolnt, refusal.logout_reason()), buf, answer);
            }
        }
        refusal.number()
    }
}

/// "SRP_I_LOGOUT 03h and SRP_CRED_RSP 41h: 16 bytes"; "SRP_TSK_MGMT, type 01h, 48 bytes".
fn of_length(msg: &[u8], length: usize) -> Result<(), Refusal> {
    if msg.len() == length {
        Ok(())
    } else {
        Err(Refusal::Length)
    }
}

impl Channel {
    /// "Take checks 1, 21, 3 (16 and agreed length), 4, 3 (48 for a command), 5, 6, 3 (exact), 7, 8, 22, 23, 9, 10;
    /// 5 to 10 are for commands alone, 22 and 23 for requests; SRP_CRED_RSP has 25 after its 3." But "take will no
    /// longer need the tables": 9 is gone from here, and 10 is for commands without a fetch.
    fn take(&mut self, msg: &[u8]) -> Result<Taken, Refusal> {
        if msg.len() < 16 || msg.len() > self.agreement.length as usize {
            return Err(Refusal::Length);
        }
        match msg[0] {
            SRP_CMD => {
                let command = Command::read(msg, self.agreement.formats)?;
                self.take_command(command)
            }
            SRP_TSK_MGMT => {
                of_length(msg, 48)?;
                self.take_task(Request::read(msg), msg[30], number(&msg[32..40]))
            }
            SRP_I_LOGOUT => of_length(msg, 16).map(|()| Taken::Logout),
            SRP_CRED_RSP => {
                of_length(msg, 16)?;
                self.take_credit_response(number(&msg[8..16]))
            }
            _ => Err(Refusal::OtherType),
        }
    }

    /// "22 A = 0. 23 tag already open."
    fn take_request(&mut self, request: &Request) -> Result<(), Refusal> {
        if self.credit.announced == 0 {
            return Err(Refusal::NoCredit);
        }
        if self.place_of(request.tag).is_some() {
            return Err(Refusal::TagOpen);
        }
        Ok(())
    }

    fn take_command(&mut self, command: Command) -> Result<Taken, Refusal> {
        self.take_request(&command.request)?;
        // "It counts as held from the moment it was taken."
        self.credit.request_taken();
        let descriptors = [&command.data_out, &command.data_in];
        let waits = descriptors.iter().any(|descriptor| descriptor.fetch_length() > 0);
        let opened = if waits {
            // "With a fetch named, the command is open and waiting."
            OpenCommand::that_waits(command.request, descriptors.map(Clone::clone))
        } else if descriptors.iter().any(|descriptor| descriptor.bad_field(&[]).is_some()) {
            // "Refusal 10 is taken and answered in the same call."
            return Ok(Taken::BadFields(self.answer_with_code(&command.request, 0x02)));
        } else {
            OpenCommand::new(command.request, descriptors.map(|descriptor| descriptor.segment_list(&[])))
        };
        self.commands.push(opened);
        Ok(Taken::Command { command, waits })
    }

    /// "01h aborts the open command with that tag and LUN, if any. 02h, 04h and 08h abort all open commands of the LUN.
    /// These answer RSP_CODE 00h. 40h answers 04h, any other value 02h. Aborted commands get no response."
    fn take_task(&mut self, request: Request, function: u8, task_tag: u64) -> Result<Taken, Refusal> {
        self.take_request(&request)?;
        self.credit.request_taken();
        let code = match function {
            0x01 => {
                self.abort(|command| command.tag == task_tag && command.lun == request.lun);
                0x00
            }
            0x02 | 0x04 | 0x08 => {
                self.abort(|command| command.lun == request.lun);
                0x00
            }
            0x40 => 0x04,
            _ => 0x02,
        };
        let message = self.answer_with_code(&request, code);
        Ok(Taken::Task(request, message))
    }

    fn abort(&mut self, aborted: impl Fn(&Request) -> bool) {
        let before = self.commands.len();
        self.commands.retain(|command| !aborted(&command.request));
        self.leave_with_commands();
        for _ in self.commands.len()..before {
            self.credit.request_ends();
        }
    }

    /// The request ends with a response that has a code.
    pub(super) fn answer_with_code(&mut self, request: &Request, code: u8) -> Vec<u8> {
        self.credit.request_ends();
        let delta = self.credit.carry_delta();
        response_with_code(request.solnt(code), delta, request.tag, code)
    }

    /// "One may be unanswered; SRP_CRED_RSP with tag 1 settles it and uses no credit"; "25 SRP_CRED_RSP unexpected or
    /// with another tag".
    fn take_credit_response(&mut self, tag: u64) -> Result<Taken, Refusal> {
        if !self.unanswered || tag != 1 {
            return Err(Refusal::UnexpectedCreditResponse);
        }
        self.unanswered = false;
        Ok(Taken::CreditResponse)
    }
}
