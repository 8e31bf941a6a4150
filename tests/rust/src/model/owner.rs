//! The owner's calls: finish, add, withdraw, grant, close, counters, list.

use super::channel::{Channel, Port};
use super::writing::{credit_request, response_with_status, target_logout, write, Answer, Residual, LENT_BYTES};
use super::Refusal;

/// "W stays in 1 to 16."
const MOST_BUFFERS: i64 = 16;

pub(super) fn returned(outcome: Result<(), Refusal>) -> u32 {
    outcome.map_or_else(Refusal::number, |()| 0)
}

impl Port {
    /// "21 closed."
    fn open(&mut self) -> Result<&mut Channel, Refusal> {
        self.channel.as_mut().ok_or(Refusal::Closed)
    }

    /// "1 lent buffer under 132 bytes", then 21.
    pub(super) fn open_with_buffer(&mut self, buf: &[u8]) -> Result<&mut Channel, Refusal> {
        if buf.len() < LENT_BYTES {
            return Err(Refusal::ShortBuffer);
        }
        self.open()
    }

    /// 1, 21, 11, 24, 33. Answer: bytes written.
    pub fn finish(&mut self, tag: u64, status: u8, sense: &[u8], buf: &mut [u8], answer: &mut Answer) -> u32 {
        *answer = [0; 8];
        returned(self.open_with_buffer(buf).and_then(|channel| {
            // "Sense above 96 bytes or any sense with a status other than 02h."
            if sense.len() > 96 || !sense.is_empty() && status != 0x02 {
                return Err(Refusal::Argument);
            }
            let place = channel.place_of(tag).ok_or(Refusal::TagNotOpen)?;
            channel.commands[place].refused_while_waiting()?;
            let command = channel.commands.remove(place);
            channel.leave_with_commands();
            channel.credit.request_ends();
            let delta = channel.credit.carry_delta();
            let residuals = [Residual::of(&command.data_out), Residual::of(&command.data_in)];
            let head = (command.request.solnt(status), delta, tag);
            write(&response_with_status(head, status, sense, residuals), buf, answer);
            Ok(())
        }))
    }

    /// "Add k: W + k, D + k." 21, 11 (k = 0), 28.
    pub fn add(&mut self, k: u32) -> u32 {
        returned(self.change_wanted(k, i64::from(k)))
    }

    /// "Withdraw k: W - k, D - k." 21, 11 (k = 0), 28.
    pub fn withdraw(&mut self, k: u32) -> u32 {
        returned(self.change_wanted(k, -i64::from(k)))
    }

    fn change_wanted(&mut self, k: u32, change: i64) -> Result<(), Refusal> {
        let channel = self.open()?;
        if k == 0 {
            return Err(Refusal::Argument);
        }
        if !(1..=MOST_BUFFERS).contains(&(channel.credit.wanted + change)) {
            return Err(Refusal::Wanted);
        }
        channel.credit.wanted += change;
        channel.credit.owed += change;
        Ok(())
    }

    /// "Grant writes an SRP_CRED_REQ with tag 1. One may be unanswered." 1, 21, 26, 27. Answer: bytes written.
    pub fn grant(&mut self, buf: &mut [u8], answer: &mut Answer) -> u32 {
        *answer = [0; 8];
        returned(self.open_with_buffer(buf).and_then(|channel| {
            if channel.unanswered {
                return Err(Refusal::GrantUnanswered);
            }
            if channel.credit.owed <= 0 {
                return Err(Refusal::NothingOwed);
            }
            channel.unanswered = true;
            write(&credit_request(channel.agreement.crsolnt, channel.credit.carry_delta()), buf, answer);
            Ok(())
        }))
    }

    /// "The owner may also close with a reason." 1, 21. Answer: bytes written.
    pub fn close(&mut self, reason: u32, buf: &mut [u8], answer: &mut Answer) -> u32 {
        *answer = [0; 8];
        let closed = self.open_with_buffer(buf).map(|channel| {
            write(&target_logout(channel.agreement.losolnt, reason), buf, answer);
        });
        if closed.is_ok() {
            self.channel = None;
        }
        returned(closed)
    }

    /// "The owner may read W, A, H and D while the channel is open (else 21)."
    pub fn counters(&mut self, answer: &mut Answer) -> u32 {
        *answer = [0; 8];
        returned(self.open().map(|channel| {
            let credit = channel.credit;
            let words = [credit.wanted, credit.announced, credit.held, credit.owed];
            answer[..4].copy_from_slice(&words.map(|word| word as u64));
        }))
    }

    /// "The open commands listed into a lent list of records (tag, LUN, bytes handed out each way), each command once;
    /// .. the rest of the list untouched"; "the listing now take h for the bytes handed out"; "records now come as the
    /// commands were taken, oldest first". 21, 11 (under 16 records of four words). Answer: how many.
    pub fn list(&mut self, records: &mut [u64], answer: &mut Answer) -> u32 {
        *answer = [0; 8];
        returned(self.open().and_then(|channel| {
            if records.len() < 4 * 16 {
                return Err(Refusal::Argument);
            }
            for (record, command) in records.chunks_exact_mut(4).zip(&channel.commands) {
                let [out, inn] = [&command.data_out, &command.data_in].map(|transfer| transfer.reached);
                record.copy_from_slice(&[command.request.tag, command.request.lun, out, inn]);
            }
            answer[0] = channel.commands.len() as u64;
            Ok(())
        }))
    }
}
