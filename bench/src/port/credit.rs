//! Buffers added, withdrawn and granted; the counters; closing by the owner.

use super::{message, Channel, Counters, Port, Refusal, MAX_BUFFERS};

impl Port {
    pub fn add(&mut self, k: u32) -> Result<(), Refusal> {
        let channel = self.open()?;
        if k == 0 {
            return Err(Refusal::Argument);
        }
        if k > MAX_BUFFERS as u32 - channel.wanted {
            return Err(Refusal::Wanted);
        }
        channel.wanted += k;
        channel.owed += k as i32;
        Ok(())
    }

    pub fn withdraw(&mut self, k: u32) -> Result<(), Refusal> {
        let channel = self.open()?;
        if k == 0 {
            return Err(Refusal::Argument);
        }
        if k >= channel.wanted {
            return Err(Refusal::Wanted);
        }
        channel.wanted -= k;
        channel.owed -= k as i32;
        Ok(())
    }

    /// Writes an SRP_CRED_REQ; gives its length.
    pub fn grant(&mut self, buf: &mut [u8]) -> Result<usize, Refusal> {
        let buf = message::lent(buf)?;
        let channel = self.open()?;
        if channel.grant_unanswered {
            return Err(Refusal::GrantUnanswered);
        }
        if channel.owed <= 0 {
            return Err(Refusal::NothingOwed);
        }
        channel.grant_unanswered = true;
        Ok(message::credit_request(buf, channel.crsolnt, channel.delta()))
    }

    /// Writes an SRP_T_LOGOUT and closes; gives its length.
    pub fn close(&mut self, reason: u32, buf: &mut [u8]) -> Result<usize, Refusal> {
        let buf = message::lent(buf)?;
        let losolnt = self.open()?.losolnt;
        self.channel = None;
        Ok(message::target_logout(buf, losolnt, reason))
    }

    pub fn counters(&self) -> Result<Counters, Refusal> {
        let channel = self.channel.as_ref().ok_or(Refusal::Closed)?;
        let Channel { wanted, announced, owed, .. } = *channel;
        let held = (wanted as i32 - announced as i32 - owed) as u32; // A + H + D = W
        Ok(Counters { wanted, announced, held, owed })
    }
}

impl Channel {
    /// The delta of the message that is being written: what is owed, now announced.
    pub(super) fn delta(&mut self) -> u32 {
        let delta = self.owed.max(0);
        self.owed -= delta;
        self.announced += delta as u32;
        delta as u32
    }
}
