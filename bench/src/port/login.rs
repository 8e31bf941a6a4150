//! The login: what it refuses, what it rejects, and the port that it makes.

use super::line::Line;
use super::message;
use super::request::{u32_at, u64_at};
use super::{Channel, Port, Refusal};
use crate::stateless::is_boundary;

#[derive(Clone, Copy, Debug)]
pub struct Settings {
    pub buffers: u32,
    pub max_piece: u32,
    /// Of which no piece crosses a multiple; 0 for none.
    pub boundary: u64,
    pub max_message: u32,
    pub indirect: bool,
    pub solicited: bool,
}

/// The outcome of a login that was not refused; `wrote` is the message's length.
#[derive(Debug, PartialEq, Eq)]
pub enum Login {
    Accepted { wrote: usize },
    Rejected { reason: u32, wrote: usize },
}

impl Settings {
    fn in_range(&self) -> bool {
        (1..=16).contains(&self.buffers)
            && (1..=1_048_576).contains(&self.max_piece)
            && is_boundary(self.boundary)
            && (64..=1364).contains(&self.max_message)
    }

    fn supported_formats(&self) -> u16 {
        if self.indirect {
            0b110
        } else {
            0b010
        }
    }
}

impl Port {
    /// Makes a port of this one, whatever it was; unless the login is accepted, a closed one.
    pub fn login(&mut self, settings: &Settings, own: &[u8; 16], msg: &[u8], buf: &mut [u8]) -> Result<Login, Refusal> {
        self.channel = None;
        let buf = message::lent(buf)?;
        if !settings.in_range() {
            return Err(Refusal::Setting);
        }
        let msg: &[u8; 64] = msg.try_into().map_err(|_| Refusal::Length)?;
        if msg[0] != 0x00 {
            return Err(Refusal::OtherType);
        }
        let supported = settings.supported_formats();
        let tag = u64_at(msg, 8);
        if let Some(reason) = rejection(settings, own, msg) {
            let wrote = message::login_reject(buf, reason, tag, supported);
            return Ok(Login::Rejected { reason, wrote });
        }
        let channel = Channel::new(settings, msg);
        let length = channel.agreed_length as u32;
        self.channel = Some(channel);
        let wrote = message::login_response(buf, settings.buffers, tag, length, supported, settings.solicited);
        Ok(Login::Accepted { wrote })
    }
}

/// The reason of the SRP_LOGIN_REJ that an SRP_LOGIN_REQ draws.
fn rejection(settings: &Settings, own: &[u8; 16], msg: &[u8; 64]) -> Option<u32> {
    let requested = u32_at(msg, 16);
    let action = msg[26] & 0b11;
    if requested < 64 {
        Some(0x0001_0000)
    } else if requested > settings.max_message {
        Some(0x0001_0002)
    } else if required_formats(msg) & !settings.supported_formats() != 0 {
        Some(0x0001_0004)
    } else if action == 1 {
        Some(0x0001_0005)
    } else if action != 0 {
        Some(0x0001_0000)
    } else if msg[48..64] != *own {
        Some(0x0001_0003)
    } else {
        None
    }
}

fn required_formats(msg: &[u8; 64]) -> u16 {
    u16::from_be_bytes([msg[24], msg[25]])
}

impl Channel {
    fn new(settings: &Settings, msg: &[u8; 64]) -> Self {
        Channel {
            agreed_length: u32_at(msg, 16) as usize,
            formats: required_formats(msg).into(),
            max_piece: settings.max_piece,
            boundary: settings.boundary,
            crsolnt: msg[26] & 1 << 5 != 0,
            losolnt: msg[26] & 1 << 4 != 0,
            wanted: settings.buffers,
            announced: settings.buffers,
            owed: 0,
            grant_unanswered: false,
            commands: [None; 16],
            line: Line::EMPTY,
            taken: 0,
        }
    }
}
