//! Login.

use super::channel::{Agreement, Channel, Credit, Port};
use super::cutting::are_lawful;
use super::turns::Line;
use super::writing::{login_rejection, login_response, write, Answer, LENT_BYTES};
use super::{number, Refusal};
use crate::limits::Limits;

/// "Settings: N 1 to 16, M 1 to 1,048,576, X 64 to 1,364 (longest message), indirect yes/no, solicited yes/no." "Login
/// gains a setting Q."
struct Settings {
    n: u32,
    limits: Limits,
    x: u32,
    indirect: bool,
    solicited: bool,
}

impl Settings {
    fn lawful(words: &[u32; 5], q: u64) -> Option<Settings> {
        let [n, m, x, indirect, solicited] = *words;
        let limits = Limits { m, q };
        let lawful = (1..=16).contains(&n) && are_lawful(limits) && (64..=1364).contains(&x);
        lawful.then_some(Settings { n, limits, x, indirect: indirect != 0, solicited: solicited != 0 })
    }

    /// "Supported formats (0006h or 0002h)."
    fn supported(&self) -> u16 {
        if self.indirect {
            0x0006
        } else {
            0x0002
        }
    }
}

/// "SRP_LOGIN_REQ 00h, 64 bytes: 8-15 tag; 16-19 requested length; 24-25 required formats; 26 bit 5 CRSOLNT, bit 4
/// LOSOLNT, bits 1-0 channel action; 32-47 initiator, 48-63 target identifier."
struct Request<'a> {
    tag: u64,
    length: u32,
    formats: u16,
    crsolnt: bool,
    losolnt: bool,
    action: u8,
    target: &'a [u8],
}

impl Request<'_> {
    /// Of 64 bytes.
    fn read(msg: &[u8]) -> Request<'_> {
        Request {
            tag: number(&msg[8..16]),
            length: number(&msg[16..20]) as u32,
            formats: number(&msg[24..26]) as u16,
            crsolnt: msg[26] & 1 << 5 != 0,
            losolnt: msg[26] & 1 << 4 != 0,
            action: msg[26] & 0b11,
            target: &msg[48..64],
        }
    }

    /// "Then the first that fits is rejected."
    fn rejection(&self, settings: &Settings, own: &[u8; 16]) -> Option<u32> {
        let rules = [
            (self.length < 64, 0x0001_0000),
            (self.length > settings.x, 0x0001_0002),
            // "a format bit other than 1 or a supported 2"
            (self.formats & !settings.supported() != 0, 0x0001_0004),
            (self.action == 1, 0x0001_0005),
            (self.action >= 2, 0x0001_0000),
            (self.target != own, 0x0001_0003),
        ];
        rules.into_iter().find(|(fits, _)| *fits).map(|(_, reason)| reason)
    }
}

impl Port {
    /// "A login makes a port, using no earlier one; without an accepted login it is closed."
    pub fn login(
        &mut self,
        settings: &[u32; 5],
        q: u64,
        own: &[u8; 16],
        msg: &[u8],
        buf: &mut [u8],
        answer: &mut Answer,
    ) -> u32 {
        (*self, *answer) = (Port::default(), [0; 8]);
        match self.logged_in(Settings::lawful(settings, q), own, msg, buf, answer) {
            Ok(()) => 0,
            Err(refusal) => refusal.number(),
        }
    }

    /// "Refused 1, 2, 3 (not 64 bytes), 4 in that order." Without lawful settings 2.
    fn logged_in(
        &mut self,
        settings: Option<Settings>,
        own: &[u8; 16],
        msg: &[u8],
        buf: &mut [u8],
        answer: &mut Answer,
    ) -> Result<(), Refusal> {
        if buf.len() < LENT_BYTES {
            return Err(Refusal::ShortBuffer);
        }
        let settings = settings.ok_or(Refusal::Setting)?;
        if msg.len() != 64 {
            return Err(Refusal::Length);
        }
        if msg[0] != 0x00 {
            return Err(Refusal::OtherType);
        }
        let request = Request::read(msg);
        if let Some(reason) = request.rejection(&settings, own) {
            write(&login_rejection(reason, request.tag, settings.supported()), buf, answer);
            answer[1] = u64::from(reason);
            return Ok(());
        }
        let supported = settings.supported();
        let response = login_response(settings.n, request.tag, request.length, supported, settings.solicited);
        write(&response, buf, answer);
        self.channel = Some(Channel::after_login(&settings, &request));
        Ok(())
    }
}

impl Channel {
    fn after_login(settings: &Settings, request: &Request) -> Self {
        Channel {
            agreement: Agreement {
                length: request.length,
                formats: u32::from(request.formats),
                limits: settings.limits,
                crsolnt: request.crsolnt,
                losolnt: request.losolnt,
            },
            credit: Credit::after_login(settings.n),
            unanswered: false,
            commands: Vec::new(),
            line: Line::new(),
        }
    }
}
