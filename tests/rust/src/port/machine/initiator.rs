//! The initiator's events: it sends a message, and one is delivered to it.

use super::ends::{delta, is_request, Ends, Login, Sent};
use super::{Call, Machine, Target};
use crate::limits::Limits;
use crate::port::generate::{self, Data};
use crate::port::plain;

/// Q of a login: good ones, 0 for none among them; and bad ones.
const BOUNDARIES: [u64; 10] = [0, 0, 0, 512, 512, 1024, 4096, 1 << 16, 1 << 31, 1 << 32];
const BAD_BOUNDARIES: [u64; 9] = [1, 256, 511, 513, 768, 1 << 33, (1 << 32) + 512, 1 << 63, u64::MAX];

impl<T: Target> Machine<T> {
    /// A login that is accepted, perhaps after one with a bad Q, which draws 2 and makes no port.
    pub(super) fn log_in(&mut self) {
        let random = &mut self.random;
        let n = random.of(&[1, 2, 3, 4, 8, 16, 16, 16]);
        let m = random.of(&[1, 16, 512, 512, 4096, 1_048_576]);
        let (q, bad) = (random.of(&BOUNDARIES), random.of(&BAD_BOUNDARIES));
        let agreed = random.of(&[64, 200, 600, 1364, 1364, 1364]);
        let formats = random.of(&[0, 2, 4, 6, 6, 6, 6, 6]);
        if random.one_in(4) {
            let refused = plain::login(random, n, Limits { m, q: bad }, agreed, formats);
            assert_eq!(self.counted(&refused).returned, 2, "Q {bad}");
            assert_eq!(self.call(&Call::Counters).returned, 21, "closed");
        }
        self.log_in_with(n, Limits { m, q }, agreed, formats);
    }

    pub(super) fn log_in_with(&mut self, n: u32, limits: Limits, agreed: u32, formats: u16) {
        let login = plain::login(&mut self.random, n, limits, agreed, formats);
        self.trace_sent("login", login.input());
        let outcome = self.counted(&login);
        assert_eq!((outcome.returned, outcome.answer[1]), (0, 0), "accepted");
        self.states.add(if limits.q == 0 { "no boundary" } else { "a boundary" });
        self.ends = Ends::new(n, Login { limits, agreed, formats: formats.into() });
    }

    /// "Send: a message of any content joins the queue to the port. A request, known by its type byte, takes 1 off the
    /// limit."
    pub(super) fn send(&mut self) {
        let (kind, sent) = self.message();
        if is_request(&sent.msg) {
            if self.ends.limit < 1 {
                if self.fair || !self.random.one_in(4) {
                    return;
                }
                self.events.add("send: a request below a limit of 1");
            }
            self.ends.limit -= 1;
        }
        if kind == "credit response" {
            self.ends.to_answer = self.ends.to_answer.saturating_sub(1);
        }
        self.trace_sent(kind, &sent.msg);
        self.events.add(format!("send: {kind}"));
        self.ends.to_port.push_back(sent);
    }

    fn message(&mut self) -> (&'static str, Sent) {
        let answer = self.ends.to_answer > 0 || !self.fair && self.random.one_in(40);
        match self.random.below(300) {
            0 if self.random.one_in(3) => ("logout", self.short(0x03)),
            1 => ("any bytes", self.any_bytes()),
            2..=39 => ("task", self.task()),
            40..=200 if answer => ("credit response", self.short(0x41)),
            _ => ("command", self.command()),
        }
    }

    /// A message of 16 bytes, with tag 1.
    fn short(&mut self, kind: u8) -> Sent {
        let mut msg = self.random.bytes(16);
        msg[0] = kind;
        msg[8..16].copy_from_slice(&1u64.to_be_bytes());
        Sent { msg, tables: Default::default() }
    }

    fn any_bytes(&mut self) -> Sent {
        let length = self.random.below(100);
        let mut msg = self.random.bytes(length);
        if let Some(first) = msg.first_mut() {
            *first = self.random.of(&[0x00, 0x01, 0x02, 0x03, 0x41, 0x42]);
        }
        Sent { msg, tables: Default::default() }
    }

    /// A tag that no open command and no message on the way has; seldom that of an open command.
    fn unused_tag(&mut self) -> u64 {
        let used = |tag: u64| {
            let on_the_way = self.ends.to_port.iter().any(|sent| sent.msg.get(8..16) == Some(&tag.to_be_bytes()[..]));
            on_the_way || self.ends.place_of(tag).is_some()
        };
        let free: Vec<u64> = (0..40).filter(|&tag| !used(tag)).collect();
        if free.is_empty() || self.random.one_in(200) {
            self.tag()
        } else {
            free[self.random.below(free.len())]
        }
    }

    fn task(&mut self) -> Sent {
        let (tag, task_tag, lun) = (self.unused_tag(), self.tag(), self.random.up_to(2));
        let mut msg = generate::request_with(self.random.bytes(48), tag, lun);
        msg[0] = 0x01;
        msg[30] = self.random.of(&[0x01, 0x01, 0x01, 0x01, 0x02, 0x04, 0x08, 0x40, 0x00]);
        msg[32..40].copy_from_slice(&task_tag.to_be_bytes());
        Sent { msg, tables: Default::default() }
    }

    fn command(&mut self) -> Sent {
        let (tag, lun, login) = (self.unused_tag(), self.random.up_to(2), self.ends.login);
        for most in [32, 4, 1, 0] {
            let mut data = [0, 1].map(|_| Data::lawful(&mut self.random, login.formats, login.limits, most.max(1)));
            if self.random.one_in(12) {
                data[self.random.below(2)].damage(&mut self.random);
            }
            if most == 0 {
                data = [Data::none(), Data::none()];
            }
            let mut msg = generate::command(&mut self.random, tag, lun, 0, &data);
            if self.random.one_in(150) {
                msg[5] |= self.random.of(&[0x30, 0x03]);
            }
            if msg.len() <= login.agreed as usize {
                return Sent { msg, tables: data.map(|data| data.table) };
            }
        }
        unreachable!("a command without data fits every agreed length")
    }

    /// "Delivery takes off its front; the limit rises by its delta, if any."
    pub(super) fn deliver(&mut self) {
        let Some(message) = self.ends.to_initiator.pop_front() else {
            return;
        };
        self.ends.limit += delta(&message).unwrap_or(0);
        if message[0] == 0x81 {
            self.ends.to_answer += 1;
        }
        self.events.add(if message[0] == 0x81 { "deliver: SRP_CRED_REQ" } else { "deliver: SRP_RSP" });
    }
}
