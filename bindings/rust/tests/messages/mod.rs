//! Messages as an initiator writes them, and what the tests need around them. Each test program uses a part of it.
#![allow(dead_code)]

use srp_target::{Message, Port, Refusal, Settings, TakeRefusal, Taken, MESSAGE_BYTES};

pub const OWN: [u8; 16] = [1, 2, 3, 4, 5, 6, 7, 8, 9, 10, 11, 12, 13, 14, 15, 16];
pub const SETTINGS: Settings =
    Settings { buffers: 4, maximum: 512, boundary: 0, longest: 1364, indirect: true, solicited: false };
pub const BOTH_FORMATS: u32 = 0b110;
pub const LUN: u64 = 0x0102_0304_0506_0708;

/// What a lent buffer holds before the call.
pub const FILL: u8 = 0x5b;

/// A lent buffer, longer than it needs to be.
pub fn lent() -> [u8; MESSAGE_BYTES + 8] {
    [FILL; MESSAGE_BYTES + 8]
}

/// A lent buffer that is one byte too short.
pub fn short() -> [u8; MESSAGE_BYTES - 1] {
    [FILL; MESSAGE_BYTES - 1]
}

pub fn is_untouched(bytes: &[u8]) -> bool {
    bytes.iter().all(|byte| *byte == FILL)
}

/// An SRP_LOGIN_REQ with tag 0708h: length 1,364, both formats, CRSOLNT and LOSOLNT, action 0.
pub fn login_request() -> [u8; 64] {
    let mut msg = [0; 64];
    msg[14..16].copy_from_slice(&[0x07, 0x08]);
    msg[16..20].copy_from_slice(&1364u32.to_be_bytes());
    msg[25] = 0x06;
    msg[26] = 0x30;
    msg[48..64].copy_from_slice(&OWN);
    msg
}

/// An open port with 4 buffers and pieces of up to 512 bytes.
pub fn open_port() -> Port {
    port_with(&SETTINGS)
}

pub fn port_with(settings: &Settings) -> Port {
    let (port, _) = Port::login(settings, &OWN, &login_request(), &mut lent()).expect("the login is accepted");
    port
}

pub fn memory(address: u64, handle: u32, length: u32) -> [u8; 16] {
    let mut bytes = [0; 16];
    bytes[..8].copy_from_slice(&address.to_be_bytes());
    bytes[8..12].copy_from_slice(&handle.to_be_bytes());
    bytes[12..].copy_from_slice(&length.to_be_bytes());
    bytes
}

/// One direction of a command, by its format.
pub enum Data {
    None,
    Direct([u8; 16]),
    Indirect { table: [u8; 16], total: u32, copies: Vec<[u8; 16]> },
}

impl Data {
    fn format(&self) -> u8 {
        match self {
            Data::None => 0,
            Data::Direct(_) => 1,
            Data::Indirect { .. } => 2,
        }
    }

    fn count(&self) -> u8 {
        match self {
            Data::Indirect { copies, .. } => copies.len() as u8,
            _ => 0,
        }
    }

    fn bytes(&self) -> Vec<u8> {
        match self {
            Data::None => Vec::new(),
            Data::Direct(segment) => segment.to_vec(),
            Data::Indirect { table, total, copies } => [&table[..], &total.to_be_bytes(), &copies.concat()].concat(),
        }
    }
}

/// An SRP_CMD to LUN with UCSOLNT and 4n further bytes of CDB, each of which differs from its neighbours.
pub fn command(tag: u64, n: u8, data_out: Data, data_in: Data) -> Vec<u8> {
    let mut msg = vec![0; 32];
    msg[0] = 0x02;
    msg[1] = 0x04;
    msg[5] = data_out.format() << 4 | data_in.format();
    msg[6] = data_out.count();
    msg[7] = data_in.count();
    msg[8..16].copy_from_slice(&tag.to_be_bytes());
    msg[20..28].copy_from_slice(&LUN.to_be_bytes());
    msg[31] = n << 2;
    msg.extend((0..16 + 4 * u16::from(n)).map(|i| i as u8));
    msg.extend(data_out.bytes());
    msg.extend(data_in.bytes());
    msg
}

/// A command that moves nothing.
pub fn no_data(tag: u64) -> Vec<u8> {
    command(tag, 0, Data::None, Data::None)
}

/// The command of P1: data-in, address 1000h, handle 7, length 1,300.
pub fn p1(tag: u64) -> Vec<u8> {
    command(tag, 0, Data::None, Data::Direct(memory(0x1000, 7, 1300)))
}

/// An SRP_TSK_MGMT to a LUN, with UCSOLNT.
pub fn task(tag: u64, lun: u64, function: u8, managed: u64) -> [u8; 48] {
    let mut msg = [0; 48];
    msg[0] = 0x01;
    msg[1] = 0x04;
    msg[8..16].copy_from_slice(&tag.to_be_bytes());
    msg[20..28].copy_from_slice(&lun.to_be_bytes());
    msg[30] = function;
    msg[32..40].copy_from_slice(&managed.to_be_bytes());
    msg
}

/// An SRP_I_LOGOUT (03h) or SRP_CRED_RSP (41h).
pub fn of_16_bytes(kind: u8, tag: u64) -> [u8; 16] {
    let mut msg = [0; 16];
    msg[0] = kind;
    msg[8..].copy_from_slice(&tag.to_be_bytes());
    msg
}

/// The SRP_T_LOGOUT of a channel with LOSOLNT.
pub fn target_logout(reason: u32) -> [u8; 16] {
    let mut msg = [0; 16];
    msg[0] = 0x80;
    msg[1] = 0x01;
    msg[4..8].copy_from_slice(&reason.to_be_bytes());
    msg
}

/// The 40 bytes of an SRP_RSP with response bytes.
pub fn answer(solnt: u8, delta: u8, tag: u64, code: u8) -> [u8; 40] {
    let mut msg = [0; 40];
    msg[0] = 0xc1;
    msg[1] = solnt;
    msg[7] = delta;
    msg[8..16].copy_from_slice(&tag.to_be_bytes());
    msg[18] = 0x01;
    msg[35] = 4;
    msg[39] = code;
    msg
}

/// Takes a command without a fetch. Panics where it is refused, or waits.
pub fn take_command(port: &mut Port, msg: &[u8]) {
    assert!(!take_and_wait(port, msg), "it waits");
}

/// Takes a command: whether it waits for its tables. Panics where it is refused.
pub fn take_and_wait(port: &mut Port, msg: &[u8]) -> bool {
    let mut buf = lent();
    let taken = port.take(msg, &mut buf);
    let Ok(Taken::Command { waits, .. }) = taken else { panic!("{taken:02x?}") };
    assert!(is_untouched(&buf));
    waits
}

/// Aborts the command with a tag, by a task request with tag 99. Panics where that is refused.
pub fn abort(port: &mut Port, tag: u64) {
    let (msg, mut buf) = (task(99, LUN, 0x01, tag), lent());
    let taken = port.take(&msg, &mut buf);
    assert!(matches!(taken, Ok(Taken::Task { .. })), "{taken:02x?}");
}

/// Takes a message that draws a hang-up: the refusal, and its SRP_T_LOGOUT with the reason, which is part of the lent
/// buffer; the bytes behind it are kept, and the port is closed.
pub fn hangs_up(port: &mut Port, msg: &[u8], refusal: Refusal, reason: u32) {
    let mut buf = lent();
    let message = target_logout(reason);
    assert_eq!(port.take(msg, &mut buf), Err(TakeRefusal::HungUp { refusal, message: Message(&message) }));
    assert_eq!(buf[..16], message);
    assert!(is_untouched(&buf[16..]));
    assert_eq!(port.counters(), Err(Refusal::Closed));
}
