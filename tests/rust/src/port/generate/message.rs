//! Messages to the port, and the tables that they describe.

use super::super::call::Call;
use super::{buffer, chosen, random_open, Data, LUNS, TAGS};
use crate::generate;
use crate::model::{Channel, Command};
use crate::random::Random;

/// A request, and of a command its tag and the tables that it describes, as they lie in the initiator's memory.
pub struct Sent {
    pub msg: Vec<u8>,
    pub tables: Option<(u64, [Vec<u8>; 2])>,
}

/// Sets tag and LUN of a request; its notification bits and all that is not read stay as they are.
pub fn request_with(mut msg: Vec<u8>, tag: u64, lun: u64) -> Vec<u8> {
    msg[8..16].copy_from_slice(&tag.to_be_bytes());
    msg[20..28].copy_from_slice(&lun.to_be_bytes());
    msg
}

/// An SRP_CMD with 4n additional bytes of CDB.
pub fn command(random: &mut Random, tag: u64, lun: u64, n: u8, data: &[Data; 2]) -> Vec<u8> {
    request_with(generate::command(random, n, &data[0].descriptor, &data[1].descriptor), tag, lun)
}

/// A tag for a request: one that is not open if that is asked for.
fn tag(random: &mut Random, channel: &Channel, unused: bool) -> u64 {
    let free: Vec<u64> = TAGS.into_iter().filter(|&tag| channel.place_of(tag).is_none()).collect();
    if unused || !random.one_in(8) {
        free[random.below(free.len())]
    } else {
        random.of(&TAGS)
    }
}

/// A request to an open port.
pub fn request(random: &mut Random, channel: &Channel, careful: bool) -> Sent {
    if random.one_in(6) {
        Sent { msg: task(random, channel, careful), tables: None }
    } else {
        some_command(random, channel, careful)
    }
}

/// A message that is no request, or is no message at all.
pub fn other(random: &mut Random, channel: &Channel, careful: bool) -> Call {
    match random.below(6) {
        _ if careful => credit_response(random, channel, true),
        0..=2 => credit_response(random, channel, false),
        3 => with_length(random, vec![0x03], &[16, 16, 16, 17, 15, 48]),
        4 => other_type(random, channel),
        _ => any(random),
    }
}

/// A command that fits the agreed length: without a fault, or with one or two of fields, tables or length.
fn some_command(random: &mut Random, channel: &Channel, careful: bool) -> Sent {
    let agreement = channel.agreement;
    let (tag, lun) = (tag(random, channel, careful), random.of(&LUNS));
    let (mut msg, mut data) = (Vec::new(), [Data::none(), Data::none()]);
    for most in [32, 8, 2, 1] {
        let lawful = |random: &mut Random| Data::lawful(random, agreement.formats, agreement.limits, most);
        data = [0, 1].map(|_| lawful(random));
        if random.one_in(if careful { 8 } else { 3 }) {
            let at = random.below(2);
            damage(random, &mut data[at], careful, agreement.formats);
            if random.one_in(2) {
                data[1 - at] = fetched(random, lawful);
            }
        }
        let n = if random.one_in(4) { random.below(64) as u8 } else { 0 };
        msg = command(random, tag, lun, n, &data);
        if msg.len() <= agreement.length as usize {
            break;
        }
        msg.truncate(48);
        (msg[5], msg[31], data) = (0, 0, [Data::none(), Data::none()]);
    }
    if !careful && random.one_in(6) {
        damage_message(random, &mut msg, agreement.length as usize);
    }
    Sent { msg, tables: Some((tag, data.map(|data| data.table))) }
}

/// One of these, with a table to fetch if that comes up in a few tries.
fn fetched(random: &mut Random, lawful: impl Fn(&mut Random) -> Data) -> Data {
    let mut tried = (0..6).map(|_| lawful(random));
    tried.find(|data| !data.table.is_empty()).unwrap_or(Data::none())
}

/// Careful damage draws 10, or nothing, and never closes the channel.
fn damage(random: &mut Random, data: &mut Data, careful: bool, formats: u32) {
    let before = data.clone();
    data.damage(random);
    let whole = command(random, 0, 0, 0, &[data.clone(), Data::none()]);
    if careful && Command::read(&whole, formats).is_err() {
        *data = before;
    }
}

/// Changes a byte of a message, or its length.
fn damage_message(random: &mut Random, msg: &mut Vec<u8>, agreed: usize) {
    match random.below(8) {
        0 | 1 => msg[5] = random.of(&[0x03, 0x30, 0x33, 0x10, 0x01, 0x20, 0x02, 0x12, 0x21, 0xf0, 0x0f]),
        2 => {
            let at = random.of(&[6, 7]);
            msg[at] = msg[at].wrapping_add(random.of(&[1, 0xff]));
        }
        3 => msg[31] = msg[31].wrapping_add(random.of(&[4, 0xfc, 1, 2])),
        4 => msg.truncate(random.below(msg.len())),
        5 => msg.resize(msg.len() + random.of(&[1, 4, 16, 20]), 0),
        6 => msg.resize(random.of(&[15, 16, 47, 48, agreed, agreed + 1]), 0),
        _ => {
            let at = random.below(msg.len());
            msg[at] ^= 1 << random.below(8);
        }
    }
}

/// SRP_TSK_MGMT, mostly about a command that is open.
fn task(random: &mut Random, channel: &Channel, careful: bool) -> Vec<u8> {
    let about = random_open(random, channel);
    let (tag, task_tag) = (tag(random, channel, careful), chosen(about).unwrap_or(random.of(&TAGS)));
    let lun = about.map_or(random.of(&LUNS), |command| command.request.lun);
    let lun = if random.one_in(4) { random.of(&LUNS) } else { lun };
    let mut msg = request_with(random.bytes(48), tag, lun);
    msg[0] = 0x01;
    let any = random.u8();
    msg[30] = random.of(&[0x01, 0x01, 0x01, 0x01, 0x02, 0x04, 0x08, 0x40, 0x00, 0x03, 0xff, any, any]);
    let task_tag = if random.one_in(6) { random.of(&TAGS) } else { task_tag };
    msg[32..40].copy_from_slice(&task_tag.to_be_bytes());
    if !careful && random.one_in(12) {
        msg.resize(random.of(&[16, 47, 49, 64]), 0);
    }
    msg
}

/// SRP_CRED_RSP. Where none is due, mostly a grant that makes it due.
fn credit_response(random: &mut Random, channel: &Channel, careful: bool) -> Call {
    if !channel.unanswered && (careful || !random.one_in(4)) {
        return Call::Grant { buf: buffer(random) };
    }
    let mut msg = random.bytes(16);
    msg[0] = 0x41;
    let tag = if careful || random.one_in(2) { 1 } else { random.of(&[0, 2, 1 << 56, (1 << 32) + 1, u64::MAX]) };
    msg[8..16].copy_from_slice(&tag.to_be_bytes());
    if !careful && random.one_in(6) {
        msg.resize(random.of(&[15, 17, 48]), 0);
    }
    Call::Take { msg, buf: buffer(random) }
}

fn with_length(random: &mut Random, start: Vec<u8>, lengths: &[usize]) -> Call {
    let length = random.of(lengths);
    let mut msg = random.bytes(length);
    msg[..start.len()].copy_from_slice(&start);
    Call::Take { msg, buf: buffer(random) }
}

/// A message of a type that the port does not take, also as long as agreed and one byte longer.
fn other_type(random: &mut Random, channel: &Channel) -> Call {
    let agreed = channel.agreement.length as usize;
    let kind = random.of(&[0x00, 0x04, 0x40, 0x42, 0x43, 0x80, 0x81, 0x82, 0xc0, 0xc1, 0xc2, 0xff]);
    with_length(random, vec![kind], &[16, 17, 48, 64, agreed, agreed, agreed + 1])
}

/// Any bytes, of any length; often of a known type.
pub fn any(random: &mut Random) -> Call {
    let most = random.of(&[4, 20, 48, 64, 200, 1500]);
    let length = random.below(most + 1);
    let mut msg = random.bytes(length);
    if let (Some(first), true) = (msg.first_mut(), random.one_in(2)) {
        *first = random.of(&[0x01, 0x02, 0x03, 0x41]);
    }
    Call::Take { msg, buf: buffer(random) }
}
