//! The trace in plain Rust, with the lines of include/srp_target.h: written for speed and by hand, without core::fmt. The
//! digits come from a table and go into a line of spaces.

const LINE: usize = 81;

/// Where the columns start, from 0.
const NAME: usize = 2;
const TAG: usize = 15;
const LUN: usize = 32;
const DELTA: usize = 49;
const CODE: usize = 55;

/// Err is the number of the refusal.
#[inline(always)]
pub fn trace(msg: &[u8], direction: u32, buf: &mut [u8]) -> Result<(), u32> {
    let line: &mut [u8; LINE] = buf.first_chunk_mut().ok_or(1u32)?;
    line.fill(b' ');
    line[0] = if direction == 0 { b'>' } else { b'<' };
    line[LINE - 1] = b'\n';
    let Some(name) = name_of(msg) else {
        put(line, NAME, "UNKNOWN");
        put_decimal(line, msg.len() as u64);
        return Ok(());
    };
    put(line, NAME, name);
    put_hex(line, TAG, &msg[8..16]);
    let number = number_at(msg, 4);
    match msg[0] {
        0x01 | 0x02 => put_hex(line, LUN, &msg[20..28]),
        0x80 | 0xc2 => put_hex(line, CODE, &msg[4..8]),
        0x81 | 0xc0 => put_decimal(line, number),
        0xc1 => {
            put_decimal(line, number);
            if msg[18] & 1 == 1 {
                put_hex(line, CODE, &[0, 0, 0, msg[39]]);
            }
        }
        _ => {}
    }
    Ok(())
}

/// The name of the message's type, None where it is unknown.
#[inline(always)]
fn name_of(msg: &[u8]) -> Option<&'static str> {
    let (name, length) = match msg.first()? {
        0x00 => ("LOGIN_REQ", 64),
        0x01 => ("TSK_MGMT", 48),
        0x02 => ("CMD", command_length(msg)?),
        0x03 => ("I_LOGOUT", 16),
        0x41 => ("CRED_RSP", 16),
        0x80 => ("T_LOGOUT", 16),
        0x81 => ("CRED_REQ", 16),
        0xc0 => ("LOGIN_RSP", 52),
        0xc1 => ("RSP", response_length(msg)?),
        0xc2 => ("LOGIN_REJ", 32),
        _ => return None,
    };
    (msg.len() as u64 == length).then_some(name)
}

#[inline(always)]
fn command_length(msg: &[u8]) -> Option<u64> {
    let head = msg.first_chunk::<48>()?;
    let data = descriptor_bytes(head[5] >> 4, head[6])? + descriptor_bytes(head[5] & 15, head[7])?;
    Some(48 + (head[31] & !3) as u64 + data)
}

#[inline(always)]
fn descriptor_bytes(format: u8, count: u8) -> Option<u64> {
    match format {
        0 => Some(0),
        1 => Some(16),
        2 => Some(20 + 16 * count as u64),
        _ => None,
    }
}

#[inline(always)]
fn response_length(msg: &[u8]) -> Option<u64> {
    let head = msg.first_chunk::<36>()?;
    let code = if head[18] & 1 == 1 { 4 } else { 0 };
    let sense = if head[18] & 2 == 2 { number_at(head, 28) } else { 0 };
    Some(36 + code + sense)
}

#[inline(always)]
fn number_at(msg: &[u8], at: usize) -> u64 {
    u32::from_be_bytes([msg[at], msg[at + 1], msg[at + 2], msg[at + 3]]) as u64
}

#[inline(always)]
fn put(line: &mut [u8; LINE], at: usize, text: &str) {
    line[at..at + text.len()].copy_from_slice(text.as_bytes());
}

#[inline(always)]
fn put_hex(line: &mut [u8; LINE], at: usize, bytes: &[u8]) {
    const DIGITS: &[u8; 16] = b"0123456789abcdef";
    let columns = line[at..].as_chunks_mut().0;
    for (column, byte) in columns.iter_mut().zip(bytes) {
        *column = [DIGITS[(byte >> 4) as usize], DIGITS[(byte & 15) as usize]];
    }
}

#[inline(always)]
fn put_decimal(line: &mut [u8; LINE], mut number: u64) {
    let columns = &mut line[DELTA..DELTA + 5];
    if number > 99_999 {
        return columns.fill(b'*');
    }
    for column in columns.iter_mut().rev() {
        *column = b'0' + (number % 10) as u8;
        number /= 10;
        if number == 0 {
            break;
        }
    }
}
