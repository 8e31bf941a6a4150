//! The messages that the port writes, each into the lent buffer; each function gives the message's length.

use super::{Refusal, BUFFER_BYTES};

type Buffer = [u8; BUFFER_BYTES];

/// What a direction lacks or has too much of.
#[derive(Clone, Copy, Debug, PartialEq, Eq)]
pub enum Residual {
    None,
    Over(u32),
    Under(u32),
}

pub fn lent(buf: &mut [u8]) -> Result<&mut Buffer, Refusal> {
    buf.first_chunk_mut().ok_or(Refusal::ShortBuffer)
}

/// SRP_RSP of a command.
pub fn response(
    buf: &mut Buffer,
    solnt: bool,
    delta: u32,
    tag: u64,
    status: u8,
    [out, inn]: [Residual; 2],
    sense: &[u8],
) -> usize {
    response_head(buf, solnt, delta, tag);
    let (out_flags, out_count) = residual_field(out);
    let (in_flags, in_count) = residual_field(inn);
    let sense_valid = u8::from(!sense.is_empty()) << 1;
    buf[18] = sense_valid | out_flags << 2 | in_flags << 4;
    buf[19] = status;
    put_u32(buf, 20, out_count);
    put_u32(buf, 24, in_count);
    put_u32(buf, 28, sense.len() as u32);
    buf[36..36 + sense.len()].copy_from_slice(sense);
    36 + sense.len()
}

/// SRP_RSP with response bytes, as a task and a command with bad fields get it.
pub fn response_code(buf: &mut Buffer, solnt: bool, delta: u32, tag: u64, code: u8) -> usize {
    response_head(buf, solnt, delta, tag);
    buf[18] = 1;
    put_u32(buf, 32, 4);
    put_u32(buf, 36, code.into());
    40
}

/// Bit 0 over, bit 1 under; then the count.
fn residual_field(residual: Residual) -> (u8, u32) {
    match residual {
        Residual::None => (0, 0),
        Residual::Over(count) => (1, count),
        Residual::Under(count) => (2, count),
    }
}

fn response_head(buf: &mut Buffer, solnt: bool, delta: u32, tag: u64) {
    buf[..36].fill(0);
    buf[0] = 0xc1;
    buf[1] = solnt.into();
    put_u32(buf, 4, delta);
    put_u64(buf, 8, tag);
}

/// SRP_CRED_REQ, with tag 1.
pub fn credit_request(buf: &mut Buffer, solnt: bool, delta: u32) -> usize {
    buf[..16].fill(0);
    buf[0] = 0x81;
    buf[1] = solnt.into();
    put_u32(buf, 4, delta);
    put_u64(buf, 8, 1);
    16
}

/// SRP_T_LOGOUT, with tag 0.
pub fn target_logout(buf: &mut Buffer, solnt: bool, reason: u32) -> usize {
    buf[..16].fill(0);
    buf[0] = 0x80;
    buf[1] = solnt.into();
    put_u32(buf, 4, reason);
    16
}

/// SRP_LOGIN_RSP.
pub fn login_response(
    buf: &mut Buffer,
    buffers: u32,
    tag: u64,
    agreed_length: u32,
    supported: u16,
    solicited: bool,
) -> usize {
    buf[..52].fill(0);
    buf[0] = 0xc0;
    put_u32(buf, 4, buffers);
    put_u64(buf, 8, tag);
    put_u32(buf, 16, agreed_length);
    put_u32(buf, 20, BUFFER_BYTES as u32);
    buf[24..26].copy_from_slice(&supported.to_be_bytes());
    buf[26] = u8::from(solicited) << 4;
    52
}

/// SRP_LOGIN_REJ.
pub fn login_reject(buf: &mut Buffer, reason: u32, tag: u64, supported: u16) -> usize {
    buf[..32].fill(0);
    buf[0] = 0xc2;
    put_u32(buf, 4, reason);
    put_u64(buf, 8, tag);
    buf[24..26].copy_from_slice(&supported.to_be_bytes());
    32
}

fn put_u32(buf: &mut Buffer, at: usize, value: u32) {
    buf[at..at + 4].copy_from_slice(&value.to_be_bytes());
}

fn put_u64(buf: &mut Buffer, at: usize, value: u64) {
    buf[at..at + 8].copy_from_slice(&value.to_be_bytes());
}
