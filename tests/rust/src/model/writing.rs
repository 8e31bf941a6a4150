//! What the port writes: each message as its bytes. "Reserved bytes and bits are written 0."

use super::channel::Transfer;

/// "Messages go to a lent buffer of at least 132 bytes."
pub const LENT_BYTES: usize = 132;

/// The eight answer words of a C call.
pub type Answer = [u64; 8];

/// "Bytes past the message keep their content." Its length is the first answer word.
pub fn write(message: &[u8], buf: &mut [u8], answer: &mut Answer) {
    buf[..message.len()].copy_from_slice(message);
    answer[0] = message.len() as u64;
}

fn put(message: &mut [u8], at: usize, field: &[u8]) {
    message[at..at + field.len()].copy_from_slice(field);
}

/// "SRP_LOGIN_RSP C0h, 52 bytes: 4-7 N, 8-15 tag, 16-19 requested length, 20-23 132, 24-25 supported formats, 26 bit 4
/// SOLNTSUP."
pub fn login_response(n: u32, tag: u64, requested: u32, supported: u16, solicited: bool) -> Vec<u8> {
    let mut message = vec![0; 52];
    message[0] = 0xc0;
    put(&mut message, 4, &n.to_be_bytes());
    put(&mut message, 8, &tag.to_be_bytes());
    put(&mut message, 16, &requested.to_be_bytes());
    put(&mut message, 20, &132u32.to_be_bytes());
    put(&mut message, 24, &supported.to_be_bytes());
    message[26] = u8::from(solicited) << 4;
    message
}

/// "SRP_LOGIN_REJ C2h, 32 bytes: 4-7 reason, 8-15 tag, 24-25 supported formats."
pub fn login_rejection(reason: u32, tag: u64, supported: u16) -> Vec<u8> {
    let mut message = vec![0; 32];
    message[0] = 0xc2;
    put(&mut message, 4, &reason.to_be_bytes());
    put(&mut message, 8, &tag.to_be_bytes());
    put(&mut message, 24, &supported.to_be_bytes());
    message
}

/// "SRP_CRED_REQ 81h, 16 bytes: 1 bit 0 CRSOLNT, 4-7 delta, 8-15 tag"; "grant writes an SRP_CRED_REQ with tag 1".
pub fn credit_request(crsolnt: bool, delta: u32) -> Vec<u8> {
    let mut message = vec![0; 16];
    message[0] = 0x81;
    message[1] = u8::from(crsolnt);
    put(&mut message, 4, &delta.to_be_bytes());
    put(&mut message, 8, &1u64.to_be_bytes());
    message
}

/// "SRP_T_LOGOUT 80h, 16 bytes: 1 bit 0 LOSOLNT, 4-7 reason, tag 0."
pub fn target_logout(losolnt: bool, reason: u32) -> Vec<u8> {
    let mut message = vec![0; 16];
    message[0] = 0x80;
    message[1] = u8::from(losolnt);
    put(&mut message, 4, &reason.to_be_bytes());
    message
}

/// "SRP_RSP C1h: 1 bit 0 SOLNT; 4-7 delta; 8-15 tag": the 36 bytes that every response has, the rest still 0.
fn response(solnt: bool, delta: u32, tag: u64) -> Vec<u8> {
    let mut message = vec![0; 36];
    message[0] = 0xc1;
    message[1] = u8::from(solnt);
    put(&mut message, 4, &delta.to_be_bytes());
    put(&mut message, 8, &tag.to_be_bytes());
    message
}

/// "Response bytes stand in task answers and refusal 10 (code 02h), status 0, residuals 0": "32-35 response length;
/// from 36 four response bytes if any (last is RSP_CODE)"; flag bit 0 is RSPVALID.
pub fn response_with_code(solnt: bool, delta: u32, tag: u64, code: u8) -> Vec<u8> {
    let mut message = response(solnt, delta, tag);
    message[18] = 1 << 0;
    put(&mut message, 32, &4u32.to_be_bytes());
    message.extend([0, 0, 0, code]);
    message
}

/// A finished command's response: "18 flags; 19 status; 20-23 out residual; 24-27 in residual; 28-31 sense length".
pub fn response_with_status(head: (bool, u32, u64), status: u8, sense: &[u8], residuals: [Residual; 2]) -> Vec<u8> {
    let (solnt, delta, tag) = head;
    let [data_out, data_in] = residuals;
    let mut message = response(solnt, delta, tag);
    // "Flag bits: 0 RSPVALID, 1 SNSVALID, 2 DOOVER, 3 DOUNDER, 4 DIOVER, 5 DIUNDER."
    message[18] = u8::from(!sense.is_empty()) << 1 | data_out.flags() << 2 | data_in.flags() << 4;
    message[19] = status;
    put(&mut message, 20, &data_out.count().to_be_bytes());
    put(&mut message, 24, &data_in.count().to_be_bytes());
    put(&mut message, 28, &(sense.len() as u32).to_be_bytes());
    message.extend(sense);
    message
}

#[derive(Clone, Copy, Debug, PartialEq, Eq)]
pub enum Residual {
    None,
    Over(u32),
    Under(u32),
}

impl Residual {
    /// "R > B: over, R - B. Else moved < B: under, B - moved .. Else no flag, count 0"; "the residual rule .. now take h
    /// for the bytes handed out".
    pub fn of(transfer: &Transfer) -> Self {
        let (r, b, h) = (u64::from(transfer.required), transfer.length(), transfer.reached);
        if r > b {
            Residual::Over((r - b) as u32)
        } else if h < b {
            Residual::Under((b - h) as u32)
        } else {
            Residual::None
        }
    }

    fn count(self) -> u32 {
        match self {
            Residual::None => 0,
            Residual::Over(count) | Residual::Under(count) => count,
        }
    }

    /// Bit 0 over, bit 1 under.
    fn flags(self) -> u8 {
        match self {
            Residual::None => 0,
            Residual::Over(_) => 0b01,
            Residual::Under(_) => 0b10,
        }
    }
}
