//! A message as one line for a terminal: document 02, job 2.

use super::{number, Refusal};

/// "A lent buffer of at least 81 bytes": 80 columns and the line feed.
pub const LINE_BYTES: usize = 81;

/// What a line says of a message of a type and length that document 01 has.
#[derive(Clone, Copy, Debug, PartialEq, Eq)]
pub struct Entry {
    /// "Type name without its leading SRP_."
    pub name: &'static str,
    pub tag: u64,
    pub lun: Option<u64>,
    /// "Delta (a login's N too)."
    pub delta: Option<u64>,
    /// "Reason or RSP_CODE."
    pub code: Option<u64>,
}

/// "A message of a type not in document 01, of a length not its type's, or with a descriptor format above 2."
#[derive(Clone, Copy, Debug, PartialEq, Eq)]
pub enum Unknown {
    Type,
    Length,
    Format,
}

/// The big-endian number in some bytes of a message, from the first to the last; None where it is shorter.
fn field(msg: &[u8], first: usize, last: usize) -> Option<u64> {
    msg.get(first..=last).map(number)
}

/// "Flag bits: 0 RSPVALID, 1 SNSVALID" of byte 18.
fn flag(msg: &[u8], bit: u32) -> Option<bool> {
    field(msg, 18, 18).map(|flags| flags >> bit & 1 == 1)
}

fn name(kind: u8) -> Option<&'static str> {
    let types = [
        (0x00, "LOGIN_REQ"),
        (0x01, "TSK_MGMT"),
        (0x02, "CMD"),
        (0x03, "I_LOGOUT"),
        (0x41, "CRED_RSP"),
        (0x80, "T_LOGOUT"),
        (0x81, "CRED_REQ"),
        (0xc0, "LOGIN_RSP"),
        (0xc1, "RSP"),
        (0xc2, "LOGIN_REJ"),
    ];
    types.into_iter().find(|(byte, _)| *byte == kind).map(|(_, name)| name)
}

/// "Byte 5 out format (bits 7-4) and in format (bits 3-0)."
fn formats(msg: &[u8]) -> Option<[u64; 2]> {
    field(msg, 5, 5).map(|byte| [byte >> 4, byte & 15])
}

/// "Format 0: no bytes. 1: one memory descriptor. 2: .. 20 + 16c bytes. The count is unread for 0 and 1."
fn descriptor_bytes(format: u64, count: u64) -> u64 {
    [0, 16, 20 + 16 * count].get(format as usize).copied().unwrap_or(0)
}

/// The length that a message of its type has; None where it is too short to say. Sums are of 64 bits.
fn type_length(msg: &[u8], name: &str) -> Option<u64> {
    Some(match name {
        "LOGIN_REQ" => 64,
        "LOGIN_RSP" => 52,
        "LOGIN_REJ" => 32,
        "TSK_MGMT" => 48,
        "CMD" => {
            let [out, inn] = formats(msg)?;
            let data = descriptor_bytes(out, field(msg, 6, 6)?) + descriptor_bytes(inn, field(msg, 7, 7)?);
            // "31 bits 7-2 = n; .. from 48, 4n bytes more of CDB."
            48 + 4 * (field(msg, 31, 31)? >> 2) + data
        }
        // "SRP_RSP has 36 bytes + 4 if RSPVALID + sense length if SNSVALID."
        "RSP" => {
            let code = if flag(msg, 0)? { 4 } else { 0 };
            let sense = if flag(msg, 1)? { field(msg, 28, 31)? } else { 0 };
            36 + code + sense
        }
        _ => 16,
    })
}

/// What a message's line says, or why it is unknown.
pub fn read(msg: &[u8]) -> Result<Entry, Unknown> {
    let name = msg.first().and_then(|&kind| name(kind)).ok_or(Unknown::Type)?;
    if name == "CMD" && formats(msg).is_some_and(|formats| formats.into_iter().any(|format| format > 2)) {
        return Err(Unknown::Format);
    }
    if type_length(msg, name) != Some(msg.len() as u64) {
        return Err(Unknown::Length);
    }
    let only_of = |names: &[&str], first, last| if names.contains(&name) { field(msg, first, last) } else { None };
    let rsp_code = if flag(msg, 0) == Some(true) { only_of(&["RSP"], 39, 39) } else { None };
    Ok(Entry {
        name,
        tag: number(&msg[8..16]),
        lun: only_of(&["CMD", "TSK_MGMT"], 20, 27),
        delta: only_of(&["RSP", "CRED_REQ", "LOGIN_RSP"], 4, 7),
        code: rsp_code.or(only_of(&["T_LOGOUT", "LOGIN_REJ"], 4, 7)),
    })
}

/// "Right-aligned decimal, ***** above 99,999."
fn decimal(n: u64) -> String {
    if n > 99_999 {
        "*****".into()
    } else {
        n.to_string()
    }
}

fn hex(field: Option<u64>, digits: usize) -> String {
    field.map_or(String::new(), |n| format!("{n:0digits$x}"))
}

/// The line: "direction (column 1, > towards the port, < from it)", 3-14, 16-31, 33-48, 50-54, 56-63, "spaces, line feed
/// after 80".
pub fn line(msg: &[u8], direction: u32) -> String {
    let sign = if direction == 0 { '>' } else { '<' };
    let (name, tag, lun, count, code) = match read(msg) {
        Ok(entry) => (entry.name, Some(entry.tag), entry.lun, entry.delta, entry.code),
        // "UNKNOWN as its type and its length in 50-54 by the delta's rule, the rest but column 1 spaces."
        Err(_) => ("UNKNOWN", None, None, Some(msg.len() as u64), None),
    };
    let (tag, lun, code) = (hex(tag, 16), hex(lun, 16), hex(code, 8));
    let count = count.map_or(String::new(), decimal);
    let columns = format!("{sign} {name:12} {tag:16} {lun:16} {count:>5} {code:8}");
    format!("{columns:80}\n")
}

/// The C form: "else 1; bytes past 81 stay".
pub fn trace_in_c(msg: &[u8], direction: u32, buf: &mut [u8]) -> u32 {
    let Some(lent) = buf.get_mut(..LINE_BYTES) else {
        return Refusal::ShortBuffer.number();
    };
    lent.copy_from_slice(line(msg, direction).as_bytes());
    0
}

#[cfg(test)]
mod tests {
    use crate::calls::Call;
    use crate::rows;

    #[test]
    fn trace_rows() {
        rows::run_trace("the model", |call, buf| call.on_model(buf));
    }
}
