//! Look, the cut, the trace and the format counts, which need no port.

use srp_target_sys::{ANSWER_BYTES, TRACE_BYTES};

use crate::ffi::{self, Bytes, Outcome};
use crate::outcome::checked;
use crate::refusal::Refusal;

/// A table of memory descriptors that is to be fetched by RDMA Read, in both directions. It may cross a multiple of the
/// login's boundary: the owner splits the Read where the adapter must not cross one.
#[derive(Clone, Copy, Debug, PartialEq, Eq, Hash)]
pub struct Fetch {
    /// Address of the table in the initiator's memory.
    pub address: u64,
    /// Handle of that memory.
    pub handle: u32,
    /// F, the bytes to fetch: a multiple of 16 from 16 to 512.
    pub length: u32,
}

/// The tables to fetch for a command, which waits for them once it is taken.
#[derive(Clone, Copy, Debug, PartialEq, Eq, Hash)]
pub struct Fetches {
    /// For data-out, if any.
    pub data_out: Option<Fetch>,
    /// For data-in, if any.
    pub data_in: Option<Fetch>,
}

/// A piece of a buffer.
#[derive(Clone, Copy, Debug, PartialEq, Eq, Hash)]
pub struct Piece {
    /// Address in the initiator's memory.
    pub address: u64,
    /// Handle of that memory.
    pub handle: u32,
    /// Bytes, 1 to M.
    pub length: u32,
    /// Where it stands in the buffer: the bytes already handed out.
    pub offset: u32,
}

/// Which way a message goes.
#[derive(Clone, Copy, Debug, PartialEq, Eq, Hash)]
pub enum Way {
    /// Towards the port: its line starts with `>`.
    ToPort,
    /// From the port: `<`.
    FromPort,
}

impl Way {
    /// In the C interface.
    fn number(self) -> u32 {
        match self {
            Way::ToPort => 0,
            Way::FromPort => 1,
        }
    }
}

/// How many of the 256 values of an SRP_CMD's byte 5 lead where.
#[derive(Clone, Copy, Debug, PartialEq, Eq, Hash)]
pub struct FormatCounts {
    /// How many pass: both their formats are allowed.
    pub pass: u32,
    /// How many draw 5: their out format is not allowed, whatever the in format.
    pub out_format: u32,
    /// How many draw 6: their out format is allowed, and their in format is not.
    pub in_format: u32,
}

/// Reads one SRP_CMD, and names the tables to fetch: where there is one, the command waits when it is taken, and
/// [`Port::tables`](crate::Port::tables) brings them. `agreed` is the agreed length, `formats` the agreed formats: bytes
/// 16-19 and 24-25 of the SRP_LOGIN_REQ that was accepted.
///
/// # Errors
/// Refused: 2 `agreed` outside 64 to 1,364, or a bit of `formats` set other than 1 and 2; 3 message under 16 bytes or
/// over the agreed length; 4 type not 02h; 3 under 48 bytes; 5, 6 a format not agreed; 3 not its length; 7, 8 a count.
/// A refused command is taken all the same: [`Port::take`](crate::Port::take) hangs up with 3 to 8.
pub fn look(msg: &[u8], agreed: u32, formats: u32) -> Result<Fetches, Refusal> {
    let mut answer = [0; ANSWER_BYTES];
    checked(ffi::look(msg, agreed, formats, &mut answer))?;
    Ok(Fetches { data_out: fetch_at(&answer, 0), data_in: fetch_at(&answer, 16) })
}

/// The piece of a buffer that the next RDMA operation moves, or none: done. `list` has the buffer's memory descriptors,
/// 16 bytes each, `m` is M, `q` is Q, `r` is R, and `handed` counts the bytes already handed out. The piece ends at the
/// nearest of M bytes, its segment's end, the smaller of R and the sum of lengths and, where Q is not 0, the next
/// multiple of Q above its first address.
///
/// # Errors
/// Refused: 2 `m` outside 1 to 1,048,576, or `q` neither 0 nor a power of two from 512 to 2^32; 11 `list` not a
/// multiple of 16 up to 512 bytes; 10 a segment past 2^64, or a sum of lengths above 2^32 - 1; 11 more handed out than
/// the smaller of R and that sum.
///
/// # Examples
/// ```
/// let list = [0, 0, 0, 0, 0, 0, 0x10, 0, 0, 0, 0, 7, 0, 0, 5, 0x14]; // 1000h, handle 7, 1,300 bytes
/// let piece = srp_target::cut(&list, 512, 0, 1300, 1024)?.expect("276 bytes are due");
/// assert_eq!((piece.address, piece.length), (0x1400, 276));
/// assert_eq!(srp_target::cut(&list, 512, 0, 1300, 1300), Ok(None));
/// let piece = srp_target::cut(&list, 512, 4096, 1300, 0)?.expect("1,300 bytes are due");
/// assert_eq!((piece.address, piece.length), (0x1000, 512)); // the next multiple of 4,096 is 2000h
/// let piece = srp_target::cut(&list, 1024, 512, 1300, 100)?.expect("1,200 bytes are due");
/// assert_eq!((piece.address, piece.length), (0x1064, 412)); // up to 1200h, a multiple of 512
/// # Ok::<(), srp_target::Refusal>(())
/// ```
pub fn cut(list: &[u8], m: u32, q: u64, r: u32, handed: u32) -> Result<Option<Piece>, Refusal> {
    let mut answer = [0; ANSWER_BYTES];
    checked(ffi::cut(list, m, q, r, handed, &mut answer))?;
    Ok(fetch_at(&answer, 0).map(|Fetch { address, handle, length }| {
        let offset = number_at(&answer, 16);
        Piece { address, handle, length, offset }
    }))
}

/// A message as one line for a terminal: 80 columns of printable ASCII and a line feed. It is the first
/// [`TRACE_BYTES`](crate::TRACE_BYTES) bytes of the lent buffer, whose other bytes stay. Any bytes have a line, also a
/// message that a port refused, or of a type that does not go that way.
///
/// | columns | |
/// |---|---|
/// | 1 | `>` towards the port, `<` from it |
/// | 3-14 | the type's name without SRP_ |
/// | 16-31 | tag, 16 hexadecimal digits |
/// | 33-48 | LUN, 16 hexadecimal digits: SRP_CMD and SRP_TSK_MGMT |
/// | 50-54 | delta, or N of SRP_LOGIN_RSP: decimal, right-aligned, `*****` above 99,999 |
/// | 56-63 | reason, or RSP_CODE where RSPVALID is set: 8 hexadecimal digits |
///
/// All others are spaces. A message of another type, of a length that is not its type's, or with a descriptor format
/// above 2 has `UNKNOWN` for its name, its length in columns 50-54 by the delta's rule, and no tag.
///
/// # Errors
/// Refused: 1 `buf` under 81 bytes; it is as it was.
///
/// # Examples
/// ```
/// use srp_target::{trace, Way, TRACE_BYTES};
///
/// let mut msg = [0; 16]; // SRP_CRED_REQ
/// msg[0] = 0x81;
/// msg[7] = 3; // delta
/// msg[15] = 0x2a; // tag
/// let mut buf = [0; TRACE_BYTES];
/// let line = trace(&msg, Way::FromPort, &mut buf)?;
/// assert_eq!(line[..54], *b"< CRED_REQ     000000000000002a                      3");
/// assert_eq!(line[54..], *b"                          \n");
/// let line = trace(&msg[..15], Way::FromPort, &mut buf)?;
/// assert_eq!(line[..54], *b"< UNKNOWN                                           15");
/// # Ok::<(), srp_target::Refusal>(())
/// ```
pub fn trace<'b>(msg: &[u8], way: Way, buf: &'b mut [u8]) -> Result<&'b [u8], Refusal> {
    checked(ffi::trace(msg, way.number(), buf))?;
    Ok(&buf[..TRACE_BYTES])
}

/// Where the 256 values of an SRP_CMD's byte 5 lead, out format in bits 7-4 and in format in bits 3-0, in a message
/// whose length never decides. `formats` has the agreed formats, as [`look`] does.
///
/// With f formats allowed, of which format 0 always is one, f * f values pass, 16 * (16 - f) draw 5 and f * (16 - f)
/// draw 6. One that passes may still draw 3, 7 or 8 by the length or a count of its message.
///
/// # Errors
/// Refused: 2 a bit of `formats` set other than 1 and 2.
///
/// # Examples
/// ```
/// use srp_target::{format_counts, FormatCounts, Refusal};
///
/// let none = format_counts(0b000)?;
/// assert_eq!(none, FormatCounts { pass: 1, out_format: 240, in_format: 15 });
/// let both = format_counts(0b110)?; // direct and indirect
/// assert_eq!(both, FormatCounts { pass: 9, out_format: 208, in_format: 39 });
/// assert_eq!(format_counts(0b111), Err(Refusal::Setting));
/// # Ok::<(), srp_target::Refusal>(())
/// ```
pub fn format_counts(formats: u32) -> Result<FormatCounts, Refusal> {
    let Outcome { number, words: [pass, out_format, in_format, ..] } = ffi::format_counts(formats);
    checked(number)?;
    Ok(FormatCounts { pass: pass as u32, out_format: out_format as u32, in_format: in_format as u32 })
}

/// The memory descriptor at a place of an answer; none where its length is 0.
fn fetch_at(answer: &Bytes, at: usize) -> Option<Fetch> {
    let length = number_at(answer, at + 12);
    let address = u64::from(number_at(answer, at)) << 32 | u64::from(number_at(answer, at + 4));
    (length != 0).then(|| Fetch { address, handle: number_at(answer, at + 8), length })
}

fn number_at(answer: &Bytes, at: usize) -> u32 {
    u32::from_be_bytes([answer[at], answer[at + 1], answer[at + 2], answer[at + 3]])
}
