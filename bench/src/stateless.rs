//! Look, the cut and the format counts in plain Rust, written for speed, with the answers of include/srp_target.h.

use crate::search::Search;

/// A memory descriptor.
pub type Segment = [u8; 16];

/// The bits that agreed formats may have.
const BOTH_FORMATS: u32 = 0b110;

/// Err is the number of the refusal.
#[inline(always)]
pub fn look(msg: &[u8], agreed: u32, formats: u32, buf: &mut [u8]) -> Result<(), u32> {
    let [out_fetch, in_fetch, ..] = buf.as_chunks_mut::<16>().0 else {
        return Err(1);
    };
    if !(64..=1364).contains(&agreed) || formats & !BOTH_FORMATS != 0 {
        return Err(2);
    }
    if msg.len() < 16 || msg.len() > agreed as usize {
        return Err(3);
    }
    if msg[0] != 0x02 {
        return Err(4);
    }
    let Some(head) = msg.first_chunk::<48>() else {
        return Err(3);
    };
    let (out_format, in_format) = (head[5] >> 4, head[5] & 15);
    if !is_allowed(out_format, formats) {
        return Err(5);
    }
    if !is_allowed(in_format, formats) {
        return Err(6);
    }
    let out_at = 48 + (head[31] & !3) as usize;
    let in_at = out_at + descriptor_bytes(out_format, head[6]);
    if msg.len() != in_at + descriptor_bytes(in_format, head[7]) {
        return Err(3);
    }
    let out_table = table(out_format, head[6], msg, out_at).ok_or(7u32)?;
    let in_table = table(in_format, head[7], msg, in_at).ok_or(8u32)?;
    *out_fetch = *out_table;
    *in_fetch = *in_table;
    Ok(())
}

/// Format 0 always is; 1 and 2 by their bit in the agreed formats.
#[inline(always)]
fn is_allowed(format: u8, formats: u32) -> bool {
    format == 0 || format <= 2 && formats >> format & 1 == 1
}

/// How many values of byte 5 pass, draw 5 and draw 6.
#[inline(always)]
pub fn format_counts(formats: u32) -> Result<[u64; 3], u32> {
    if formats & !BOTH_FORMATS != 0 {
        return Err(2);
    }
    let (mut pass, mut out_format, mut in_format) = (0, 0, 0);
    // By 0..=255u8 it takes nearly twice as long.
    for value in 0..256u32 {
        let (out, inn) = ((value >> 4) as u8, (value & 15) as u8);
        if !is_allowed(out, formats) {
            out_format += 1;
        } else if !is_allowed(inn, formats) {
            in_format += 1;
        } else {
            pass += 1;
        }
    }
    Ok([pass, out_format, in_format])
}

#[inline(always)]
fn descriptor_bytes(format: u8, count: u8) -> usize {
    match format {
        0 => 0,
        1 => 16,
        _ => 20 + 16 * count as usize,
    }
}

/// The table descriptor if it is to be fetched, else zeros; None for a bad count.
#[inline(always)]
fn table(format: u8, count: u8, msg: &[u8], at: usize) -> Option<&[u8; 16]> {
    static NO_FETCH: [u8; 16] = [0; 16];
    if format != 2 {
        return Some(&NO_FETCH);
    }
    let table = msg.get(at..)?.first_chunk::<16>()?;
    let length = u32::from_be_bytes([table[12], table[13], table[14], table[15]]);
    let copies = 16 * count as u32;
    if count > 32 || copies > length {
        return None;
    }
    let fetched = length % 16 == 0 && length <= 512 && length != copies;
    Some(if fetched { table } else { &NO_FETCH })
}

/// Whether Q is one: 0 for none, or a power of two from 512 to 2^32.
#[inline(always)]
pub fn is_boundary(q: u64) -> bool {
    q == 0 || q.is_power_of_two() && (9..=32).contains(&q.trailing_zeros())
}

/// How many bytes from an address on lie before the next multiple of Q above it.
#[inline(always)]
pub fn room_before(q: u64, address: u64) -> u64 {
    if q == 0 {
        u64::MAX
    } else {
        q - (address & (q - 1))
    }
}

/// As look.
#[inline(always)]
pub fn cut<S: Search>(list: &[u8], m: u32, q: u64, r: u32, handed: u32, buf: &mut [u8]) -> Result<(), u32> {
    let [piece, offset, ..] = buf.as_chunks_mut::<16>().0 else {
        return Err(1);
    };
    if !(1..=1 << 20).contains(&m) || !is_boundary(q) {
        return Err(2);
    }
    let (segments, []) = list.as_chunks::<16>() else {
        return Err(11);
    };
    if segments.len() > 32 {
        return Err(11);
    }
    let end = sum(segments)?.min(r as u64);
    let from = handed as u64;
    if from > end {
        return Err(11);
    }
    (*piece, *offset) = ([0; 16], [0; 16]);
    if from < end {
        *piece = piece_at::<S>(segments, q, from, (end - from).min(m as u64));
        *offset.first_chunk_mut().unwrap() = handed.to_be_bytes();
    }
    Ok(())
}

/// B; refused where a segment ends past memory or B has more than 32 bits.
#[inline(always)]
fn sum(segments: &[Segment]) -> Result<u64, u32> {
    let (mut b, mut past) = (0, false);
    for segment in segments {
        let length = length_of(segment);
        past |= length != 0 && address_of(segment).checked_add(length - 1).is_none();
        b += length;
    }
    if past || b > u32::MAX as u64 {
        return Err(10);
    }
    Ok(b)
}

/// The piece from an offset below B on, up to `most` bytes long and across no multiple of Q.
#[inline(always)]
fn piece_at<S: Search>(segments: &[Segment], q: u64, from: u64, most: u64) -> Segment {
    let mut piece = [0; 16];
    if let Some((segment, within)) = S::in_cut(segments, from) {
        let address = address_of(segment) + within;
        let length = (length_of(segment) - within).min(most).min(room_before(q, address));
        let handle_and_length = tail_of(segment) & !0xffff_ffff | length;
        *piece.first_chunk_mut().unwrap() = address.to_be_bytes();
        *piece.last_chunk_mut().unwrap() = handle_and_length.to_be_bytes();
    }
    piece
}

#[inline(always)]
fn address_of(segment: &Segment) -> u64 {
    u64::from_be_bytes(*segment.first_chunk().unwrap())
}

/// Handle and length.
#[inline(always)]
fn tail_of(segment: &Segment) -> u64 {
    u64::from_be_bytes(*segment.last_chunk().unwrap())
}

#[inline(always)]
pub fn length_of(segment: &Segment) -> u64 {
    tail_of(segment) & 0xffff_ffff
}

#[cfg(test)]
mod tests {
    use srp_tests::model::formats::format_counts_in_c;
    use srp_tests::port::call::UNWRITTEN;

    use crate::sides::PLAIN;

    /// As the version of tests/rust has them.
    #[test]
    fn format_counts() {
        for formats in (0..=0xffff).chain((16..32).map(|bit| 0b110 | 1 << bit)) {
            let (mut plain, mut model) = (UNWRITTEN, UNWRITTEN);
            // SAFETY: the answer has its eight words.
            let returned = unsafe { (PLAIN.format_counts)(formats, &mut plain) };
            assert_eq!((returned, plain), (format_counts_in_c(formats, &mut model), model), "formats {formats:x}");
        }
    }
}
