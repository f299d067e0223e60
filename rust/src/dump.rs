//! The hex dump.

use crate::lend::lend;
use crate::{Refusal, sys};
use std::ops::Range;

fn packet(part: Range<usize>) -> sys::Packet {
    sys::Packet {
        headroom: part.start,
        end: part.end,
    }
}

/// How many bytes [`hex_dump`] writes. Refuses by 16.
///
/// ```
/// assert_eq!(wispbundle::hex_dump_len(1..5, b"lap!\0"), Ok(76));
/// ```
pub fn hex_dump_len(part: Range<usize>, buf: &[u8]) -> Result<usize, Refusal> {
    // SAFETY: the pointer and the count are those of a slice.
    Refusal::or_length(unsafe { sys::wb_hex_dump_len(packet(part), buf.as_ptr(), buf.len()) })
}

/// Writes the dump of the packet that is `part` of `buf`, as text. Positions count from the start of
/// `buf`. Refuses by 16, 3.
///
/// ```
/// let mut out = [0; 200];
/// let n = wispbundle::hex_dump(1..5, b"lap!\0", &mut out).unwrap();
/// let text = std::str::from_utf8(&out[..n]).unwrap();
/// assert!(text.starts_with("4 byte packet:\n00001 | 61 70 21 00 "));
/// assert!(text.ends_with(" ap!.\n"));
/// ```
pub fn hex_dump(part: Range<usize>, buf: &[u8], out: &mut [u8]) -> Result<usize, Refusal> {
    Refusal::or_length(lend!(wb_hex_dump, packet(part), buf, out))
}
