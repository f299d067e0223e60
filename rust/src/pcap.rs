//! Captures: classic pcap, little-endian, microseconds, link type 101 (raw IP).

use crate::{Refusal, sys};

/// Writes the 24 bytes that a file begins with. Refuses by 3.
pub fn header(out: &mut [u8]) -> Result<usize, Refusal> {
    // SAFETY: the pointer and the count are those of a slice that is borrowed alone.
    Refusal::or_length(unsafe { sys::wb_pcap_header(out.as_mut_ptr(), out.len()) })
}

/// Writes one record: 16 bytes and the packet. Refuses by 1, 17, 3.
///
/// ```
/// let mut out = [0; 44];
/// let n = wispbundle::pcap::header(&mut out).unwrap();
/// assert_eq!(wispbundle::pcap::record(1, 999_999, b"lap!", &mut out[n..]), Ok(20));
/// ```
pub fn record(sec: u32, usec: u32, packet: &[u8], out: &mut [u8]) -> Result<usize, Refusal> {
    let (from, count) = (packet.as_ptr(), packet.len());
    // SAFETY: both pointers and counts are those of slices, and `out` is borrowed alone.
    Refusal::or_length(unsafe {
        sys::wb_pcap_record(sec, usec, from, count, out.as_mut_ptr(), out.len())
    })
}
