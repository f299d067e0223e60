//! Header types of chosen sizes, and parts at chosen places.

use bytemuck::{Pod, Zeroable};
use pkt::{Hdr, Packet, PktSlice};

/// A header of N bytes without meaning.
#[repr(C, packed(1))]
#[derive(Copy, Clone)]
pub struct Blob<const N: usize>(pub [u8; N]);

// SAFETY: an array of bytes is plain bytes, and zeros are a value of it.
unsafe impl<const N: usize> Zeroable for Blob<N> {}
// SAFETY: as above.
unsafe impl<const N: usize> Pod for Blob<N> {}

/// A handle to a header at `off`. The Rust's handles are places only, tied to no packet.
pub fn header_at<const N: usize>(off: usize) -> Hdr<Blob<N>> {
    Packet::new(off, 0).push_hdr()
}

/// A handle to `len` bytes at `off`.
pub fn part(off: usize, len: usize) -> PktSlice {
    header_at::<0>(off).packet(len)
}
