//! Pieces of an IPv4 payload. A piece carries the payload's bytes from 8·off up to 8·(off + len), as
//! far as they are there; MF is set exactly if bytes follow. Each call refuses by 1, 2, 3.

use crate::lend::lend;
pub use crate::sys::BlockRequest;
use crate::{ListRefusal, Refusal, sys};
use std::net::Ipv4Addr;

/// What every piece of one payload says in its header. `evil` is the reserved bit.
#[derive(Copy, Clone, Debug, PartialEq, Eq)]
pub struct Template {
    pub tos: u8,
    pub id: u16,
    pub df: bool,
    pub evil: bool,
    pub ttl: u8,
    pub protocol: u8,
    pub src: Ipv4Addr,
    pub dst: Ipv4Addr,
}

impl Template {
    /// TTL 64, and 0 in all other fields.
    pub fn new(src: Ipv4Addr, dst: Ipv4Addr) -> Self {
        Self {
            tos: 0,
            id: 0,
            df: false,
            evil: false,
            ttl: 64,
            protocol: 0,
            src,
            dst,
        }
    }

    fn raw(&self) -> sys::Template {
        sys::Template {
            tos: self.tos,
            id: self.id,
            df: self.df,
            evil: self.evil,
            ttl: self.ttl,
            protocol: self.protocol,
            saddr: u32::from(self.src),
            daddr: u32::from(self.dst),
        }
    }

    /// `len` blocks of 8 bytes, from block `off` on. A piece past the payload's end is empty and has
    /// MF clear, so it claims a longer datagram: with the payload's last piece it spoils an assembly.
    ///
    /// ```
    /// use wispbundle::{Refusal, Template};
    ///
    /// let template = Template::new([10, 0, 0, 1].into(), [10, 0, 0, 2].into());
    /// let mut out = [0; 28];
    /// assert_eq!(template.fragment(&[7; 20], 2, 1, &mut out), Ok(24));
    /// assert_eq!(out[6..8], [0x00, 0x02]);
    /// assert_eq!(template.fragment(&[7; 20], 8192, 1, &mut out), Err(Refusal::BadOffset));
    /// ```
    pub fn fragment(
        &self,
        payload: &[u8],
        off: u16,
        len: u16,
        out: &mut [u8],
    ) -> Result<usize, Refusal> {
        let (from, count) = (payload.as_ptr(), payload.len());
        // SAFETY: both pointers and counts are those of slices, and `out` is borrowed alone.
        Refusal::or_length(unsafe {
            sys::wb_fragment(
                self.raw(),
                from,
                count,
                off,
                len,
                out.as_mut_ptr(),
                out.len(),
            )
        })
    }

    /// All from block `off` on.
    pub fn tail(&self, payload: &[u8], off: u16, out: &mut [u8]) -> Result<usize, Refusal> {
        let (from, count) = (payload.as_ptr(), payload.len());
        // SAFETY: both pointers and counts are those of slices, and `out` is borrowed alone.
        Refusal::or_length(unsafe {
            sys::wb_tail(self.raw(), from, count, off, out.as_mut_ptr(), out.len())
        })
    }

    /// The whole payload, with offset 0 and MF clear.
    pub fn datagram(&self, payload: &[u8], out: &mut [u8]) -> Result<usize, Refusal> {
        Refusal::or_length(lend!(wb_datagram, self.raw(), payload, out))
    }

    /// All pieces of a list: for each request the packet that [`fragment`](Self::fragment) writes, end
    /// to end, and where packet `i` ends, to `ends[i]`. Number 2 is for an offset anywhere in the list,
    /// and 3 also for fewer ends than requests; neither `out` nor `ends` is then written to.
    ///
    /// ```
    /// use wispbundle::{BlockRequest, Template};
    ///
    /// let template = Template::new([10, 0, 0, 1].into(), [10, 0, 0, 2].into());
    /// let mut list = [BlockRequest { off: 0, len: 2 }, BlockRequest { off: 2, len: 1 }];
    /// let (mut out, mut ends) = ([0; 60], [0; 2]);
    /// assert_eq!(template.fragments(&[7; 20], &list, &mut out, &mut ends), Ok(60));
    /// assert_eq!(ends, [36, 60]);
    /// list[1].off = 8192;
    /// let refused = template.fragments(&[7; 20], &list, &mut out, &mut ends).unwrap_err();
    /// assert_eq!((refused.number(), refused.index), (2, Some(1)));
    /// ```
    pub fn fragments(
        &self,
        payload: &[u8],
        list: &[BlockRequest],
        out: &mut [u8],
        ends: &mut [usize],
    ) -> Result<usize, ListRefusal> {
        let (from, count) = (payload.as_ptr(), payload.len());
        let (list, requests) = (list.as_ptr(), list.len());
        let (to, room) = (out.as_mut_ptr(), out.len());
        let (ends, places) = (ends.as_mut_ptr(), ends.len());
        // SAFETY: all pointers and counts are those of slices, and both buffers are borrowed alone.
        ListRefusal::or_length(unsafe {
            sys::wb_fragments(
                self.raw(),
                from,
                count,
                list,
                requests,
                to,
                room,
                ends,
                places,
            )
        })
    }
}

/// The request for one piece: `len` blocks of 8 bytes of the payload, from block `off` on.
#[derive(Copy, Clone, Debug, PartialEq, Eq)]
pub struct Piece {
    pub template: Template,
    pub off: u16,
    pub len: u16,
}

impl Piece {
    /// The same packet as [`Template::fragment`] writes.
    pub fn build(&self, payload: &[u8], out: &mut [u8]) -> Result<usize, Refusal> {
        let piece = sys::IpPiece {
            template: self.template.raw(),
            off: self.off,
            len: self.len,
        };
        Refusal::or_length(lend!(wb_build_piece, piece, payload, out))
    }
}
