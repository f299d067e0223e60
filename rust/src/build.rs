//! Building one packet. Each call writes the whole packet, IPv4 header first, to the start of `out`
//! and answers its length. It refuses by 1, 3, and a UDP datagram by 22, 1, 3.

use crate::lend::lend;
use crate::{Marks, Refusal, sys};
use std::net::{Ipv4Addr, SocketAddrV4};

/// The bits of [`TcpSegment::flags`].
pub mod flags {
    pub const FIN: u8 = 0x01;
    pub const SYN: u8 = 0x02;
    pub const RST: u8 = 0x04;
    pub const PSH: u8 = 0x08;
    pub const ACK: u8 = 0x10;
    pub const URG: u8 = 0x20;
    pub const ECE: u8 = 0x40;
    pub const CWR: u8 = 0x80;
}

/// A TCP segment. `frag_off` is the whole 16-bit field of the IPv4 header.
#[derive(Copy, Clone, Debug, PartialEq, Eq)]
pub struct TcpSegment {
    pub src: SocketAddrV4,
    pub dst: SocketAddrV4,
    pub seq: u32,
    pub ack: u32,
    pub flags: u8,
    pub frag_off: u16,
    pub marks: Marks,
}

impl TcpSegment {
    /// A segment with neither flags nor numbers, and with the default marks.
    pub fn new(src: SocketAddrV4, dst: SocketAddrV4) -> Self {
        Self {
            src,
            dst,
            seq: 0,
            ack: 0,
            flags: 0,
            frag_off: 0,
            marks: Marks::default(),
        }
    }

    /// ```
    /// use wispbundle::{TcpSegment, flags};
    ///
    /// let (cl, sv) = ("10.0.0.1:40000".parse().unwrap(), "10.0.0.2:80".parse().unwrap());
    /// let syn = TcpSegment { seq: 1000, flags: flags::SYN, ..TcpSegment::new(cl, sv) };
    /// let mut out = [0; 40];
    /// assert_eq!(syn.build(&[], &mut out), Ok(40));
    /// assert_eq!((&out[10..12], &out[36..38]), (&[0x66, 0xce][..], &[0xfb, 0x67][..]));
    /// ```
    pub fn build(&self, payload: &[u8], out: &mut [u8]) -> Result<usize, Refusal> {
        let segment = sys::TcpSegment {
            saddr: u32::from(*self.src.ip()),
            daddr: u32::from(*self.dst.ip()),
            sport: self.src.port(),
            dport: self.dst.port(),
            seq: self.seq,
            ack: self.ack,
            flags: self.flags,
            frag_off: self.frag_off,
            marks: self.marks,
        };
        Refusal::or_length(lend!(wb_build_tcp, segment, payload, out))
    }
}

/// A UDP datagram. `frag_off` is the whole 16-bit field of the IPv4 header; `csum` says whether a
/// checksum is asked for, and without one no datagram is built: 22.
#[derive(Copy, Clone, Debug, PartialEq, Eq)]
pub struct UdpDatagram {
    pub src: SocketAddrV4,
    pub dst: SocketAddrV4,
    pub frag_off: u16,
    pub csum: bool,
    pub marks: Marks,
}

impl UdpDatagram {
    /// A datagram with the default marks, for which no checksum is asked yet: until `csum` is set, it is
    /// refused.
    pub fn new(src: SocketAddrV4, dst: SocketAddrV4) -> Self {
        Self {
            src,
            dst,
            frag_off: 0,
            csum: false,
            marks: Marks::default(),
        }
    }

    /// ```
    /// use wispbundle::{Refusal, UdpDatagram};
    ///
    /// let (cl, sv) = ("10.0.0.1:1".parse().unwrap(), "10.0.0.2:2".parse().unwrap());
    /// let bare = UdpDatagram::new(cl, sv);
    /// let mut out = [0; 30];
    /// assert_eq!(bare.build(&[0xeb, 0xd4], &mut out), Err(Refusal::NoChecksum));
    /// let datagram = UdpDatagram { csum: true, ..bare };
    /// assert_eq!(datagram.build(&[0xeb, 0xd4], &mut out), Ok(30));
    /// assert_eq!(out[26..28], [0xff, 0xff]);
    /// ```
    pub fn build(&self, payload: &[u8], out: &mut [u8]) -> Result<usize, Refusal> {
        let datagram = sys::UdpDatagram {
            saddr: u32::from(*self.src.ip()),
            daddr: u32::from(*self.dst.ip()),
            sport: self.src.port(),
            dport: self.dst.port(),
            frag_off: self.frag_off,
            csum: self.csum,
            marks: self.marks,
        };
        Refusal::or_length(lend!(wb_build_udp, datagram, payload, out))
    }
}

/// Which of the two echo messages.
#[derive(Copy, Clone, Debug, PartialEq, Eq)]
pub enum Echo {
    /// Type 8.
    Request,
    /// Type 0.
    Reply,
}

/// An ICMP echo. Its id is 0x1234.
#[derive(Copy, Clone, Debug, PartialEq, Eq)]
pub struct IcmpPacket {
    pub src: Ipv4Addr,
    pub dst: Ipv4Addr,
    pub echo: Echo,
    pub seq: u16,
    pub marks: Marks,
}

impl IcmpPacket {
    pub fn build(&self, payload: &[u8], out: &mut [u8]) -> Result<usize, Refusal> {
        let echo = sys::IcmpPacket {
            saddr: u32::from(self.src),
            daddr: u32::from(self.dst),
            reply: self.echo == Echo::Reply,
            seq: self.seq,
            marks: self.marks,
        };
        Refusal::or_length(lend!(wb_build_icmp, echo, payload, out))
    }
}
