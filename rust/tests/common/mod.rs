//! What the tests share.
#![allow(dead_code)]

use std::net::{Ipv4Addr, SocketAddrV4};
use wispbundle::{Key, Refusal, Template, UdpDatagram, ip_csum};

pub const CLIENT: Ipv4Addr = Ipv4Addr::new(10, 0, 0, 1);
pub const SERVER: Ipv4Addr = Ipv4Addr::new(10, 0, 0, 2);
pub const CL: SocketAddrV4 = SocketAddrV4::new(CLIENT, 40_000);
pub const SV: SocketAddrV4 = SocketAddrV4::new(SERVER, 80);
pub const KEY: Key = Key {
    src: CLIENT,
    dst: SERVER,
    id: 7,
    protocol: 17,
};

/// The most bytes that an IPv4 packet has.
pub const LONGEST: usize = 65_535;

/// RFC 2113: the option router alert.
pub const ROUTER_ALERT: [u8; 4] = [0x94, 0x04, 0x00, 0x00];

/// What buffers hold before a call.
pub const UNTOUCHED: u8 = 0xa5;

pub fn template() -> Template {
    Template {
        tos: 3,
        id: 7,
        protocol: 17,
        ..Template::new(CLIENT, SERVER)
    }
}

/// A datagram for which a checksum is asked.
pub fn datagram(src: SocketAddrV4, dst: SocketAddrV4) -> UdpDatagram {
    UdpDatagram {
        csum: true,
        ..UdpDatagram::new(src, dst)
    }
}

pub fn counted(n: usize) -> Vec<u8> {
    (0..n).map(|i| (i * 7 + i / 251) as u8).collect()
}

pub fn u16_at(bytes: &[u8], at: usize) -> u16 {
    u16::from_be_bytes(bytes[at..at + 2].try_into().unwrap())
}

pub fn u32_at(bytes: &[u8], at: usize) -> u32 {
    u32::from_be_bytes(bytes[at..at + 4].try_into().unwrap())
}

/// Makes the call with room enough, and answers the packet. The bytes behind it stay.
pub fn written(call: impl FnOnce(&mut [u8]) -> Result<usize, Refusal>) -> Vec<u8> {
    let mut out = vec![UNTOUCHED; LONGEST + 200];
    let n = call(&mut out).unwrap();
    assert!(out[n..].iter().all(|&b| b == UNTOUCHED));
    out.truncate(n);
    out
}

/// Makes the call with `room` bytes, which is refused and leaves them as they were.
pub fn refused<T: std::fmt::Debug>(
    room: usize,
    why: Refusal,
    call: impl FnOnce(&mut [u8]) -> Result<T, Refusal>,
) {
    let mut out = vec![UNTOUCHED; room];
    assert_eq!(call(&mut out).unwrap_err(), why);
    assert!(out.iter().all(|&b| b == UNTOUCHED));
}

/// The packet with the checksum of its first so many bytes set right.
fn mended(mut packet: Vec<u8>, header: usize) -> Vec<u8> {
    packet[10..12].fill(0);
    let sum = ip_csum(&packet[..header]).unwrap();
    packet[10..12].copy_from_slice(&sum.to_be_bytes());
    packet
}

/// The packet with some bytes changed and the checksum of its first 20 bytes set right, which are its
/// IPv4 header where it has no options.
pub fn changed(mut packet: Vec<u8>, changes: &[(usize, u8)]) -> Vec<u8> {
    for &(at, byte) in changes {
        packet[at] = byte;
    }
    mended(packet, 20)
}

/// The packet with options behind its header of 20 bytes and both lengths set right; then some bytes
/// changed, and the checksum of header and options set right.
pub fn with_options(packet: &[u8], options: &[u8], changes: &[(usize, u8)]) -> Vec<u8> {
    let mut longer = [&packet[..20], options, &packet[20..]].concat();
    let total = u16_at(packet, 2) + options.len() as u16;
    longer[0] += (options.len() / 4) as u8;
    longer[2..4].copy_from_slice(&total.to_be_bytes());
    for &(at, byte) in changes {
        longer[at] = byte;
    }
    mended(longer, 20 + options.len())
}
