//! Packets, good and damaged.

use crate::pieces;
use crate::rng::Rng;
use vectors::MAX_TCP;
use wispbundle::{Choices, IcmpFlow, TcpFlow, UdpFlow};

pub fn be16(bytes: &mut [u8], at: usize, number: u16) {
    bytes[at..at + 2].copy_from_slice(&number.to_be_bytes());
}

/// How many bytes a packet's header has: 20 and its options, as far as they are there.
pub fn header(packet: &[u8]) -> usize {
    let told = packet.first().map_or(0, |first| 4 * (first & 0x0f));
    usize::from(told).max(20).min(packet.len())
}

/// Sets the checksum of a packet's first bytes right, by the Rust's function.
pub fn mend_front(packet: &mut [u8], count: usize) {
    be16(packet, 10, 0);
    let sum = pkt::ipv4::ip_csum(&packet[..count]);
    be16(packet, 10, sum);
}

/// Sets an IPv4 header's checksum right.
pub fn mend(packet: &mut [u8]) {
    if packet.len() >= 20 {
        mend_front(packet, header(packet));
    }
}

/// A packet of any kind as it is built; a datagram at times with its checksum's field set to 0.
pub fn built(rng: &mut Rng) -> Vec<u8> {
    let size = rng.size(MAX_TCP).min(MAX_TCP);
    let payload = rng.bytes(size);
    let mut out = vec![0; 40 + size];
    let (cl, sv) = (rng.socket(), rng.socket());
    let choices = Choices {
        srcip: None,
        frag_off: rng.pick(&[0, 0, 0, 0x4000, 0x8000, 0x2000, 1]),
        csum: true,
    };
    let kind = rng.below(4);
    let n = match kind {
        0 => TcpFlow::new(cl, sv, rng.u32(), rng.u32()).client_data_segment(&payload, &mut out),
        1 => UdpFlow::new(cl, sv).client_dgram(&payload, choices, &mut out),
        2 => IcmpFlow::new(*cl.ip(), *sv.ip()).echo(&payload, &mut out),
        _ => pieces::draw(rng).datagram(&payload, &mut out),
    };
    out.truncate(n.expect("there is room, and the payload is short enough"));
    if kind == 1 && rng.flip() {
        be16(&mut out, 26, 0);
    }
    out
}

/// One change, after which the header's checksum is mostly set right.
fn change(rng: &mut Rng, packet: &mut Vec<u8>) {
    let (len, at) = (packet.len(), rng.below(packet.len().max(1)));
    let (size, words) = (header(packet), rng.below(16) as u8);
    let in_header = rng.below(size.max(1));
    let part = size.min(len.saturating_sub(8));
    match rng.below(11) {
        0 => packet.truncate(at),
        1 => packet.extend(vec![rng.u8(); rng.below(9)]),
        _ if len < 28 => packet.push(rng.u8()),
        2 => be16(packet, 2, rng.below(len + 3) as u16),
        3 => be16(packet, 2, rng.below(size + 10) as u16),
        4 => be16(packet, 6, rng.u16()),
        5 => packet[9] = rng.u8(),
        6 => {
            let last = len.min(part + 13) - 1;
            packet[rng.pick(&[0, part, part + 4, part + 5, part + 6, part + 7, last])] = rng.u8()
        }
        7 => packet[in_header] ^= 1 << rng.below(8),
        8 => packet[0] = rng.pick(&[0x40, 0x40, 0x50]) + words,
        _ => packet[at] ^= 1 << rng.below(8),
    }
    if !rng.once_in(4) {
        mend(packet);
    }
}

/// Bytes that may or may not be a packet.
pub fn damaged(rng: &mut Rng, mut packet: Vec<u8>) -> Vec<u8> {
    if rng.once_in(40) {
        let size = rng.below(60);
        packet = rng.bytes(size).to_vec();
    }
    for _ in 0..1 + rng.below(3) {
        change(rng, &mut packet);
    }
    packet
}
