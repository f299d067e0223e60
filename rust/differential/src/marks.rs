//! TOS and TTL, which the Rust's flows do not have. With those of a new flow a packet is the Rust's;
//! with others it is the Rust's with both in their places, by RFC 791, and the header's checksum set
//! right by the Rust's function.

use crate::damage::mend;
use crate::rng::Rng;
use wispbundle::Marks;

/// Those of a new flow in half of the cases, and else others.
pub fn draw(rng: &mut Rng) -> Marks {
    if rng.flip() {
        return Marks::default();
    }
    let (tos, ttl) = (rng.u8(), rng.u8());
    Marks {
        tos: rng.pick(&[0, 0xb8, tos, tos]),
        ttl: rng.pick(&[0, 1, 64, ttl, ttl]),
    }
}

/// The Rust's packet with these marks.
pub fn put(marks: Marks, mut packet: Vec<u8>) -> Vec<u8> {
    if marks != Marks::default() {
        packet[1] = marks.tos;
        packet[8] = marks.ttl;
        mend(&mut packet);
    }
    packet
}

/// The line of a call that was carried out with other marks than a new flow's.
pub fn line(call: &str) -> String {
    format!("{call}: other marks")
}

/// Whether a call is handed marks: in a flow, in a request, or alone.
pub fn are_handed(call: &str) -> bool {
    let flows = ["wb_tcp_", "wb_udp_", "wb_icmp_"];
    let requests = ["wb_build_tcp", "wb_build_udp", "wb_build_icmp"];
    let of_flow = flows.iter().any(|kind| call.starts_with(kind)) && !call.ends_with("_new");
    of_flow || requests.contains(&call)
}
