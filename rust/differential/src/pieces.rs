//! Pieces of a payload, beside `IpFrag`.

use crate::rng::Rng;
use crate::run::{Compared, Run, expected};
use ezpkt::ip4::IpFrag;
use pkt::ipv4::ip_hdr;
use vectors::MAX_IPV4;
use wispbundle::{Piece, Template};

pub fn draw(rng: &mut Rng) -> Template {
    Template {
        tos: rng.u8(),
        id: rng.u16(),
        df: rng.flip(),
        evil: rng.flip(),
        ttl: rng.u8(),
        protocol: rng.pick(&[1, 6, 17, 0, 47, 255]),
        src: rng.addr(),
        dst: rng.addr(),
    }
}

/// The template as a header, in which MF, total length and checksum are drawn and do not count.
pub fn header(rng: &mut Rng, t: &Template) -> ip_hdr {
    let mut h = ip_hdr {
        tos: t.tos,
        ..Default::default()
    };
    h.set_id(t.id).set_ttl(t.ttl).set_protocol(t.protocol);
    h.set_saddr(t.src).set_daddr(t.dst);
    h.set_df(t.df).set_evil(t.evil).set_mf(rng.flip());
    h.set_tot_len(rng.u16()).set_csum(rng.u16());
    h
}

/// An offset that is mostly within the payload, and at times past it or above 8,191.
pub fn offset(rng: &mut Rng, size: usize) -> u16 {
    match rng.below(32) {
        0 => rng.u16(),
        1 => rng.pick(&[8189, 8190, 8191, 8192]),
        2 => (size / 8 + rng.below(4)) as u16,
        _ => rng.below(size / 8 + 1) as u16,
    }
}

/// A length that is mostly within the payload.
pub fn blocks(rng: &mut Rng, size: usize) -> u16 {
    match rng.below(16) {
        0 => rng.u16(),
        _ => rng.below(size / 8 + 3) as u16,
    }
}

pub fn compare(run: &mut Run) -> Compared {
    let size = run.rng.size(MAX_IPV4);
    let payload = run.rng.bytes(size);
    let template = draw(&mut run.rng);
    let rust = IpFrag::new(header(&mut run.rng, &template), payload.to_vec());
    let off = offset(&mut run.rng, size);
    let len = blocks(&mut run.rng, size);
    let kind = run.rng.below(4);
    let (off, packet) = match kind {
        0 | 1 => (off, rust.fragment(off, len, true)),
        2 => (off, rust.tail(off, true)),
        _ => (0, rust.datagram(true)),
    };
    let packet = packet.to_vec();
    let room = run.room(packet.len());
    let rust = expected((size, MAX_IPV4), off, (room, packet.len()), || packet);
    let piece = Piece { template, off, len };
    match kind {
        0 => run.writes_one("wb_fragment", room, rust, |out| {
            template.fragment(&payload, off, len, out)
        }),
        1 => run.writes_one("wb_build_piece", room, rust, |out| {
            piece.build(&payload, out)
        }),
        2 => run.writes_one("wb_tail", room, rust, |out| {
            template.tail(&payload, off, out)
        }),
        _ => run.writes_one("wb_datagram", room, rust, |out| {
            template.datagram(&payload, out)
        }),
    }
}
