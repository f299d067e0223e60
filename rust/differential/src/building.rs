//! Requests for one packet, beside packets of the Rust's headers and checksum functions.

use crate::marks::put;
use crate::run::{Compared, Run, expected};
use pkt::Packet;
use pkt::ipv4::{ip_csum_fold, ip_csum_partial, ip_hdr, ip_pseudo_hdr, proto, tcp_hdr};
use vectors::{MAX_ICMP, MAX_TCP};
use wispbundle::{Echo, IcmpPacket, TcpSegment};

fn ip_header(segment: &TcpSegment, size: usize) -> ip_hdr {
    let mut h = ip_hdr::default();
    h.set_protocol(proto::TCP).set_tot_len((40 + size) as u16);
    h.set_frag_off(segment.frag_off);
    h.set_saddr(*segment.src.ip()).set_daddr(*segment.dst.ip());
    h.calc_csum();
    h
}

fn rust_tcp(segment: &TcpSegment, payload: &[u8]) -> Vec<u8> {
    let mut tcp = tcp_hdr::new(segment.src.port(), segment.dst.port());
    tcp.set_seq(segment.seq).set_ack(segment.ack);
    tcp.flags = segment.flags;
    let pkt = Packet::default();
    pkt.push(ip_header(segment, payload.len()));
    let at = pkt.push(tcp);
    pkt.push_bytes(payload);
    let (src, dst) = (*segment.src.ip(), *segment.dst.ip());
    let pseudo = ip_pseudo_hdr::tcp(src, dst, (20 + payload.len()) as u16).csum_partial();
    let header = ip_csum_partial(&at.as_bytes(&pkt));
    let sum = ip_csum_fold(pseudo + header + ip_csum_partial(payload));
    at.get_mut(&pkt).set_csum(sum);
    put(segment.marks, pkt.to_vec())
}

pub fn tcp(run: &mut Run) -> Compared {
    let size = run.rng.size(MAX_TCP);
    let mut payload = run.rng.bytes(size);
    let segment = TcpSegment {
        src: run.rng.socket(),
        dst: run.rng.socket(),
        seq: run.rng.near_wrap(),
        ack: run.rng.near_wrap(),
        flags: run.rng.u8(),
        frag_off: run.rng.u16(),
        marks: run.mark(),
    };
    if (2..=MAX_TCP).contains(&size) && run.rng.once_in(16) {
        payload[..2].fill(0);
        let bare = rust_tcp(&segment, &payload);
        payload[..2].copy_from_slice(&bare[36..38]);
    }
    let room = run.room(40 + size);
    let rust = expected((size, MAX_TCP), 0, (room, 40 + size), || {
        rust_tcp(&segment, &payload)
    });
    run.writes_one("wb_build_tcp", room, rust, |out| {
        segment.build(&payload, out)
    })
}

/// The Rust has an echo only as the first of a flow, so the numbers of a request are tried in flows.
pub fn icmp(run: &mut Run) -> Compared {
    let size = run.rng.size(MAX_ICMP);
    let payload = run.rng.bytes(size);
    let (cl, sv, reply) = (run.rng.addr(), run.rng.addr(), run.rng.flip());
    let mut flow = ezpkt::icmp4::IcmpFlow::new(cl, sv, true);
    let (room, marks) = (run.room(28 + size), run.mark());
    let rust = expected((size, MAX_ICMP), 0, (room, 28 + size), || match reply {
        false => put(marks, flow.echo(&payload).to_vec()),
        true => put(marks, flow.echo_reply(&payload).to_vec()),
    });
    let (src, dst, echo) = match reply {
        false => (cl, sv, Echo::Request),
        true => (sv, cl, Echo::Reply),
    };
    let packet = IcmpPacket {
        src,
        dst,
        echo,
        seq: 0,
        marks,
    };
    run.writes_one("wb_build_icmp", room, rust, |out| {
        packet.build(&payload, out)
    })
}
