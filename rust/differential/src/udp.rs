//! UDP datagrams, as a flow's and as a request, beside the Rust's flow. One without checksum, which
//! the Rust builds, must be refused by 22.

use crate::marks::put;
use crate::run::{Compared, Run, expected};
use pkt::Packet;
use std::net::SocketAddrV4;
use vectors::MAX_UDP;
use wispbundle::{Choices, Marks, Refusal, UdpDatagram, UdpFlow};

/// The datagram with its checksum.
fn rust_dgram(flow: &UdpFlow, server: bool, payload: &[u8], choices: Choices) -> Vec<u8> {
    let mut rust = ezpkt::udp4::UdpFlow::new(flow.cl, flow.sv, true);
    let mut dgram = match server {
        false => rust.client_dgram(payload),
        true => rust.server_dgram(payload),
    };
    if let Some(src) = choices.srcip {
        dgram = dgram.srcip(src);
    }
    dgram = dgram.frag_off(choices.frag_off).csum();
    put(flow.marks, Packet::from(dgram).to_vec())
}

/// The request for the same datagram.
fn request(flow: &UdpFlow, server: bool, choices: Choices) -> UdpDatagram {
    let (src, dst) = match server {
        false => (flow.cl, flow.sv),
        true => (flow.sv, flow.cl),
    };
    let ip = choices.srcip.unwrap_or(*src.ip());
    UdpDatagram {
        src: SocketAddrV4::new(ip, src.port()),
        dst,
        frag_off: choices.frag_off,
        csum: choices.csum,
        marks: flow.marks,
    }
}

/// A flow, which is new or marked.
fn draw(run: &mut Run) -> Result<UdpFlow, String> {
    let (cl, sv, marks) = (run.rng.socket(), run.rng.socket(), Marks::default());
    let new = UdpFlow::new(cl, sv);
    run.same("wb_udp_new", Ok(new), Ok(UdpFlow { cl, sv, marks }))?;
    if run.rng.once_in(4) {
        return Ok(new);
    }
    let marks = run.mark();
    let flow = new.marked(marks);
    run.same("wb_udp_marked", Ok(flow), Ok(UdpFlow { cl, sv, marks }))?;
    Ok(flow)
}

pub fn compare(run: &mut Run) -> Compared {
    let size = run.rng.size(MAX_UDP);
    let mut payload = run.rng.bytes(size);
    let (flow, server) = (draw(run)?, run.rng.flip());
    let choices = Choices {
        srcip: run.rng.flip().then_some(run.rng.addr()),
        frag_off: if run.rng.flip() { run.rng.u16() } else { 0 },
        csum: !run.rng.once_in(4),
    };
    if (2..=MAX_UDP).contains(&size) && choices.csum && run.rng.once_in(8) {
        payload[..2].fill(0);
        let bare = rust_dgram(&flow, server, &payload, choices);
        payload[..2].copy_from_slice(&bare[26..28]);
    }
    let room = run.room(28 + size);
    let rust = match choices.csum {
        true => expected((size, MAX_UDP), 0, (room, 28 + size), || {
            rust_dgram(&flow, server, &payload, choices)
        }),
        false => Err(Refusal::NoChecksum),
    };
    if run.rng.flip() {
        let request = request(&flow, server, choices);
        return run.writes_one("wb_build_udp", room, rust, |out| {
            request.build(&payload, out)
        });
    }
    match server {
        false => run.writes_one("wb_udp_client_dgram", room, rust, |out| {
            flow.client_dgram(&payload, choices, out)
        }),
        true => run.writes_one("wb_udp_server_dgram", room, rust, |out| {
            flow.server_dgram(&payload, choices, out)
        }),
    }
}
