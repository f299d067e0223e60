//! Datagrams of a UDP flow. Those without checksum are the Rust's alone: this library refuses them.

use crate::MAX_UDP;
use crate::digest::Fnv;
use crate::file::{Case, File, Kind};
use crate::payload::Payload;
use crate::rng::Rng;
use ezpkt::udp4::UdpFlow;
use pkt::Packet;
use std::net::{Ipv4Addr, SocketAddrV4};

/// The choices beside the payload, in the order in which they apply.
#[derive(Copy, Clone, Default)]
struct Choices {
    srcip: Option<Ipv4Addr>,
    frag_off: Option<u16>,
    csum: bool,
}

impl Choices {
    /// Bit 0 asks for a source, bit 1 for a fragment field, bit 2 for a checksum.
    fn draw(rng: &mut Rng, bits: u8) -> Self {
        Self {
            srcip: (bits & 1 != 0).then(|| rng.addr()),
            frag_off: (bits & 2 != 0).then(|| rng.u16()),
            csum: bits & 4 != 0,
        }
    }

    fn bits(&self) -> u8 {
        u8::from(self.srcip.is_some())
            + 2 * u8::from(self.frag_off.is_some())
            + 4 * u8::from(self.csum)
    }
}

#[derive(Copy, Clone)]
struct Ends {
    cl: SocketAddrV4,
    sv: SocketAddrV4,
}

impl Ends {
    fn draw(rng: &mut Rng) -> Self {
        Self {
            cl: rng.socket(),
            sv: rng.socket(),
        }
    }
}

fn built(ends: Ends, server: bool, payload: &Payload, choices: Choices) -> Vec<u8> {
    assert!(payload.len() <= MAX_UDP);
    let mut flow = UdpFlow::new(ends.cl, ends.sv, true);
    let mut dgram = if server {
        flow.server_dgram(payload.bytes())
    } else {
        flow.client_dgram(payload.bytes())
    };
    if let Some(src) = choices.srcip {
        dgram = dgram.srcip(src);
    }
    if let Some(field) = choices.frag_off {
        dgram = dgram.frag_off(field);
    }
    if choices.csum {
        dgram = dgram.csum();
    }
    Packet::from(dgram).to_vec()
}

/// The inputs of a datagram but for the fragment field.
fn inputs(kinds: [Kind; 2], ends: Ends, server: bool, payload: &Payload, choices: Choices) -> Case {
    let case = Case::new(kinds[usize::from(server)]);
    let case = case.socket(ends.cl).socket(ends.sv).payload(payload);
    let srcip = choices.srcip.unwrap_or(Ipv4Addr::UNSPECIFIED);
    case.u8(choices.bits()).addr(srcip)
}

fn dgram(file: &mut File, ends: Ends, server: bool, payload: &Payload, choices: Choices) {
    let got = built(ends, server, payload, choices);
    let kinds = [Kind::ClientDgram, Kind::ServerDgram];
    let case = inputs(kinds, ends, server, payload, choices);
    file.add(case.u16(choices.frag_off.unwrap_or(0)).answer(&got));
}

const SIZES: [usize; 20] = [
    0, 1, 2, 3, 4, 7, 8, 9, 31, 32, 63, 64, 255, 256, 1472, 1473, 3479, 3480, 65_506, 65_507,
];

fn combinations(file: &mut File, rng: &mut Rng) {
    for n in SIZES {
        for bits in 0..8 {
            for server in [false, true] {
                let (ends, payload) = (Ends::draw(rng), rng.payload(n));
                dgram(file, ends, server, &payload, Choices::draw(rng, bits));
            }
        }
    }
}

/// A computed checksum of 0 is sent as ffff: two payload bytes that make up for the rest.
fn checksum_zero(file: &mut File, rng: &mut Rng) {
    for bits in [4, 5, 6, 7] {
        for server in [false, true] {
            let (ends, choices) = (Ends::draw(rng), Choices::draw(rng, bits));
            let bare = built(ends, server, &Payload::given(vec![0, 0]), choices);
            let payload = Payload::given(bare[26..28].to_vec());
            let got = built(ends, server, &payload, choices);
            assert_eq!(got[26..28], [0xff, 0xff]);
            dgram(file, ends, server, &payload, choices);
        }
    }
}

/// All 65,536 fragment fields, one packet with a checksum behind the other.
fn every_frag_off(file: &mut File, rng: &mut Rng, server: bool, n: usize) {
    let (ends, payload) = (Ends::draw(rng), rng.payload(n));
    let (mut total, mut digest) = (0, Fnv::new());
    let mut choices = Choices {
        csum: true,
        ..Choices::default()
    };
    for field in 0..=u16::MAX {
        choices.frag_off = Some(field);
        let got = built(ends, server, &payload, choices);
        total += got.len();
        digest.add(&got);
    }
    let kinds = [Kind::ClientDgramEveryFragOff, Kind::ServerDgramEveryFragOff];
    let case = inputs(kinds, ends, server, &payload, choices);
    file.add(case.size(total).u32(digest.value()));
}

fn anything(file: &mut File, rng: &mut Rng) {
    for _ in 0..600 {
        let most = rng.pick(&[40, 2000, MAX_UDP]);
        let (ends, server, payload) = (Ends::draw(rng), rng.flip(), rng.short(most));
        let bits = rng.u8() % 8;
        dgram(file, ends, server, &payload, Choices::draw(rng, bits));
    }
}

pub fn write(file: &mut File, rng: &mut Rng) {
    combinations(file, rng);
    checksum_zero(file, rng);
    every_frag_off(file, rng, false, 9);
    every_frag_off(file, rng, true, 4);
    anything(file, rng);
}
