//! Pieces of a payload under a template: `fragment`, `tail` and `datagram`.

use crate::MAX_IPV4;
use crate::file::{Case, File, Kind};
use crate::payload::Payload;
use crate::rng::Rng;
use ezpkt::ip4::IpFrag;
use pkt::ipv4::{flags, ip_hdr};
use std::collections::BTreeSet;

#[derive(Copy, Clone)]
struct Template {
    hdr: ip_hdr,
}

impl Template {
    /// Fields that count, drawn at random, with the DF and reserved bits given.
    fn draw(rng: &mut Rng, df: bool, evil: bool) -> Self {
        let mut hdr = ip_hdr {
            tos: rng.u8(),
            ..Default::default()
        };
        hdr.set_id(rng.u16()).set_ttl(rng.u8());
        hdr.set_protocol(rng.pick(&[1, 6, 17, 0, 47, 255]));
        hdr.set_saddr(rng.addr()).set_daddr(rng.addr());
        hdr.set_df(df).set_evil(evil);
        Self { hdr }.stirred(rng)
    }

    /// The same template with MF, offset, total length and checksum drawn anew; none of them counts.
    fn stirred(mut self, rng: &mut Rng) -> Self {
        let offset = rng.u16() & 0x1fff;
        let kept = u16::from_be(self.hdr.frag_off) & (flags::EVIL | flags::DF);
        self.hdr.frag_off = (kept | offset).to_be();
        self.hdr.set_mf(rng.flip()).set_tot_len(rng.u16());
        self.hdr.set_csum(rng.u16());
        self
    }

    fn any(rng: &mut Rng) -> Self {
        let (df, evil) = (rng.flip(), rng.flip());
        Self::draw(rng, df, evil)
    }

    /// What counts: TOS, id, the two flags, TTL, protocol, source, destination.
    fn on(&self, case: Case) -> Case {
        let h = &self.hdr;
        let flags = u8::from(h.get_df()) + 2 * u8::from(h.get_evil());
        let case = case.u8(h.get_tos()).u16(h.get_id()).u8(flags);
        let case = case.u8(h.get_ttl()).u8(h.get_protocol());
        case.addr(h.get_saddr()).addr(h.get_daddr())
    }
}

fn opened(template: Template, payload: &Payload) -> IpFrag {
    assert!(payload.len() <= MAX_IPV4);
    IpFrag::new(template.hdr, payload.bytes().to_vec())
}

fn fragment(file: &mut File, template: Template, payload: &Payload, off: u16, len: u16) {
    assert!(off <= 8191);
    let got = opened(template, payload).fragment(off, len, true).to_vec();
    let case = template.on(Case::new(Kind::Fragment)).payload(payload);
    file.add(case.u16(off).u16(len).answer(&got));
}

fn tail(file: &mut File, template: Template, payload: &Payload, off: u16) {
    assert!(off <= 8191);
    let got = opened(template, payload).tail(off, true).to_vec();
    let case = template.on(Case::new(Kind::Tail)).payload(payload);
    file.add(case.u16(off).answer(&got));
}

fn datagram(file: &mut File, template: Template, payload: &Payload) {
    let got = opened(template, payload).datagram(true).to_vec();
    let case = template.on(Case::new(Kind::Datagram)).payload(payload);
    file.add(case.answer(&got));
}

const SIZES: [usize; 24] = [
    0, 1, 2, 7, 8, 9, 15, 16, 17, 20, 24, 63, 64, 65, 255, 1479, 1480, 3488, 8191, 32_768, 65_507,
    65_512, 65_514, 65_515,
];

/// Offsets at the start, around the end of a payload of n bytes, and at the last of all.
fn offsets(n: usize) -> BTreeSet<u16> {
    let around = (n / 8) as u16;
    let near = (0..4).map(|i| (around + i).saturating_sub(1));
    near.chain([0, 1, 8190, 8191])
        .map(|off| off.min(8191))
        .collect()
}

/// Lengths that end before, at and behind the end of a payload of n bytes, and the longest of all.
fn lengths(n: usize, off: u16) -> BTreeSet<u16> {
    let rest = n.div_ceil(8).saturating_sub(usize::from(off)) as u16;
    let near = (0..3).map(|i| (rest + i).saturating_sub(1));
    near.chain([0, 1, 65_535]).collect()
}

fn requests(file: &mut File, rng: &mut Rng) {
    for n in SIZES {
        let payload = rng.payload(n);
        for off in offsets(n) {
            let template = Template::any(rng);
            tail(file, template, &payload, off);
            for len in lengths(n, off) {
                fragment(file, template.stirred(rng), &payload, off, len);
            }
        }
        datagram(file, Template::any(rng), &payload);
    }
}

/// Every setting of DF and the reserved bit, each with several payloads and requests.
fn flag_settings(file: &mut File, rng: &mut Rng) {
    for bits in 0..4 {
        for n in [0, 1, 8, 20, 21, 40, MAX_IPV4 - 1, MAX_IPV4] {
            let template = Template::draw(rng, bits & 1 != 0, bits & 2 != 0);
            let payload = rng.payload(n);
            datagram(file, template, &payload);
            tail(file, template, &payload, 1);
            for (off, len) in [(0, 1), (2, 1), (2, 0), (3, 1), (0, 0)] {
                fragment(file, template, &payload, off, len);
            }
        }
    }
}

fn anything(file: &mut File, rng: &mut Rng) {
    for _ in 0..600 {
        let n = rng.pick(&[100, 4000, MAX_IPV4]);
        let n = rng.below(n + 1);
        let (payload, template) = (rng.payload(n), Template::any(rng));
        let off = rng.below((n / 8 + 3).min(8192)) as u16;
        let len = rng.below(n / 8 + 3) as u16;
        fragment(file, template, &payload, off, len);
    }
}

/// A datagram whose header checksum comes out as 0, by an identification that makes up for the rest.
fn checksum_zero(file: &mut File, rng: &mut Rng) {
    for n in [0, 1, 30] {
        let (mut template, payload) = (Template::any(rng), rng.payload(n));
        template.hdr.set_id(0);
        let bare = opened(template, &payload).datagram(true).to_vec();
        template
            .hdr
            .set_id(u16::from_be_bytes([bare[10], bare[11]]));
        let got = opened(template, &payload).datagram(true).to_vec();
        assert_eq!(got[10..12], [0, 0]);
        datagram(file, template, &payload);
    }
}

pub fn write(file: &mut File, rng: &mut Rng) {
    requests(file, rng);
    flag_settings(file, rng);
    anything(file, rng);
    checksum_zero(file, rng);
}
