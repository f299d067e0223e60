//! The finished checksum, and the headers as bytes.

use crate::file::{Case, File, Kind};
use crate::payload::Payload;
use crate::rng::Rng;
use pkt::Packet;
use pkt::ipv4::{icmp_echo_hdr, icmp_hdr, ip_csum, ip_hdr, tcp_hdr, udp_hdr};

fn csum(file: &mut File, data: Payload) {
    assert!(data.len() <= 65_535);
    let sum = ip_csum(data.bytes());
    file.add(Case::new(Kind::IpCsum).payload(&data).u16(sum));
}

fn csums(file: &mut File, rng: &mut Rng) {
    for len in 0..=40 {
        csum(file, Payload::rule(rng.u8(), len));
        csum(file, Payload::fill(0xff, len));
        csum(file, Payload::fill(0x00, len));
        csum(file, Payload::given((0..len).map(|_| rng.u8()).collect()));
    }
    for len in 65_526..=65_535 {
        csum(file, Payload::fill(0xff, len));
        csum(file, Payload::rule(rng.u8(), len));
    }
    for _ in 0..150 {
        let len = rng.below(65_536);
        csum(file, rng.payload(len));
    }
    csums_folding_twice(file);
}

/// Words whose sum folds to 0x10000 or to 0xffff, so that the second fold and the complement count.
fn csums_folding_twice(file: &mut File) {
    for words in [[0xffff_u16, 1, 0], [0xffff, 0xffff, 1], [0x8000, 0x7fff, 0]] {
        let bytes = words.iter().flat_map(|w| w.to_be_bytes()).collect();
        csum(file, Payload::given(bytes));
    }
}

fn ip_header(file: &mut File, rng: &mut Rng, field: u16) {
    let (tos, tot_len, id, ttl) = (rng.u8(), rng.u16(), rng.u16(), rng.u8());
    let (protocol, src, dst) = (rng.u8(), rng.addr(), rng.addr());
    let mut h = ip_hdr {
        tos,
        ..Default::default()
    };
    h.set_tot_len(tot_len).set_id(id).set_frag_off(field);
    h.set_ttl(ttl).set_protocol(protocol);
    h.set_saddr(src).set_daddr(dst).calc_csum();
    let pkt = Packet::default();
    pkt.push(h);
    let case = Case::new(Kind::IpHdr).u8(tos).u16(tot_len).u16(id);
    let case = case.u16(field).u8(ttl).u8(protocol).addr(src).addr(dst);
    file.add(case.bytes(&pkt.to_vec()));
}

/// Bits of the flags that the setters reach, from the lowest: FIN, SYN, RST, PSH, ACK.
fn tcp_header(file: &mut File, rng: &mut Rng, flags: u8) {
    let (sport, dport, seq, csum) = (rng.u16(), rng.u16(), rng.u32(), rng.u16());
    let ack = if flags & 16 != 0 { rng.u32() } else { 0 };
    let mut h = tcp_hdr::new(sport, dport);
    h.set_seq(seq).set_csum(csum);
    for bit in 0..5 {
        match flags & (1 << bit) {
            1 => h.set_fin(),
            2 => h.set_syn(),
            4 => h.set_rst(),
            8 => h.set_push(),
            16 => h.set_ack(ack),
            _ => &mut h,
        };
    }
    let pkt = Packet::default();
    pkt.push(h);
    let case = Case::new(Kind::TcpHdr).u16(sport).u16(dport).u32(seq);
    file.add(case.u32(ack).u8(flags).u16(csum).bytes(&pkt.to_vec()));
}

fn udp_header(file: &mut File, rng: &mut Rng) {
    let (sport, dport, len, csum) = (rng.u16(), rng.u16(), rng.u16(), rng.u16());
    let mut h = udp_hdr::default();
    h.set_sport(sport).set_dport(dport);
    h.set_len(len).set_csum(csum);
    let pkt = Packet::default();
    pkt.push(h);
    let case = Case::new(Kind::UdpHdr).u16(sport).u16(dport);
    file.add(case.u16(len).u16(csum).bytes(&pkt.to_vec()));
}

fn icmp_header(file: &mut File, rng: &mut Rng, typ: u8) {
    let (code, csum, id, seq) = (0, rng.u16(), 0x1234, rng.u16());
    let pkt = Packet::default();
    let icmp = pkt.push_hdr::<icmp_hdr>();
    let echo = pkt.push_hdr::<icmp_echo_hdr>();
    icmp.mutate(&pkt, |h| {
        h.set_typ(typ).set_code(code).set_csum(csum);
    });
    echo.mutate(&pkt, |h| {
        h.set_id(id).set_seq(seq);
    });
    let case = Case::new(Kind::IcmpHdr).u8(typ).u8(code).u16(csum);
    file.add(case.u16(id).u16(seq).bytes(&pkt.to_vec()));
}

pub fn write(file: &mut File, rng: &mut Rng) {
    csums(file, rng);
    for _ in 0..12 {
        for flags in 0..8 {
            let field = flags << 13 | rng.u16() & 0x1fff;
            ip_header(file, rng, field);
        }
        for flags in 0..32 {
            tcp_header(file, rng, flags);
        }
        for typ in [0, 8, 0, 8] {
            icmp_header(file, rng, typ);
            udp_header(file, rng);
        }
    }
}
