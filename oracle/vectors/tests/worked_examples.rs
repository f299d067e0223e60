//! Document 01's worked examples and the rules that can be tried on the Rust, so that the paper and
//! the Rust are known to agree.

use ezpkt::icmp4::IcmpFlow;
use ezpkt::ip4::IpFrag;
use ezpkt::tcp4::TcpFlow;
use ezpkt::udp4::UdpFlow;
use pkt::Packet;
use pkt::ipv4::{TCP_RST, ip_csum, ip_hdr};
use std::net::SocketAddrV4;

fn host(d: u8, port: u16) -> SocketAddrV4 {
    SocketAddrV4::new([10, 0, 0, d].into(), port)
}

fn be16(b: &[u8], i: usize) -> u16 {
    u16::from_be_bytes([b[i], b[i + 1]])
}

fn be32(b: &[u8], i: usize) -> u32 {
    u32::from_be_bytes([b[i], b[i + 1], b[i + 2], b[i + 3]])
}

fn tcp_flow(cl_seq: u32, sv_seq: u32) -> TcpFlow {
    TcpFlow::new(host(1, 40_000), host(2, 80), cl_seq, sv_seq, true)
}

/// A payload of n bytes under the default header.
fn cut(n: u8) -> IpFrag {
    IpFrag::new(ip_hdr::default(), (0..n).collect())
}

#[test]
fn checksums() {
    assert_eq!(ip_csum(&[]), 0xffff);
    assert_eq!(ip_csum(&[0x01]), 0xfeff);
    assert_eq!(ip_csum(&[0xff, 0xff]), 0x0000);
}

#[test]
fn syn() {
    let syn = tcp_flow(1000, 5000).open()[0].to_vec();
    assert_eq!(syn.len(), 40);
    assert_eq!(be16(&syn, 10), 0x66ce);
    assert_eq!(be16(&syn, 36), 0xfb67);
}

#[test]
fn udp_checksum_of_zero() {
    let mut flow = UdpFlow::new(host(1, 1), host(2, 2), true);
    let sent: Packet = flow.client_dgram(&[0xeb, 0xd4]).csum().into();
    assert_eq!(be16(&sent.to_vec(), 26), 0xffff);
}

#[test]
fn open() {
    let packets = tcp_flow(1000, 5000).open();
    let numbers: Vec<_> = packets
        .iter()
        .map(|p| (be32(&p.to_vec(), 24), be32(&p.to_vec(), 28)))
        .collect();
    assert_eq!(numbers, [(1000, 0), (5000, 1001), (1001, 5001)]);
}

#[test]
fn roll_over() {
    let mut flow = tcp_flow(4_294_967_294, 0);
    flow.client_message(b"abcd", false, 0);
    assert_eq!(flow, tcp_flow(2, 0));
}

#[test]
fn pieces_of_twenty_bytes() {
    let requests = [
        ((0, 1), 0x2000, 8),
        ((2, 1), 0x0002, 4),
        ((2, 0), 0x2002, 0),
        ((3, 1), 0x0003, 0),
    ];
    for ((off, len), field, data) in requests {
        let piece = cut(20).fragment(off, len, true).to_vec();
        assert_eq!((be16(&piece, 6), piece.len()), (field, 20 + data));
    }
}

#[test]
fn piece_of_nothing() {
    let piece = cut(0).fragment(0, 0, true).to_vec();
    assert_eq!((be16(&piece, 6), piece.len()), (0, 20));
}

#[test]
fn longest_tcp_payload() {
    let sent = tcp_flow(0, 0).client_message(&[0; 65_495], false, 0)[0].to_vec();
    assert_eq!((be16(&sent, 2), sent.len()), (65_535, 65_535));
}

/// The bytes of document 01's capture behind its 24 and 16 bytes of headers.
#[test]
fn packet_of_the_capture() {
    let mut flow = IcmpFlow::new([10, 0, 0, 1].into(), [10, 0, 0, 2].into(), true);
    let expected = [
        0x45, 0x00, 0x00, 0x20, 0x00, 0x00, 0x00, 0x00, 0x40, 0x01, 0x66, 0xdb, 0x0a, 0x00, 0x00,
        0x01, 0x0a, 0x00, 0x00, 0x02, 0x08, 0x00, 0x09, 0x49, 0x12, 0x34, 0x00, 0x00, 0x6c, 0x61,
        0x70, 0x21,
    ];
    assert_eq!(flow.echo(b"lap!").to_vec(), expected);
}

/// "carries bytes min(8·off, n) up to, not including, min(8·off + 8·len, n). MF is set exactly if
/// that end is not n", for every small payload and request.
#[test]
fn pieces_by_the_sentence() {
    for n in 0..=40_usize {
        for (off, len) in (0..8).flat_map(|off| (0..8).map(move |len| (off, len))) {
            let piece = cut(n as u8).fragment(off as u16, len as u16, true).to_vec();
            let (start, end) = ((8 * off).min(n), (8 * off + 8 * len).min(n));
            let more = if end == n { 0 } else { 0x2000 };
            assert_eq!(be16(&piece, 6), more + off as u16);
            assert_eq!(usize::from(be16(&piece, 2)), 20 + end - start);
            assert!(piece[20..].iter().copied().eq(start as u8..end as u8));
        }
    }
}

/// "A side's number equals its start plus its payload bytes, SYNs, FINs, holes and the dlen of its
/// header-only calls."
#[test]
fn sequence_by_the_sentence() {
    let mut flow = tcp_flow(u32::MAX - 3, 100);
    flow.open();
    flow.client_message(&[0; 5], true, 0);
    flow.server_data_segment(&[0; 6]);
    flow.client_hole(7);
    flow.server_hdr(8, 0);
    flow.client_ack();
    flow.server_reset();
    flow.client_close();
    assert_eq!(flow, tcp_flow(1 + 5 + 7 + 1 - 4, 100 + 1 + 6 + 8 + 1));
}

/// "`frag_off` is the whole 16-bit field", and an acknowledgment behind a message has none.
#[test]
fn fragment_fields_are_taken_whole() {
    let (mut udp, mut tcp) = (UdpFlow::new(host(1, 1), host(2, 2), true), tcp_flow(0, 0));
    for field in 0..=u16::MAX {
        let sent: Packet = udp.server_dgram(&[]).frag_off(field).into();
        assert_eq!(be16(&sent.to_vec(), 6), field);
        let sent = tcp.client_message(&[1], true, field);
        assert_eq!(be16(&sent[0].to_vec(), 6), field);
        assert_eq!(be16(&sent[1].to_vec(), 6), 0);
    }
}

#[test]
fn a_reset_is_a_reset_alone() {
    let sent = tcp_flow(7, 9).server_reset().to_vec();
    assert_eq!((be32(&sent, 24), be32(&sent, 28)), (9, 0));
    assert_eq!((sent[32], sent[33]), (0x50, TCP_RST));
}

/// Document 01's rule for a dump of a packet that begins at `headroom`.
fn dump_by_the_sentence(headroom: usize, bytes: &[u8]) -> String {
    let mut text = format!("{} byte packet:\n", bytes.len());
    for (i, line) in bytes.chunks(16).enumerate() {
        text += &format!("{:05x} |", headroom + 16 * i);
        text += &line.iter().map(|b| format!(" {b:02x}")).collect::<String>();
        text += &"   ".repeat(16 - line.len());
        text += " ";
        let shown = |b: &u8| match b {
            0x21..=0x7e => char::from(*b),
            _ => '.',
        };
        text.extend(line.iter().map(shown));
        text += "\n";
    }
    text
}

#[test]
fn dumps_and_bit_times_by_the_sentence() {
    for headroom in [0, 1, 16, 70_000] {
        for n in (0..=300).chain([4096]) {
            let bytes: Vec<u8> = (0..n).map(|i: usize| i as u8).collect();
            let pkt = Packet::new(headroom, 0);
            pkt.push_bytes(&bytes);
            let text = format!("{pkt:#?}");
            assert_eq!(text, dump_by_the_sentence(headroom, &bytes));
            let last = n - n / 16 * 16;
            let lines = n / 16 * 73 + if last > 0 { 57 + last } else { 0 };
            assert_eq!(text.len(), format!("{n} byte packet:\n").len() + lines);
            assert_eq!(pkt.bit_time(), (n as u64 + 24) * 8);
        }
    }
}

/// What a flow builds begins behind 16 bytes of headroom, which its dump counts.
#[test]
fn packets_of_flows_have_sixteen_bytes_of_headroom() {
    let mut flow = IcmpFlow::new([10, 0, 0, 1].into(), [10, 0, 0, 2].into(), true);
    let echo = flow.echo(b"lap!");
    assert_eq!(echo.headroom(), 16);
    assert_eq!(
        format!("{echo:#?}"),
        dump_by_the_sentence(16, &echo.to_vec())
    );
    assert_eq!(tcp_flow(0, 0).client_reset().headroom(), 16);
    assert_eq!(cut(3).datagram(true).headroom(), 16);
    let mut flow = UdpFlow::new(host(1, 1), host(2, 2), true);
    assert_eq!(Packet::from(flow.client_dgram(&[])).headroom(), 16);
}

/// The calls that give the transport part give the packet from byte 20 on.
#[test]
fn transport_parts() {
    let mut flow = UdpFlow::new(host(1, 1), host(2, 2), true);
    let whole = Packet::from(flow.client_dgram(b"lap!").csum()).to_vec();
    let part = flow.client_dgram(b"lap!").csum();
    assert_eq!(part.udp_hdr_bytes()[..], whole[20..28]);
    assert_eq!(part.udp_dgram_bytes()[..], whole[20..]);
    assert_eq!(part.into_udp_dgram(), whole[20..]);
    let whole = Packet::from(tcp_flow(1, 2).client_data_segment(b"lap!")).to_vec();
    let part = tcp_flow(1, 2).client_data_segment(b"lap!");
    assert_eq!(part.tcp_hdr_bytes()[..], whole[20..40]);
    assert_eq!(part.tcp_segment_bytes()[..], whole[20..]);
    assert_eq!(part.into_tcpseg(), whole[20..]);
}
