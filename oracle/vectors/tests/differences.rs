//! What the Rust does where docs/DIFFERENCES.md says that this library answers otherwise, each on the
//! smallest input that shows it.

use ezpkt::icmp4::IcmpFlow;
use ezpkt::ip4::{IpDgram, IpFrag};
use ezpkt::tcp4::TcpFlow;
use ezpkt::udp4::{UdpDgram, UdpFlow};
use pkt::Packet;
use pkt::ipv4::{ip_csum, ip_hdr};
use std::net::SocketAddrV4;
use std::panic::{AssertUnwindSafe, catch_unwind};
use vectors::pod::{Blob, header_at, part};

fn host(d: u8, port: u16) -> SocketAddrV4 {
    SocketAddrV4::new([10, 0, 0, d].into(), port)
}

fn udp_flow() -> UdpFlow {
    UdpFlow::new(host(1, 1), host(2, 2), true)
}

fn tcp_flow(cl_seq: u32, sv_seq: u32) -> TcpFlow {
    TcpFlow::new(host(1, 1), host(2, 2), cl_seq, sv_seq, true)
}

fn bytes(p: impl Into<Packet>) -> Vec<u8> {
    p.into().to_vec()
}

fn be16(b: &[u8], i: usize) -> u16 {
    u16::from_be_bytes([b[i], b[i + 1]])
}

fn cut(n: usize) -> IpFrag {
    IpFrag::new(ip_hdr::default(), vec![0; n])
}

/// Whether the IPv4 header's checksum verifies.
fn header_good(packet: &[u8]) -> bool {
    ip_csum(&packet[..20]) == 0
}

/// The words with which the call stopped.
fn stopped<T>(call: impl FnOnce() -> T) -> String {
    let panic = catch_unwind(AssertUnwindSafe(call)).err().expect("a stop");
    let text = panic.downcast_ref::<&str>().map(|s| s.to_string());
    text.or_else(|| panic.downcast_ref::<String>().cloned())
        .expect("words")
}

#[test]
fn total_length_wraps_for_pieces() {
    let whole = bytes(cut(65_516).datagram(true));
    assert_eq!((be16(&whole, 2), whole.len()), (0, 65_536));
    assert!(header_good(&whole));
}

#[test]
fn a_short_piece_of_a_payload_too_long_is_built() {
    let piece = bytes(cut(65_516).fragment(0, 1, true));
    assert_eq!((be16(&piece, 2), be16(&piece, 6)), (28, 0x2000));
    assert!(header_good(&piece));
}

#[test]
fn tail_loses_the_length_of_a_payload_too_long() {
    let piece = bytes(cut(65_536).tail(0, true));
    assert_eq!((be16(&piece, 2), be16(&piece, 6)), (20, 0x2000));
}

#[test]
fn total_length_wraps_for_udp() {
    let sent = bytes(udp_flow().client_dgram(&[0; 65_508]).csum());
    assert_eq!((be16(&sent, 2), be16(&sent, 24)), (0, 65_516));
    assert_eq!(sent.len(), 65_536);
    let sent = bytes(udp_flow().client_dgram(&[0; 65_528]).csum());
    assert_eq!(be16(&sent, 24), 0);
}

#[test]
fn udp_without_checksum_is_built() {
    let sent = bytes(udp_flow().client_dgram(&[]));
    assert_eq!((sent.len(), be16(&sent, 26)), (28, 0));
    assert!(header_good(&sent));
}

#[test]
fn total_length_wraps_for_icmp() {
    let mut flow = IcmpFlow::new([10, 0, 0, 1].into(), [10, 0, 0, 2].into(), true);
    let sent = bytes(flow.echo(&[0; 65_508]));
    assert_eq!((be16(&sent, 2), sent.len()), (0, 65_536));
    assert!(format!("{flow:?}").contains("ping_seq: 1,"));
}

#[test]
fn total_length_wraps_for_tcp() {
    let mut flow = tcp_flow(0, 0);
    let sent = flow.client_message(&[0; 65_496], false, 0)[0].to_vec();
    assert_eq!((be16(&sent, 2), sent.len()), (0, 65_536));
    assert_eq!(flow, tcp_flow(65_496, 0));
}

#[test]
fn a_longer_sum_is_made() {
    assert_eq!(ip_csum(&[0; 65_536]), 0xffff);
}

/// The sum has 32 bits. Built without checks for overflow, it rolls over, and the answer is wrong by
/// the carry that is lost.
#[test]
fn a_still_longer_sum_overflows() {
    let mut data = vec![0xff; 131_074];
    assert_eq!(ip_csum(&data), 0);
    data.push(1);
    match catch_unwind(|| ip_csum(&data)) {
        Ok(sum) => assert_eq!(sum, 0xff00),
        Err(_) => assert_eq!(stopped(|| ip_csum(&data)), "attempt to add with overflow"),
    }
}

#[test]
fn an_offset_too_large_runs_into_the_flags() {
    let field = |off| be16(&bytes(cut(0).fragment(off, 0, true)), 6);
    assert_eq!(field(8190), 0x1ffe);
    assert_eq!(field(8191), 0x1fff);
    assert_eq!(field(8192), 0x0000);
    assert_eq!(field(8193), 0x0001);
    assert_eq!(field(16_384), 0x4000);
    assert_eq!(field(32_768), 0x8000);
}

#[test]
fn a_piece_past_the_end_is_built() {
    let piece = bytes(cut(0).fragment(1, 0, true));
    assert_eq!((be16(&piece, 2), be16(&piece, 6)), (20, 0x0001));
}

#[test]
fn as_slice_wants_a_packet_as_long_as_its_headroom() {
    let words = stopped(|| Packet::new(1, 0).as_slice());
    assert_eq!(words, "assertion failed: self.len() >= self.headroom");
}

#[test]
fn the_whole_packet_comes_with_its_headroom() {
    let pkt = Packet::new(1, 0);
    assert!(pkt.to_vec().is_empty());
    assert_eq!(pkt.to_vec_from(part(1, 0)), [0]);
    assert_eq!(pkt.into_vec_from(part(1, 0)), [0]);
}

#[test]
fn lowering_by_more_than_the_headroom_stops() {
    let words = stopped(|| Packet::new(0, 0).lower_headroom::<Blob<1>>());
    assert_eq!(words, "assertion failed: sz <= self.headroom");
}

#[test]
fn returning_wrongly_stops() {
    let words = stopped(|| Packet::new(0, 0).return_headroom(header_at::<0>(1)));
    assert_eq!(words, "assertion failed: hdr.off() == self.headroom");
    let words = stopped(|| Packet::new(0, 0).return_headroom(header_at::<1>(0)));
    let text = "assertion failed: Hdr::<T>::size_of() <= self.len()";
    assert_eq!(words, text);
}

#[test]
fn a_part_outside_the_packet_stops() {
    let words = stopped(|| Packet::new(1, 0).to_vec_from(part(0, 0)));
    assert_eq!(words, "assertion failed: ps.off >= self.headroom");
    let words = stopped(|| Packet::new(0, 0).to_vec_from(part(0, 1)));
    let text = "range end index 1 out of range for slice of length 0";
    assert_eq!(words, text);
    let words = stopped(|| part(0, 1).get(&Packet::new(0, 0)).to_vec());
    assert_eq!(words, text);
}

#[test]
fn a_part_in_the_headroom_is_read_and_written() {
    let pkt = Packet::new(1, 0);
    part(0, 1).mutate(&pkt, |bytes| bytes[0] = 7);
    assert_eq!(part(0, 1).get(&pkt)[..], [7]);
}

#[test]
fn an_end_too_large_is_taken_and_shown_with_six_digits() {
    let pkt = Packet::new(1_048_576, 0);
    pkt.push_slice(1);
    let text = format!("{pkt:#?}");
    assert!(text.starts_with("1 byte packet:\n100000 | 00 "));
}

#[test]
fn a_headroom_too_large_is_taken() {
    let pkt = Packet::new(1_048_577, 0);
    assert_eq!((pkt.headroom(), pkt.len()), (1_048_577, 0));
}

#[test]
fn a_part_in_use_stops_a_push() {
    let pkt = Packet::new(0, 0);
    let held = part(0, 0).get(&pkt);
    let words = stopped(|| pkt.push_bytes([]));
    assert_eq!(words, "RefCell already borrowed");
    assert!(held.is_empty());
}

#[test]
fn plain_debug_form() {
    assert_eq!(format!("{:?}", Packet::new(0, 0)), "Packet<0 bytes>");
}

#[test]
fn the_first_byte_of_a_template_counts() {
    let hdr = ip_hdr {
        ihl_version: 0x46,
        ..Default::default()
    };
    let piece = bytes(IpFrag::new(hdr, vec![]).datagram(true));
    assert_eq!((piece[0], piece.len()), (0x46, 20));
    assert!(header_good(&piece));
}

#[test]
fn a_datagram_without_frag_keeps_the_templates_checksum() {
    let bare = bytes(IpDgram::new(ip_hdr::default(), &[], true));
    assert_eq!(be16(&bare, 10), 0);
    assert!(!header_good(&bare));
}

#[test]
fn two_fragment_fields_are_joined() {
    let sent = bytes(udp_flow().client_dgram(&[]).frag_off(0x2000).frag_off(1));
    assert_eq!(be16(&sent, 6), 0x2001);
}

#[test]
fn choices_in_another_order_spoil_the_checksum() {
    let source = [10, 0, 0, 3].into();
    let asked = bytes(udp_flow().client_dgram(&[]).srcip(source).csum());
    let other = bytes(udp_flow().client_dgram(&[]).csum().srcip(source));
    assert_eq!(be16(&asked, 26) + 2, be16(&other, 26));
    let late = bytes(udp_flow().client_dgram(&[]).csum().push([1]));
    let asked = bytes(udp_flow().client_dgram(&[1]).csum());
    assert_ne!(be16(&late, 26), be16(&asked, 26));
}

#[test]
fn a_datagram_without_payload_call_has_an_old_header_checksum() {
    let bare = bytes(UdpDgram::raw().src(host(1, 1)).dst(host(2, 2)));
    assert!(!header_good(&bare));
    let pushed = bytes(UdpDgram::raw().src(host(1, 1)).dst(host(2, 2)).push([]));
    assert!(header_good(&pushed));
}

#[test]
fn a_payload_may_come_in_parts() {
    let parts = bytes(udp_flow().client_dgram(&[1]).push([2]));
    assert_eq!(parts, bytes(udp_flow().client_dgram(&[1, 2])));
}

/// RFC 791 has DF and MF exclude each other and the reserved bit zero; the Rust takes both as given.
#[test]
fn flags_of_a_template_stay() {
    for (df, evil, field) in [(true, false, 0x6000), (false, true, 0xa000)] {
        let mut hdr = ip_hdr::default();
        hdr.set_df(df).set_evil(evil);
        let piece = bytes(IpFrag::new(hdr, vec![0]).fragment(0, 0, true));
        assert_eq!(be16(&piece, 6), field);
    }
}

#[test]
fn packets_of_flows_are_dumped_behind_their_headroom() {
    let mut flow = IcmpFlow::new([10, 0, 0, 1].into(), [10, 0, 0, 2].into(), true);
    let text = format!("{:#?}", flow.echo(&[]));
    assert!(text.starts_with("28 byte packet:\n00010 | 45 "));
    assert_eq!(Packet::default().headroom(), 16);
    assert_eq!(Packet::with_capacity(0).headroom(), 16);
}
