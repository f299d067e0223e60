//! The check of a finished packet: each refusal, and their order.

mod common;
use common::*;
use wispbundle::{Choices, Good, IcmpFlow, Refusal, TcpFlow, UdpFlow, check};

fn udp() -> Vec<u8> {
    let choices = Choices {
        csum: true,
        ..Choices::default()
    };
    written(|out| UdpFlow::new(CL, SV).client_dgram(b"lap!", choices, out))
}

fn tcp() -> Vec<u8> {
    written(|out| TcpFlow::new(CL, SV, 1, 2).client_data_segment(b"lap!", out))
}

#[test]
fn good_packets() {
    let echo = written(|out| IcmpFlow::new(CLIENT, SERVER).echo(b"odd", out));
    for packet in [echo, tcp(), udp()] {
        assert_eq!(check(&packet), Ok(Good::Checked));
    }
}

/// No such datagram is built here; captures have them.
#[test]
fn a_field_of_0_is_good_without_checksum() {
    let bare = changed(udp(), &[(26, 0), (27, 0)]);
    assert_eq!(check(&bare), Ok(Good::WithoutChecksum));
}

#[test]
fn bytes_behind_the_packet_do_not_count() {
    let mut packet = udp();
    packet.extend([0xff; 9]);
    assert_eq!(check(&packet), Ok(Good::Checked));
}

#[test]
fn missing_bytes_a_bad_header_and_pieces() {
    let packet = udp();
    assert_eq!(check(&[]), Err(Refusal::Short));
    assert_eq!(check(&packet[..19]), Err(Refusal::Short));
    assert_eq!(check(&packet[..31]), Err(Refusal::Short));
    let mut bad = packet.clone();
    bad[10] ^= 1;
    assert_eq!(check(&bad), Err(Refusal::BadHeader));
    bad[6] |= 0x80;
    assert_eq!(check(&bad), Err(Refusal::BadHeader));
    for (low, more) in [(0, 0), (1, 0), (0, 0x20)] {
        let reserved = changed(packet.clone(), &[(6, 0x80 + more), (7, low)]);
        assert_eq!(check(&reserved), Err(Refusal::Reserved));
    }
    for field in [0x2000_u16, 1, 0x1fff] {
        let [high, low] = field.to_be_bytes();
        let piece = changed(packet.clone(), &[(6, high), (7, low)]);
        assert_eq!(check(&piece), Err(Refusal::Piece));
    }
}

#[test]
fn one_changed_byte() {
    for (packet, change, why) in [
        (udp(), (0, 0x44), Refusal::NotIpv4),
        (udp(), (0, 0x55), Refusal::NotIpv4),
        (udp(), (3, 19), Refusal::BadTotal),
        (udp(), (9, 2), Refusal::OtherProtocol),
        (udp(), (3, 27), Refusal::Cut),
        (udp(), (25, 13), Refusal::Cut),
        (tcp(), (32, 0x60), Refusal::Cut),
        (tcp(), (3, 39), Refusal::Cut),
        (udp(), (31, 0), Refusal::BadSum),
        (tcp(), (43, 0), Refusal::BadSum),
    ] {
        assert_eq!(check(&changed(packet, &[change])), Err(why), "{change:?}");
    }
}

#[test]
fn options_are_summed_and_passed_over() {
    let echo = written(|out| IcmpFlow::new(CLIENT, SERVER).echo(b"odd", out));
    for packet in [echo, tcp(), udp()] {
        let alert = with_options(&packet, &ROUTER_ALERT, &[]);
        assert_eq!(alert[20..24], ROUTER_ALERT);
        assert_eq!(check(&alert), Ok(Good::Checked));
        for words in 1..=10 {
            let any = counted(4 * words);
            let mut longer = with_options(&packet, &any, &[]);
            assert_eq!(usize::from(longer[0]), 0x45 + words);
            assert_eq!(check(&longer), Ok(Good::Checked));
            *longer.last_mut().unwrap() ^= 1;
            assert_eq!(check(&longer), Err(Refusal::BadSum));
        }
    }
    let bare = with_options(&udp(), &ROUTER_ALERT, &[(30, 0), (31, 0)]);
    assert_eq!(check(&bare), Ok(Good::WithoutChecksum));
}

#[test]
fn headers_with_options_that_are_refused() {
    for (change, why) in [
        ((0, 0x44), Refusal::NotIpv4),
        ((0, 0x40), Refusal::NotIpv4),
        ((0, 0x56), Refusal::NotIpv4),
        ((0, 0x06), Refusal::NotIpv4),
        ((3, 19), Refusal::BadTotal),
        ((3, 23), Refusal::BadTotal),
        ((3, 24), Refusal::Cut),
        ((3, 37), Refusal::Short),
        ((6, 0x80), Refusal::Reserved),
        ((6, 0x20), Refusal::Piece),
        ((9, 2), Refusal::OtherProtocol),
        ((29, 13), Refusal::Cut),
    ] {
        let packet = with_options(&udp(), &ROUTER_ALERT, &[change]);
        assert_eq!(check(&packet), Err(why), "{change:?}");
    }
    let alert = with_options(&udp(), &ROUTER_ALERT, &[]);
    for count in [19, 20, 23, 24, 35] {
        assert_eq!(check(&alert[..count]), Err(Refusal::Short), "{count}");
    }
    for at in 20..24 {
        let mut unsummed = alert.clone();
        unsummed[at] ^= 1;
        assert_eq!(check(&unsummed), Err(Refusal::BadHeader), "{at}");
    }
    let first_twenty = changed(alert, &[]);
    assert_eq!(check(&first_twenty), Err(Refusal::BadHeader));
    let longest = with_options(&udp(), &[0x01; 40], &[]);
    for count in [59, 60, 71] {
        assert_eq!(check(&longest[..count]), Err(Refusal::Short), "{count}");
    }
    let none_there = changed(udp(), &[(0, 0x4f)]);
    assert_eq!(check(&none_there), Err(Refusal::BadTotal));
}

#[test]
fn the_first_in_order_is_given() {
    let many = changed(udp(), &[(6, 0x20), (9, 2), (25, 13)]);
    assert_eq!(check(&many), Err(Refusal::Piece));
    let fewer = changed(udp(), &[(9, 2), (25, 13)]);
    assert_eq!(check(&fewer), Err(Refusal::OtherProtocol));
    let mut short = changed(udp(), &[(2, 1)]);
    short[10] ^= 1;
    assert_eq!(check(&short), Err(Refusal::Short));
    short[3] = 19;
    short[2] = 0;
    assert_eq!(check(&short), Err(Refusal::BadTotal));
    short[0] = 0;
    assert_eq!(check(&short), Err(Refusal::NotIpv4));
}
