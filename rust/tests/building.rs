//! Building one packet of each kind.

mod common;
use common::*;
use wispbundle::{
    Echo, Good, IcmpPacket, Marks, Piece, Refusal, TcpSegment, UdpDatagram, check, flags,
};

fn syn() -> TcpSegment {
    TcpSegment {
        seq: 1000,
        flags: flags::SYN,
        ..TcpSegment::new(CL, SV)
    }
}

fn echo() -> IcmpPacket {
    IcmpPacket {
        src: CLIENT,
        dst: SERVER,
        echo: Echo::Request,
        seq: 0,
        marks: Marks::default(),
    }
}

#[test]
fn the_worked_syn() {
    let packet = written(|out| syn().build(&[], out));
    assert_eq!(packet.len(), 40);
    assert_eq!((u16_at(&packet, 10), u16_at(&packet, 36)), (0x66ce, 0xfb67));
    assert_eq!((u16_at(&packet, 20), u16_at(&packet, 22)), (40_000, 80));
    assert_eq!((u32_at(&packet, 24), u32_at(&packet, 28)), (1000, 0));
    assert_eq!(packet[32..36], [0x50, 0x02, 0xff, 0xff]);
}

#[test]
fn every_field_of_a_segment() {
    let segment = TcpSegment {
        seq: 0x0102_0304,
        ack: 0x0506_0708,
        flags: flags::FIN | flags::RST | flags::PSH | flags::ACK,
        frag_off: 0xe123,
        ..TcpSegment::new(SV, CL)
    };
    let packet = written(|out| segment.build(b"odd", out));
    assert_eq!(u16_at(&packet, 6), 0xe123);
    assert_eq!(packet[12..20], [10, 0, 0, 2, 10, 0, 0, 1]);
    assert_eq!(packet[24..34], [1, 2, 3, 4, 5, 6, 7, 8, 0x50, 0x1d]);
    assert_eq!(packet[40..], *b"odd");
}

#[test]
fn a_udp_sum_of_0_is_sent_as_ffff() {
    let (a, b) = ("10.0.0.1:1".parse().unwrap(), "10.0.0.2:2".parse().unwrap());
    let packet = written(|out| datagram(a, b).build(&[0xeb, 0xd4], out));
    assert_eq!((u16_at(&packet, 24), u16_at(&packet, 26)), (10, 0xffff));
    assert_eq!(check(&packet), Ok(Good::Checked));
}

#[test]
fn udp_without_checksum_is_refused_before_all_else() {
    let (bare, long) = (UdpDatagram::new(CL, SV), counted(65_508));
    for room in [0, 31, 32, LONGEST + 100] {
        refused(room, Refusal::NoChecksum, |out| bare.build(b"lap!", out));
        refused(room, Refusal::NoChecksum, |out| bare.build(&long, out));
    }
}

#[test]
fn both_echoes() {
    let packet = written(|out| echo().build(b"lap!", out));
    assert_eq!(packet[20..28], [8, 0, 0x09, 0x49, 0x12, 0x34, 0, 0]);
    let reply = IcmpPacket {
        echo: Echo::Reply,
        seq: 0xabcd,
        ..echo()
    };
    let packet = written(|out| reply.build(b"lap!", out));
    assert_eq!((packet[20], u16_at(&packet, 26)), (0, 0xabcd));
    assert_eq!(check(&packet), Ok(Good::Checked));
}

#[test]
fn too_long_by_one() {
    let long = counted(65_516);
    let room = LONGEST + 100;
    assert_eq!(
        written(|out| syn().build(&long[..65_495], out)).len(),
        LONGEST
    );
    refused(room, Refusal::TooLong, |out| {
        syn().build(&long[..65_496], out)
    });
    let udp = datagram(CL, SV);
    assert_eq!(
        written(|out| udp.build(&long[..65_507], out)).len(),
        LONGEST
    );
    refused(room, Refusal::TooLong, |out| {
        udp.build(&long[..65_508], out)
    });
    assert_eq!(
        written(|out| echo().build(&long[..65_507], out)).len(),
        LONGEST
    );
    refused(room, Refusal::TooLong, |out| {
        echo().build(&long[..65_508], out)
    });
    let piece = Piece {
        template: template(),
        off: 0,
        len: 8190,
    };
    assert_eq!(
        written(|out| piece.build(&long[..65_515], out)).len(),
        LONGEST
    );
    refused(room, Refusal::TooLong, |out| piece.build(&long, out));
}

#[test]
fn no_room_by_one() {
    refused(39, Refusal::NoRoom, |out| syn().build(&[], out));
    assert_eq!(syn().build(&[], &mut [0; 40]), Ok(40));
    refused(31, Refusal::NoRoom, |out| {
        datagram(CL, SV).build(b"lap!", out)
    });
    refused(31, Refusal::NoRoom, |out| echo().build(b"lap!", out));
    refused(0, Refusal::NoRoom, |out| echo().build(b"", out));
}

#[test]
fn too_long_comes_before_no_room() {
    let long = counted(65_516);
    refused(0, Refusal::TooLong, |out| syn().build(&long, out));
    refused(0, Refusal::TooLong, |out| {
        datagram(CL, SV).build(&long, out)
    });
    refused(0, Refusal::TooLong, |out| echo().build(&long, out));
}
