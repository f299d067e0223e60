//! TCP, UDP and ICMP flows.

mod common;
use common::*;
use wispbundle::{Choices, Good, IcmpFlow, Message, Refusal, TcpFlow, UdpFlow, check};

fn flow() -> TcpFlow {
    TcpFlow::new(CL, SV, 1000, 5000)
}

fn numbers(packet: &[u8]) -> (u32, u32) {
    (u32_at(packet, 24), u32_at(packet, 28))
}

#[test]
fn the_worked_open() {
    let (mut flow, mut out) = (flow(), [UNTOUCHED; 121]);
    assert_eq!(flow.open(&mut out), Ok([40, 80, 120]));
    assert_eq!(numbers(&out[..40]), (1000, 0));
    assert_eq!(numbers(&out[40..80]), (5000, 1001));
    assert_eq!(numbers(&out[80..120]), (1001, 5001));
    assert_eq!(
        [out[33], out[73], out[113], out[120]],
        [0x02, 0x12, 0x10, UNTOUCHED]
    );
    assert_eq!(flow, TcpFlow::new(CL, SV, 1001, 5001));
}

#[test]
fn both_closes() {
    let (mut f, mut out) = (flow(), [0; 120]);
    assert_eq!(f.client_close(&mut out), Ok([40, 80, 120]));
    assert_eq!(out[12..20], [10, 0, 0, 1, 10, 0, 0, 2]);
    assert_eq!([out[33], out[73], out[113]], [0x11, 0x11, 0x10]);
    assert_eq!((f.cl_seq, f.sv_seq), (1001, 5001));
    assert_eq!(f.server_close(&mut out), Ok([40, 80, 120]));
    assert_eq!(out[12..20], [10, 0, 0, 2, 10, 0, 0, 1]);
    assert_eq!((f.cl_seq, f.sv_seq), (1002, 5002));
}

#[test]
fn resets_and_acknowledgments_move_nothing() {
    let mut f = flow();
    for (flags, cl, sv) in [
        (
            0x04,
            written(|out| f.client_reset(out)),
            written(|out| f.server_reset(out)),
        ),
        (
            0x10,
            written(|out| f.client_ack(out)),
            written(|out| f.server_ack(out)),
        ),
    ] {
        let acks = if flags == 0x10 { (5000, 1000) } else { (0, 0) };
        assert_eq!(
            (cl.len(), cl[33], numbers(&cl)),
            (40, flags, (1000, acks.0))
        );
        assert_eq!(
            (sv.len(), sv[33], numbers(&sv)),
            (40, flags, (5000, acks.1))
        );
    }
    assert_eq!(f, flow());
}

#[test]
fn four_bytes_wrap_the_number() {
    let mut f = TcpFlow::new(CL, SV, 4_294_967_294, 5000);
    let packet = written(|out| f.client_data_segment(b"lap!", out));
    assert_eq!(
        (packet[33], numbers(&packet)),
        (0x18, (4_294_967_294, 5000))
    );
    assert_eq!((f.cl_seq, f.sv_seq), (2, 5000));
    let packet = written(|out| f.server_data_segment(b"lap!", out));
    assert_eq!(numbers(&packet), (5000, 2));
    assert_eq!((f.cl_seq, f.sv_seq), (2, 5004));
    assert_eq!(check(&packet), Ok(Good::Checked));
}

#[test]
fn messages_with_and_without_acknowledgment() {
    let (mut f, mut out) = (flow(), [UNTOUCHED; 100]);
    let both = Message {
        end: 44,
        ack_end: Some(84),
    };
    assert_eq!(f.client_message(b"lap!", true, 0x4000, &mut out), Ok(both));
    assert_eq!((u16_at(&out, 6), u16_at(&out[44..], 6)), (0x4000, 0));
    assert_eq!(numbers(&out[44..84]), (5000, 1004));
    let one = Message {
        end: 44,
        ack_end: None,
    };
    out.fill(UNTOUCHED);
    assert_eq!(f.server_message(b"lap!", false, 0, &mut out), Ok(one));
    assert!(out[44..].iter().all(|&b| b == UNTOUCHED));
    assert_eq!(f.server_message(b"lap!", true, 0, &mut out), Ok(both));
    assert_eq!((f.cl_seq, f.sv_seq), (1004, 5008));
}

#[test]
fn headers_holes_and_state() {
    let mut f = flow();
    let header = f.client_hdr(9, 0x1234);
    assert_eq!(
        header[4..],
        [
            0, 0, 3, 0xe8, 0, 0, 0x13, 0x88, 0x50, 0x18, 0xff, 0xff, 0x12, 0x34, 0, 0
        ]
    );
    assert_eq!(f.server_hdr(u32::MAX, 0)[4..8], 5000_u32.to_be_bytes());
    assert_eq!((f.cl_seq, f.sv_seq), (1009, 4999));
    f.client_hole(u32::MAX);
    f.server_hole(7);
    assert_eq!((f.cl_seq, f.sv_seq), (1008, 5006));
    assert_eq!(f.push_state(None, Some(3)), (None, Some(5006)));
    assert_eq!(f.push_state(Some(1), Some(2)), (Some(1008), Some(3)));
    assert_eq!(f.push_state(None, None), (None, None));
    f.pop_state((Some(4), None));
    assert_eq!((f.cl_seq, f.sv_seq), (4, 2));
    f.pop_state((None, Some(5)));
    assert_eq!((f.cl_seq, f.sv_seq), (4, 5));
}

#[test]
fn a_refused_call_moves_no_number() {
    let (long, mut f) = (counted(65_496), flow());
    let room = LONGEST + 100;
    refused(119, Refusal::NoRoom, |out| f.open(out));
    refused(119, Refusal::NoRoom, |out| f.client_close(out));
    refused(119, Refusal::NoRoom, |out| f.server_close(out));
    refused(39, Refusal::NoRoom, |out| f.client_reset(out));
    refused(39, Refusal::NoRoom, |out| f.server_reset(out));
    refused(39, Refusal::NoRoom, |out| f.client_ack(out));
    refused(39, Refusal::NoRoom, |out| f.server_ack(out));
    refused(43, Refusal::NoRoom, |out| {
        f.client_data_segment(b"lap!", out)
    });
    refused(43, Refusal::NoRoom, |out| {
        f.server_data_segment(b"lap!", out)
    });
    refused(83, Refusal::NoRoom, |out| {
        f.client_message(b"lap!", true, 0, out)
    });
    refused(43, Refusal::NoRoom, |out| {
        f.server_message(b"lap!", false, 0, out)
    });
    for room in [0, room] {
        refused(room, Refusal::TooLong, |out| {
            f.client_data_segment(&long, out)
        });
        refused(room, Refusal::TooLong, |out| {
            f.server_data_segment(&long, out)
        });
        refused(room, Refusal::TooLong, |out| {
            f.client_message(&long, true, 0, out)
        });
        refused(room, Refusal::TooLong, |out| {
            f.server_message(&long, true, 0, out)
        });
    }
    assert_eq!(f, flow());
}

/// The flow's own source, and a checksum.
const SUMMED: Choices = Choices {
    srcip: None,
    frag_off: 0,
    csum: true,
};

#[test]
fn udp_choices() {
    let flow = UdpFlow::new(CL, SV);
    assert_eq!((flow.cl, flow.sv), (CL, SV));
    let choices = Choices {
        srcip: Some([1, 2, 3, 4].into()),
        frag_off: 0x4000,
        csum: true,
    };
    let packet = written(|out| flow.client_dgram(b"lap!", choices, out));
    assert_eq!(u16_at(&packet, 6), 0x4000);
    assert_eq!(packet[12..20], [1, 2, 3, 4, 10, 0, 0, 2]);
    assert_eq!(packet[20..24], [0x9c, 0x40, 0, 80]);
    assert_eq!(check(&packet), Ok(Good::Checked));
    let packet = written(|out| flow.server_dgram(b"lap!", SUMMED, out));
    assert_eq!(
        packet[12..24],
        [10, 0, 0, 2, 10, 0, 0, 1, 0, 80, 0x9c, 0x40]
    );
    assert_eq!(check(&packet), Ok(Good::Checked));
}

#[test]
fn udp_refusals() {
    let (flow, long) = (UdpFlow::new(CL, SV), counted(65_508));
    for room in [0, LONGEST + 10] {
        refused(room, Refusal::TooLong, |out| {
            flow.client_dgram(&long, SUMMED, out)
        });
        refused(room, Refusal::TooLong, |out| {
            flow.server_dgram(&long, SUMMED, out)
        });
    }
    refused(31, Refusal::NoRoom, |out| {
        flow.client_dgram(b"lap!", SUMMED, out)
    });
    refused(31, Refusal::NoRoom, |out| {
        flow.server_dgram(b"lap!", SUMMED, out)
    });
}

#[test]
fn udp_without_checksum_is_refused_before_all_else() {
    let (flow, long) = (UdpFlow::new(CL, SV), counted(65_508));
    let bare = Choices {
        srcip: Some([1, 2, 3, 4].into()),
        frag_off: 0x4000,
        csum: false,
    };
    for choices in [Choices::default(), bare] {
        for room in [0, 31, 32, LONGEST + 10] {
            for bytes in [&b"lap!"[..], &long] {
                refused(room, Refusal::NoChecksum, |out| {
                    flow.client_dgram(bytes, choices, out)
                });
                refused(room, Refusal::NoChecksum, |out| {
                    flow.server_dgram(bytes, choices, out)
                });
            }
        }
    }
}

#[test]
fn icmp_numbers_count_apart_and_wrap() {
    let mut flow = IcmpFlow::new(CLIENT, SERVER);
    flow.pong_seq = 65_535;
    let packet = written(|out| flow.echo(b"lap!", out));
    assert_eq!(packet[20..28], [8, 0, 0x09, 0x49, 0x12, 0x34, 0, 0]);
    assert_eq!((flow.ping_seq, flow.pong_seq), (1, 65_535));
    let packet = written(|out| flow.echo_reply(b"lap!", out));
    assert_eq!((packet[20], u16_at(&packet, 26)), (0, 65_535));
    assert_eq!((flow.ping_seq, flow.pong_seq), (1, 0));
}

#[test]
fn icmp_refusals_use_no_number() {
    let (mut flow, long) = (IcmpFlow::new(CLIENT, SERVER), counted(65_508));
    for room in [0, LONGEST + 10] {
        refused(room, Refusal::TooLong, |out| flow.echo(&long, out));
        refused(room, Refusal::TooLong, |out| flow.echo_reply(&long, out));
    }
    refused(31, Refusal::NoRoom, |out| flow.echo(b"lap!", out));
    refused(31, Refusal::NoRoom, |out| flow.echo_reply(b"lap!", out));
    assert_eq!(flow, IcmpFlow::new(CLIENT, SERVER));
}
