//! TOS and TTL: every packet of a flow has the flow's, and differs in nothing else.

mod common;
use common::*;
use wispbundle::{
    Choices, Echo, Good, IcmpFlow, IcmpPacket, Marks, Message, Refusal, TcpFlow, TcpSegment,
    UdpDatagram, UdpFlow, check, flags,
};

const OTHERS: [Marks; 6] = [
    Marks { tos: 0xb8, ttl: 1 },
    Marks { tos: 0, ttl: 0 },
    Marks { tos: 255, ttl: 255 },
    Marks { tos: 1, ttl: 64 },
    Marks { tos: 0, ttl: 63 },
    Marks { tos: 64, ttl: 0 },
];

const SUMMED: Choices = Choices {
    srcip: None,
    frag_off: 0x4000,
    csum: true,
};

/// A call on a flow, which answers where its packets end.
type Sends<F> = fn(&mut F, &mut [u8]) -> Result<Vec<usize>, Refusal>;

const TCP: [Sends<TcpFlow>; 12] = [
    |flow, out| flow.open(out).map(Vec::from),
    |flow, out| flow.client_close(out).map(Vec::from),
    |flow, out| flow.server_close(out).map(Vec::from),
    |flow, out| flow.client_reset(out).map(one),
    |flow, out| flow.server_reset(out).map(one),
    |flow, out| flow.client_ack(out).map(one),
    |flow, out| flow.server_ack(out).map(one),
    |flow, out| flow.client_data_segment(b"lap!", out).map(one),
    |flow, out| flow.server_data_segment(b"odd", out).map(one),
    |flow, out| flow.client_message(b"lap!", true, 0x4000, out).map(ends),
    |flow, out| flow.server_message(b"lap!", true, 0, out).map(ends),
    |flow, out| flow.server_message(b"odd", false, 1, out).map(ends),
];

const UDP: [Sends<UdpFlow>; 2] = [
    |flow, out| flow.client_dgram(b"lap!", SUMMED, out).map(one),
    |flow, out| flow.server_dgram(b"odd", SUMMED, out).map(one),
];

const ICMP: [Sends<IcmpFlow>; 2] = [
    |flow, out| flow.echo(b"lap!", out).map(one),
    |flow, out| flow.echo_reply(b"odd", out).map(one),
];

const STATE: [fn(&mut TcpFlow); 6] = [
    |flow| flow.client_hole(7),
    |flow| flow.server_hole(7),
    |flow| assert_eq!(flow.client_hdr(9, 0x1234), tcp().client_hdr(9, 0x1234)),
    |flow| assert_eq!(flow.server_hdr(9, 0x1234), tcp().server_hdr(9, 0x1234)),
    |flow| assert_eq!(flow.push_state(Some(1), None), (Some(1000), None)),
    |flow| flow.pop_state((None, Some(2))),
];

fn one(end: usize) -> Vec<usize> {
    vec![end]
}

fn ends(message: Message) -> Vec<usize> {
    [Some(message.end), message.ack_end]
        .into_iter()
        .flatten()
        .collect()
}

fn tcp() -> TcpFlow {
    TcpFlow::new(CL, SV, 1000, 5000)
}

fn udp() -> UdpFlow {
    UdpFlow::new(CL, SV)
}

fn icmp() -> IcmpFlow {
    IcmpFlow::new(CLIENT, SERVER)
}

/// The packet with other marks: bytes 1 and 8 and the header's checksum.
fn with(marks: Marks, packet: Vec<u8>) -> Vec<u8> {
    changed(packet, &[(1, marks.tos), (8, marks.ttl)])
}

/// The packets of a call, and the flow after it. Where there is no room, the flow stays as it was.
fn sent<F: Copy + PartialEq + std::fmt::Debug>(flow: F, call: Sends<F>) -> (Vec<Vec<u8>>, F) {
    let (mut after, mut out) = (flow, [UNTOUCHED; 200]);
    assert_eq!(call(&mut after, &mut []), Err(Refusal::NoRoom));
    assert_eq!(after, flow);
    let ends = call(&mut after, &mut out).unwrap();
    let starts = [0].iter().chain(&ends);
    let packets = starts.zip(&ends).map(|(&from, &to)| out[from..to].to_vec());
    (packets.collect(), after)
}

/// Makes a call on a new flow and on the same with other marks, and answers the two flows after it.
fn compare<F: Copy + PartialEq + std::fmt::Debug>(
    (new, marked): (F, F),
    marks: Marks,
    call: Sends<F>,
) -> (F, F) {
    let (plain, new) = sent(new, call);
    let (packets, marked) = sent(marked, call);
    assert!(plain.iter().all(|packet| [packet[1], packet[8]] == [0, 64]));
    let right: Vec<_> = plain.into_iter().map(|p| with(marks, p)).collect();
    assert_eq!(packets, right);
    (new, marked)
}

#[test]
fn a_new_flow_has_a_tos_of_0_and_a_ttl_of_64() {
    let usual = Marks { tos: 0, ttl: 64 };
    assert_eq!(Marks::default(), usual);
    assert_eq!([tcp().marks, udp().marks, icmp().marks], [usual; 3]);
    assert_eq!(tcp().marked(usual), tcp());
    assert_eq!(udp().marked(usual), udp());
    assert_eq!(icmp().marked(usual), icmp());
}

#[test]
fn a_marked_echo() {
    let mut flow = icmp().marked(Marks { tos: 0xb8, ttl: 1 });
    let packet = written(|out| flow.echo(b"lap!", out));
    assert_eq!(
        packet[..12],
        [0x45, 0xb8, 0, 0x20, 0, 0, 0, 0, 1, 1, 0xa5, 0x23]
    );
    assert_eq!(packet[20..28], [8, 0, 0x09, 0x49, 0x12, 0x34, 0, 0]);
    assert_eq!(check(&packet), Ok(Good::Checked));
}

#[test]
fn every_packet_of_a_tcp_flow() {
    for marks in OTHERS {
        for call in TCP {
            let (new, marked) = compare((tcp(), tcp().marked(marks)), marks, call);
            assert_eq!(marked, TcpFlow { marks, ..new });
        }
    }
}

#[test]
fn every_packet_of_a_udp_flow() {
    for marks in OTHERS {
        for call in UDP {
            let (new, marked) = compare((udp(), udp().marked(marks)), marks, call);
            assert_eq!(marked, UdpFlow { marks, ..new });
        }
    }
}

#[test]
fn every_packet_of_an_icmp_flow() {
    for marks in OTHERS {
        for call in ICMP {
            let (new, marked) = compare((icmp(), icmp().marked(marks)), marks, call);
            assert_eq!(marked, IcmpFlow { marks, ..new });
        }
    }
}

#[test]
fn calls_without_packets_leave_the_marks() {
    for marks in OTHERS {
        for call in STATE {
            let (mut new, mut marked) = (tcp(), tcp().marked(marks));
            call(&mut new);
            call(&mut marked);
            assert_eq!(marked, TcpFlow { marks, ..new });
        }
    }
}

#[test]
fn the_last_marks_count() {
    let mut flow = tcp();
    for marks in OTHERS {
        flow = flow.marked(marks);
        let packet = written(|out| flow.client_data_segment(b"lap!", out));
        assert_eq!([packet[1], packet[8]], [marks.tos, marks.ttl]);
    }
    assert_eq!(flow.cl_seq, 1024);
    flow = flow.marked(Marks::default());
    assert_eq!(flow, TcpFlow::new(CL, SV, 1024, 5000));
}

#[test]
fn requests_have_their_own() {
    let syn = TcpSegment {
        flags: flags::SYN,
        ..TcpSegment::new(CL, SV)
    };
    let udp = datagram(CL, SV);
    let echo = IcmpPacket {
        src: CLIENT,
        dst: SERVER,
        echo: Echo::Reply,
        seq: 7,
        marks: Marks::default(),
    };
    assert_eq!([syn.marks, udp.marks], [Marks::default(); 2]);
    for marks in OTHERS {
        let packet = written(|out| TcpSegment { marks, ..syn }.build(b"odd", out));
        assert_eq!(packet, with(marks, written(|out| syn.build(b"odd", out))));
        let packet = written(|out| UdpDatagram { marks, ..udp }.build(b"odd", out));
        assert_eq!(packet, with(marks, written(|out| udp.build(b"odd", out))));
        let packet = written(|out| IcmpPacket { marks, ..echo }.build(b"odd", out));
        assert_eq!(packet, with(marks, written(|out| echo.build(b"odd", out))));
    }
}
