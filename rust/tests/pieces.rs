//! Pieces of a payload.

mod common;
use common::*;
use wispbundle::{
    Assembly, BlockRequest, ListRefusal, MAP_BYTES, Outcome, PAYLOAD_BYTES, Piece, Refusal,
    Template,
};

/// What a place for an end holds before a call: no packet ends there.
const NO_END: usize = 7;

/// A telemetry datagram's requests: 1,480, 1,480 and 528 bytes.
const THREE: [(u16, u16); 3] = [(0, 185), (185, 185), (370, 66)];

fn requests(list: &[(u16, u16)]) -> Vec<BlockRequest> {
    list.iter()
        .map(|&(off, len)| BlockRequest { off, len })
        .collect()
}

/// What single calls write for a list, end to end, and where each packet ends.
fn one_by_one(payload: &[u8], list: &[(u16, u16)]) -> (Vec<u8>, Vec<usize>) {
    let (mut packets, mut ends) = (Vec::new(), Vec::new());
    for &(off, len) in list {
        packets.extend(written(|out| template().fragment(payload, off, len, out)));
        ends.push(packets.len());
    }
    (packets, ends)
}

/// Cuts the list with so much more room than it needs, and compares both buffers whole.
fn cut_with(spare: usize, payload: &[u8], list: &[(u16, u16)]) {
    let (mut packets, mut ends) = one_by_one(payload, list);
    let length = packets.len();
    packets.resize(length + spare, UNTOUCHED);
    ends.resize(list.len() + spare, NO_END);
    let (mut out, mut at) = (vec![UNTOUCHED; packets.len()], vec![NO_END; ends.len()]);
    let answer = template().fragments(payload, &requests(list), &mut out, &mut at);
    assert_eq!((answer, at), (Ok(length), ends));
    assert!(out == packets);
}

/// Room for so many bytes and so many ends, a payload and a list.
type Lent<'a> = ((usize, usize), &'a [u8], &'a [(u16, u16)]);

/// Has the list refused, which leaves both buffers as they were.
fn list_refused(refusal: Refusal, index: Option<usize>, ((room, places), payload, list): Lent) {
    let (mut out, mut ends) = (vec![UNTOUCHED; room], vec![NO_END; places]);
    let answer = template().fragments(payload, &requests(list), &mut out, &mut ends);
    assert_eq!(answer, Err(ListRefusal { refusal, index }));
    assert_eq!(ends, vec![NO_END; places]);
    assert!(out == vec![UNTOUCHED; room]);
}

#[test]
fn the_worked_pieces_of_20_bytes() {
    let payload = counted(20);
    for (off, len, field, size) in [
        (0, 1, 0x2000, 8),
        (2, 1, 2, 4),
        (2, 0, 0x2002, 0),
        (3, 1, 3, 0),
    ] {
        let packet = written(|out| template().fragment(&payload, off, len, out));
        assert_eq!((u16_at(&packet, 6), packet.len()), (field, 20 + size));
        let from = 8 * usize::from(off);
        assert_eq!(packet[20..], payload[from.min(20)..][..size]);
        let piece = Piece {
            template: template(),
            off,
            len,
        };
        assert_eq!(written(|out| piece.build(&payload, out)), packet);
    }
}

#[test]
fn every_field_of_a_template() {
    let template = Template {
        tos: 0x12,
        id: 0x3456,
        df: true,
        evil: true,
        ttl: 0x78,
        protocol: 0x9a,
        src: [1, 2, 3, 4].into(),
        dst: [5, 6, 7, 8].into(),
    };
    let packet = written(|out| template.fragment(&counted(20), 1, 1, out));
    assert_eq!(
        packet[..10],
        [0x45, 0x12, 0, 28, 0x34, 0x56, 0xe0, 0x01, 0x78, 0x9a]
    );
    assert_eq!(packet[12..20], [1, 2, 3, 4, 5, 6, 7, 8]);
}

#[test]
fn tail_and_datagram() {
    let payload = counted(20);
    let packet = written(|out| template().tail(&payload, 1, out));
    assert_eq!((u16_at(&packet, 6), &packet[20..]), (1, &payload[8..]));
    let packet = written(|out| template().datagram(&payload, out));
    assert_eq!((u16_at(&packet, 6), &packet[20..]), (0, &payload[..]));
}

#[test]
fn refusals_in_their_order() {
    let long = counted(65_516);
    let ok = &long[..65_515];
    for room in [0, LONGEST + 10] {
        refused(room, Refusal::TooLong, |out| {
            template().fragment(&long, 8192, 1, out)
        });
        refused(room, Refusal::TooLong, |out| {
            template().tail(&long, 8192, out)
        });
        refused(room, Refusal::TooLong, |out| {
            template().datagram(&long, out)
        });
        refused(room, Refusal::BadOffset, |out| {
            template().fragment(ok, 8192, 1, out)
        });
        refused(room, Refusal::BadOffset, |out| {
            template().tail(ok, 65_535, out)
        });
        let piece = Piece {
            template: template(),
            off: 8192,
            len: 0,
        };
        refused(room, Refusal::BadOffset, |out| piece.build(ok, out));
    }
    refused(27, Refusal::NoRoom, |out| {
        template().fragment(ok, 0, 1, out)
    });
    refused(19, Refusal::NoRoom, |out| {
        template().fragment(ok, 8191, 1, out)
    });
    refused(31, Refusal::NoRoom, |out| {
        template().tail(&long[..20], 1, out)
    });
    refused(39, Refusal::NoRoom, |out| {
        template().datagram(&long[..20], out)
    });
}

#[test]
fn a_list_is_cut_as_by_single_calls() {
    let payload = counted(3488);
    for list in [
        &THREE[..],
        &[],
        &[(0, 0)],
        &[(185, 185), (185, 185)],
        &[(370, 66), (0, 185), (0, 436), (436, 1), (0, 185)],
        &[(8191, 65_535), (0, 65_535), (435, 0)],
    ] {
        for spare in [0, 1, 9] {
            cut_with(spare, &payload, list);
            cut_with(spare, &[], list);
        }
    }
    cut_with(0, &counted(65_515), &[(0, 8189), (8189, 1), (8190, 1)]);
}

#[test]
fn a_telemetry_datagram_by_a_list() {
    let packet = written(|out| datagram(CL, SV).build(&counted(3480), out));
    let sent = &packet[20..];
    let (mut out, mut ends) = (vec![0; 3548], [0; 3]);
    let answer = template().fragments(sent, &requests(&THREE), &mut out, &mut ends);
    assert_eq!((answer, ends), (Ok(3548), [1500, 3000, 3548]));
    assert!(out == one_by_one(sent, &THREE).0);
    let (mut payload, mut map) = (vec![0; PAYLOAD_BYTES], vec![0; MAP_BYTES]);
    let mut assembly = Assembly::open(KEY, &mut payload, &mut map).unwrap();
    for (from, to, outcome) in [
        (3000, 3548, Outcome::Waiting),
        (0, 1500, Outcome::Waiting),
        (1500, 3000, Outcome::Complete),
    ] {
        assert_eq!(assembly.take(&out[from..to]), Ok(outcome));
    }
    assert_eq!(assembly.held(), Some(sent));
}

#[test]
fn refusals_of_a_list_in_their_order() {
    let (long, enough) = (counted(65_516), (LONGEST, 9));
    let ok = &long[..65_515];
    for lent in [enough, (0, 0)] {
        for list in [&[][..], &THREE, &[(8192, 1)]] {
            list_refused(Refusal::TooLong, None, (lent, &long, list));
        }
        for (index, list) in [
            (0, &[(8192, 1)][..]),
            (1, &[(0, 185), (8192, 185), (370, 66)]),
            (1, &[(0, 1), (65_535, 0), (8191, 1), (8192, 1)]),
            (3, &[(0, 1), (1, 1), (8191, 1), (8192, 1)]),
        ] {
            list_refused(Refusal::BadOffset, Some(index), (lent, ok, list));
        }
    }
    let sent = &long[..3488];
    for lent in [(3547, 3), (3547, 9), (3548, 2), (9999, 2), (0, 0)] {
        list_refused(Refusal::NoRoom, None, (lent, sent, &THREE));
    }
    list_refused(Refusal::NoRoom, None, ((19, 1), sent, &[(8191, 1)]));
}
