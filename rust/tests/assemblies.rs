//! Putting pieces together.

mod common;
use common::*;
use wispbundle::{
    Assembly, Echo, Good, IcmpPacket, Key, MAP_BYTES, Marks, Outcome, PAYLOAD_BYTES, Progress,
    Record, Refusal, Template, check,
};

const ICMP: u8 = 1;
const UDP: u8 = 17;

const ORDERS: [[usize; 3]; 6] = [
    [0, 1, 2],
    [0, 2, 1],
    [1, 0, 2],
    [1, 2, 0],
    [2, 0, 1],
    [2, 1, 0],
];

struct Buffers {
    payload: Vec<u8>,
    map: Vec<u8>,
}

fn buffers() -> Buffers {
    Buffers {
        payload: vec![UNTOUCHED; PAYLOAD_BYTES],
        map: vec![UNTOUCHED; MAP_BYTES],
    }
}

fn open(b: &mut Buffers) -> Assembly<'_> {
    open_for(KEY.protocol, b)
}

fn open_for(protocol: u8, b: &mut Buffers) -> Assembly<'_> {
    let key = Key { protocol, ..KEY };
    Assembly::open(key, &mut b.payload, &mut b.map).unwrap()
}

fn template_for(protocol: u8) -> Template {
    Template {
        protocol,
        ..template()
    }
}

fn fragment(payload: &[u8], off: u16, len: u16) -> Vec<u8> {
    written(|out| template().fragment(payload, off, len, out))
}

fn new_record() -> Record {
    Record {
        key: KEY,
        total: None,
        floor: 0,
        spoilt: false,
    }
}

#[test]
fn opening_zeroes_all_but_the_key() {
    let mut b = buffers();
    let assembly = open(&mut b);
    assert_eq!(assembly.record(), new_record());
    assert_eq!(assembly.progress(), Ok(Progress::Waiting));
    assert_eq!(assembly.held(), None);
    assert!(b.payload.iter().chain(&b.map).all(|&byte| byte == 0));
}

#[test]
fn opening_refuses_other_sizes() {
    for (p, m) in [
        (0, 0),
        (65_514, 1024),
        (65_516, 1024),
        (65_515, 1023),
        (65_515, 1025),
    ] {
        let (mut payload, mut map) = (vec![UNTOUCHED; p], vec![UNTOUCHED; m]);
        let refusal = Assembly::open(KEY, &mut payload, &mut map).unwrap_err();
        assert_eq!(refusal, Refusal::BadAssembly);
        assert!(payload.iter().chain(&map).all(|&byte| byte == UNTOUCHED));
    }
}

#[test]
fn a_telemetry_datagram_in_all_six_orders() {
    let packet = written(|out| datagram(CL, SV).build(&counted(3480), out));
    let sent = &packet[20..];
    let pieces = [0, 185, 370].map(|off| fragment(sent, off, 185));
    assert_eq!(pieces.each_ref().map(|p| p.len()), [1500, 1500, 548]);
    for order in ORDERS {
        let mut b = buffers();
        let mut assembly = open(&mut b);
        for (nth, i) in order.into_iter().enumerate() {
            assert_eq!(assembly.held(), None);
            let outcome = assembly.take(&pieces[i]).unwrap();
            assert_eq!(
                outcome,
                if nth == 2 {
                    Outcome::Complete
                } else {
                    Outcome::Waiting
                }
            );
        }
        assert_eq!(assembly.take(&pieces[1]), Ok(Outcome::Complete));
        assert_eq!(assembly.held(), Some(sent));
        assert_eq!(
            (assembly.record().total, assembly.record().floor),
            (Some(3488), 2961)
        );
        let whole = written(|out| template().datagram(assembly.held().unwrap(), out));
        assert_eq!(check(&whole), Ok(Good::Checked));
    }
}

#[test]
fn pieces_with_options_are_put_together_as_without() {
    let packet = written(|out| datagram(CL, SV).build(&counted(3480), out));
    let sent = &packet[20..];
    let plain = [0, 185, 370].map(|off| fragment(sent, off, 185));
    let with = |options: &[u8]| plain.each_ref().map(|p| with_options(p, options, &[]));
    let (alert, longest) = (with(&ROUTER_ALERT), with(&counted(40)));
    let mixed = [alert[0].clone(), plain[1].clone(), longest[2].clone()];
    for pieces in [alert, longest, mixed] {
        for order in ORDERS {
            let [mut b, mut c] = [buffers(), buffers()];
            let (mut ours, mut without) = (open(&mut b), open(&mut c));
            for i in order {
                assert_eq!(ours.take(&pieces[i]), without.take(&plain[i]));
                assert_eq!(ours.record(), without.record());
                assert!(ours.payload() == without.payload() && ours.map() == without.map());
            }
            assert_eq!(ours.held(), Some(sent));
            assert_eq!(ours.take(&plain[1]), Ok(Outcome::Complete));
        }
    }
}

#[test]
fn a_piece_past_the_end_spoils_in_all_six_orders() {
    let payload = counted(20);
    let pieces = [(0, 1), (3, 1), (2, 1)].map(|(off, len)| fragment(&payload, off, len));
    for order in ORDERS {
        let mut b = buffers();
        let mut assembly = open(&mut b);
        let outcomes = order.map(|i| assembly.take(&pieces[i]).unwrap());
        assert_eq!(outcomes[2], Outcome::Spoilt);
        let spoilt = Record {
            spoilt: true,
            ..new_record()
        };
        assert_eq!((assembly.record(), assembly.held()), (spoilt, None));
        assert!(b.payload.iter().chain(&b.map).all(|&byte| byte == 0));
    }
    let mut b = buffers();
    let mut assembly = open(&mut b);
    assert_eq!(assembly.take(&pieces[0]), Ok(Outcome::Waiting));
    assert_eq!(assembly.take(&pieces[1]), Ok(Outcome::Waiting));
}

#[test]
fn other_bytes_at_one_place_spoil() {
    let (mut payload, mut b) = (counted(20), buffers());
    let first = fragment(&payload, 0, 2);
    payload[15] ^= 1;
    let second = fragment(&payload, 1, 1);
    let mut assembly = open(&mut b);
    assert_eq!(assembly.take(&first), Ok(Outcome::Waiting));
    assert_eq!(assembly.take(&second), Ok(Outcome::Spoilt));
    assert_eq!(assembly.take(&first), Ok(Outcome::Spoilt));
}

#[test]
fn empty_pieces_count() {
    let (empty, some) = (fragment(&[], 0, 0), fragment(&[1; 8], 0, 0));
    let mut b = buffers();
    let mut assembly = open(&mut b);
    assert_eq!(assembly.take(&empty), Ok(Outcome::Complete));
    assert_eq!(assembly.progress(), Ok(Progress::Complete(0)));
    assert_eq!(assembly.held(), Some(&[][..]));
    assert_eq!(assembly.take(&some), Ok(Outcome::Spoilt));
}

#[test]
fn progress_is_what_the_last_piece_was_answered() {
    let (payload, mut b) = (counted(20), buffers());
    let mut assembly = open(&mut b);
    for (off, outcome, progress) in [
        (2, Outcome::Waiting, Progress::Waiting),
        (1, Outcome::Waiting, Progress::Waiting),
        (0, Outcome::Complete, Progress::Complete(20)),
        (3, Outcome::Spoilt, Progress::Spoilt),
        (0, Outcome::Spoilt, Progress::Spoilt),
    ] {
        assert_eq!(assembly.take(&fragment(&payload, off, 1)), Ok(outcome));
        assert_eq!(assembly.progress(), Ok(progress));
    }
}

#[test]
fn the_longest_datagram() {
    let (payload, mut b) = (counted(65_515), buffers());
    let whole = written(|out| template().datagram(&payload, out));
    let mut assembly = open(&mut b);
    assert_eq!(assembly.take(&whole), Ok(Outcome::Complete));
    assert_eq!(assembly.progress(), Ok(Progress::Complete(65_515)));
    assert_eq!(assembly.held(), Some(&payload[..]));
}

#[test]
fn each_refusal_leaves_all_as_it_was() {
    let piece = fragment(&counted(24), 0, 2);
    let mut unsummed = piece.clone();
    unsummed[11] ^= 1;
    let alert = |changes: &[(usize, u8)]| with_options(&piece, &ROUTER_ALERT, changes);
    let cases = [
        (piece[..19].to_vec(), Refusal::Short),
        (piece[..35].to_vec(), Refusal::Short),
        (changed(piece.clone(), &[(0, 0x44)]), Refusal::NotIpv4),
        (changed(piece.clone(), &[(0, 0x55)]), Refusal::NotIpv4),
        (changed(piece.clone(), &[(3, 19)]), Refusal::BadTotal),
        (unsummed, Refusal::BadHeader),
        (changed(piece.clone(), &[(6, 0xa0)]), Refusal::Reserved),
        (
            changed(piece.clone(), &[(6, 0xa0), (5, 8)]),
            Refusal::Reserved,
        ),
        (changed(piece.clone(), &[(5, 8)]), Refusal::WrongKey),
        (changed(piece.clone(), &[(12, 11)]), Refusal::WrongKey),
        (changed(piece.clone(), &[(19, 3)]), Refusal::WrongKey),
        (changed(piece.clone(), &[(9, ICMP)]), Refusal::WrongKey),
        (changed(piece.clone(), &[(3, 35)]), Refusal::NotBlocks),
        (
            changed(piece.clone(), &[(6, 0x1f), (7, 0xff)]),
            Refusal::TooFar,
        ),
        (alert(&[])[..20].to_vec(), Refusal::Short),
        (alert(&[])[..23].to_vec(), Refusal::Short),
        (alert(&[])[..39].to_vec(), Refusal::Short),
        (alert(&[(0, 0x44)]), Refusal::NotIpv4),
        (alert(&[(0, 0x56)]), Refusal::NotIpv4),
        (alert(&[(3, 23)]), Refusal::BadTotal),
        (changed(alert(&[]), &[]), Refusal::BadHeader),
        (alert(&[(6, 0xa0)]), Refusal::Reserved),
        (alert(&[(5, 8)]), Refusal::WrongKey),
        (alert(&[(3, 39)]), Refusal::NotBlocks),
        (alert(&[(6, 0x1f), (7, 0xff)]), Refusal::TooFar),
    ];
    let mut b = buffers();
    let mut assembly = open(&mut b);
    assembly.take(&piece).unwrap();
    let (record, payload, map) = (
        assembly.record(),
        assembly.payload().to_vec(),
        assembly.map().to_vec(),
    );
    assert_eq!((record.floor, map[0]), (17, 3));
    for (packet, why) in cases {
        assert_eq!(assembly.take(&packet), Err(why));
        assert_eq!((assembly.record(), assembly.held()), (record, None));
        assert!(assembly.payload() == payload && assembly.map() == map);
    }
}

#[test]
fn a_piece_of_any_other_protocol_is_refused() {
    let (payload, mut b) = (counted(24), buffers());
    for protocol in [UDP, ICMP, 0, 255] {
        let mut assembly = open_for(protocol, &mut b);
        assert_eq!(assembly.record().key, Key { protocol, ..KEY });
        for other in (0..=255).filter(|&other| other != protocol) {
            let whole = written(|out| template_for(other).datagram(&payload, out));
            assert_eq!(assembly.take(&whole), Err(Refusal::WrongKey));
        }
        assert_eq!(assembly.progress(), Ok(Progress::Waiting));
        assert_eq!(assembly.map(), [0; MAP_BYTES]);
        let whole = written(|out| template_for(protocol).datagram(&payload, out));
        assert_eq!(assembly.take(&whole), Ok(Outcome::Complete));
    }
}

#[test]
fn another_protocol_is_refused_behind_7_and_before_9_and_10() {
    let piece = fragment(&counted(24), 0, 2);
    let other = changed(piece.clone(), &[(9, ICMP)]);
    let (blocks, far) = ([(3, 35)], [(6, 0x1f), (7, 0xff)]);
    let mut unsummed = other.clone();
    unsummed[11] ^= 1;
    let mut b = buffers();
    let mut assembly = open(&mut b);
    for (packet, why) in [
        (unsummed, Refusal::BadHeader),
        (changed(other.clone(), &blocks), Refusal::WrongKey),
        (changed(piece.clone(), &blocks), Refusal::NotBlocks),
        (changed(other, &far), Refusal::WrongKey),
        (changed(piece, &far), Refusal::TooFar),
    ] {
        assert_eq!(assembly.take(&packet), Err(why));
    }
}

/// A datagram's IPv4 payload, and the three pieces that it is cut into.
struct Sent {
    protocol: u8,
    payload: Vec<u8>,
    pieces: [Vec<u8>; 3],
}

fn sent(protocol: u8, packet: &[u8]) -> Sent {
    let payload = packet[20..].to_vec();
    let piece = |off| written(|out| template_for(protocol).fragment(&payload, off, 185, out));
    Sent {
        protocol,
        pieces: [0, 185, 370].map(piece),
        payload,
    }
}

fn ping() -> Sent {
    let echo = IcmpPacket {
        src: CLIENT,
        dst: SERVER,
        echo: Echo::Request,
        seq: 0,
        marks: Marks::default(),
    };
    sent(ICMP, &written(|out| echo.build(&[0x70; 3000], out)))
}

fn telemetry() -> Sent {
    let udp = datagram(CL, SV);
    sent(UDP, &written(|out| udp.build(&counted(3480), out)))
}

/// Takes a piece that is another datagram's: 8, and all stays as it was.
fn refuses(assembly: &mut Assembly, piece: &[u8]) {
    let (record, progress) = (assembly.record(), assembly.progress());
    let (payload, map) = (assembly.payload().to_vec(), assembly.map().to_vec());
    assert_eq!(assembly.take(piece), Err(Refusal::WrongKey));
    assert_eq!((assembly.record(), assembly.progress()), (record, progress));
    assert!(assembly.payload() == payload && assembly.map() == map);
}

#[test]
fn a_ping_and_a_telemetry_datagram_of_one_identification() {
    let both = [ping(), telemetry()];
    for order in [
        [(0, 0), (1, 0), (0, 1), (1, 1), (0, 2), (1, 2)],
        [(1, 2), (0, 1), (0, 2), (1, 0), (0, 0), (1, 1)],
    ] {
        let [mut b, mut c] = [buffers(), buffers()];
        let mut assemblies = [open_for(ICMP, &mut b), open_for(UDP, &mut c)];
        let mut missing = [3, 3];
        for (which, nth) in order {
            let piece = &both[which].pieces[nth];
            refuses(&mut assemblies[1 - which], piece);
            missing[which] -= 1;
            let outcome = match missing[which] {
                0 => Outcome::Complete,
                _ => Outcome::Waiting,
            };
            assert_eq!(assemblies[which].take(piece), Ok(outcome));
        }
        for (own, assembly) in both.iter().zip(&assemblies) {
            assert!(!assembly.record().spoilt);
            assert_eq!(assembly.held(), Some(&own.payload[..]));
            let held = assembly.held().unwrap();
            let whole = written(|out| template_for(own.protocol).datagram(held, out));
            assert_eq!(check(&whole), Ok(Good::Checked));
        }
    }
}

#[test]
fn records_that_no_assembly_has_are_refused() {
    let piece = fragment(&counted(24), 0, 2);
    let good = new_record();
    for record in [
        Record {
            total: Some(65_516),
            ..good
        },
        Record {
            floor: 65_514,
            ..good
        },
    ] {
        let mut b = buffers();
        let mut assembly = Assembly::resume(record, &mut b.payload, &mut b.map);
        assert_eq!(assembly.take(&piece), Err(Refusal::BadAssembly));
        assert_eq!(assembly.take(&[]), Err(Refusal::BadAssembly));
        assert_eq!(assembly.progress(), Err(Refusal::BadAssembly));
        assert_eq!(assembly.record(), record);
        assert!(
            b.payload
                .iter()
                .chain(&b.map)
                .all(|&byte| byte == UNTOUCHED)
        );
    }
    for (p, m) in [(65_514, 1024), (65_515, 1025)] {
        let (mut payload, mut map) = (vec![UNTOUCHED; p], vec![UNTOUCHED; m]);
        let mut assembly = Assembly::resume(good, &mut payload, &mut map);
        assert_eq!(assembly.take(&piece), Err(Refusal::BadAssembly));
        assert_eq!(assembly.progress(), Err(Refusal::BadAssembly));
    }
}

#[test]
fn an_assembly_can_be_left_and_resumed() {
    let (payload, mut b) = (counted(24), buffers());
    let mut assembly = open(&mut b);
    assembly.take(&fragment(&payload, 2, 1)).unwrap();
    let record = assembly.record();
    let mut assembly = Assembly::resume(record, &mut b.payload, &mut b.map);
    assert_eq!(
        assembly.take(&fragment(&payload, 0, 2)),
        Ok(Outcome::Complete)
    );
    assert_eq!(assembly.held(), Some(&payload[..]));
}

#[test]
fn a_complete_assembly_is_resumed_complete() {
    let (payload, mut b) = (counted(20), buffers());
    let mut assembly = open(&mut b);
    for off in [0, 1, 2] {
        let record = assembly.record();
        let mut again = Assembly::resume(record, &mut b.payload, &mut b.map);
        assert_eq!(again.held(), None);
        again.take(&fragment(&payload, off, 1)).unwrap();
        assembly = again;
    }
    let record = assembly.record();
    let assembly = Assembly::resume(record, &mut b.payload, &mut b.map);
    assert_eq!(assembly.progress(), Ok(Progress::Complete(20)));
    assert_eq!(assembly.held(), Some(&payload[..]));
}

#[test]
fn what_is_resumed_and_not_complete_holds_nothing() {
    let good = Record {
        total: Some(20),
        ..new_record()
    };
    let (spoilt, unknown) = (true, None);
    for (record, last) in [
        (Record { spoilt, ..good }, 7),
        (
            Record {
                total: unknown,
                ..good
            },
            7,
        ),
        (
            Record {
                total: Some(65_516),
                ..good
            },
            0xff,
        ),
        (
            Record {
                floor: 65_514,
                ..good
            },
            7,
        ),
        (good, 6),
    ] {
        let mut b = buffers();
        b.map.fill(last);
        let assembly = Assembly::resume(record, &mut b.payload, &mut b.map);
        assert_eq!(assembly.held(), None);
    }
    for (p, m) in [(65_514, 1024), (65_515, 1025), (0, 0)] {
        let (mut payload, mut map) = (vec![0; p], vec![0xff; m]);
        assert_eq!(Assembly::resume(good, &mut payload, &mut map).held(), None);
    }
}
