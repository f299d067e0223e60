//! Captures and the hex dump.

mod common;
use common::*;
use wispbundle::{IcmpFlow, Refusal, hex_dump, hex_dump_len, pcap};

const PCAPONE: [u8; 72] = [
    0xd4, 0xc3, 0xb2, 0xa1, 0x02, 0x00, 0x04, 0x00, 0x00, 0x00, 0x00, 0x00, 0x00, 0x00, 0x00, 0x00,
    0xff, 0xff, 0x00, 0x00, 0x65, 0x00, 0x00, 0x00, 0x00, 0x00, 0x00, 0x00, 0x00, 0x00, 0x00, 0x00,
    0x20, 0x00, 0x00, 0x00, 0x20, 0x00, 0x00, 0x00, 0x45, 0x00, 0x00, 0x20, 0x00, 0x00, 0x00, 0x00,
    0x40, 0x01, 0x66, 0xdb, 0x0a, 0x00, 0x00, 0x01, 0x0a, 0x00, 0x00, 0x02, 0x08, 0x00, 0x09, 0x49,
    0x12, 0x34, 0x00, 0x00, 0x6c, 0x61, 0x70, 0x21,
];

#[test]
fn the_72_bytes_of_pcapone() {
    let packet = written(|out| IcmpFlow::new(CLIENT, SERVER).echo(b"lap!", out));
    let mut file = written(pcap::header);
    file.extend(written(|out| pcap::record(0, 0, &packet, out)));
    assert_eq!(file, PCAPONE);
}

#[test]
fn a_records_time() {
    let record = written(|out| pcap::record(0x0102_0304, 999_999, b"lap!", out));
    assert_eq!(record[..8], [4, 3, 2, 1, 0x3f, 0x42, 0x0f, 0x00]);
}

#[test]
fn capture_refusals_in_their_order() {
    let long = counted(65_536);
    refused(23, Refusal::NoRoom, pcap::header);
    refused(0, Refusal::TooLong, |out| {
        pcap::record(0, 1_000_000, &long, out)
    });
    refused(0, Refusal::BadTime, |out| {
        pcap::record(0, 1_000_000, &long[1..], out)
    });
    refused(19, Refusal::NoRoom, |out| {
        pcap::record(0, 999_999, b"lap!", out)
    });
    assert_eq!(
        written(|out| pcap::record(0, 0, &long[1..], out)).len(),
        65_551
    );
}

#[test]
fn a_dump_of_two_lines() {
    let bytes: Vec<u8> = (0x1e..0x40).collect();
    let text = written(|out| hex_dump(16..33, &bytes, out));
    let expected = "17 byte packet:\n\
        00010 | 2e 2f 30 31 32 33 34 35 36 37 38 39 3a 3b 3c 3d ./0123456789:;<=\n\
        00020 | 3e                                              >\n";
    assert_eq!(hex_dump_len(16..33, &bytes), Ok(expected.len()));
    assert_eq!(String::from_utf8(text).unwrap(), expected);
    assert_eq!(
        written(|out| hex_dump(3..3, &bytes, out)),
        b"0 byte packet:\n"
    );
}

#[test]
#[allow(clippy::reversed_empty_ranges)]
fn dump_refusals_in_their_order() {
    let bytes = counted(20);
    assert_eq!(hex_dump_len(3..2, &bytes), Err(Refusal::BadPart));
    assert_eq!(hex_dump_len(0..21, &bytes), Err(Refusal::BadPart));
    assert_eq!(hex_dump_len(3..3, &bytes), Ok(15));
    refused(0, Refusal::BadPart, |out| hex_dump(3..2, &bytes, out));
    refused(500, Refusal::BadPart, |out| hex_dump(0..21, &bytes, out));
    refused(500, Refusal::BadPart, |out| {
        hex_dump(0..usize::MAX, &bytes, out)
    });
    refused(14, Refusal::NoRoom, |out| hex_dump(3..3, &bytes, out));
    let most = vec![0; 1_048_577];
    refused(500, Refusal::BadPart, |out| {
        hex_dump(1_048_577..1_048_577, &most, out)
    });
    assert_eq!(
        written(|out| hex_dump(1_048_576..1_048_576, &most, out)).len(),
        15
    );
}
