//! The hex dump beside the Rust's, and captures beside the published layout.

use crate::run::{Compared, Run};
use pkt::Packet;
use wispbundle::{Refusal, hex_dump, hex_dump_len, pcap};

const MAX_END: usize = 1_048_576;

/// A headroom, an end and a buffer: mostly in order, and at times not.
fn part(run: &mut Run) -> (usize, usize, usize) {
    let headroom = run.rng.pick(&[0, 1, 15, 16, 17, 33, 4095]);
    let end = headroom + run.rng.below(80);
    let buffer = end + run.rng.below(3);
    match run.rng.below(100) {
        0..=3 => (end + 1, headroom, buffer + 1),
        4..=7 => (headroom, buffer + 1 + run.rng.below(9), buffer),
        8 => (usize::MAX, usize::MAX, buffer),
        9 => (headroom, usize::MAX, buffer),
        10 if run.rng.once_in(8) => (MAX_END - 7, MAX_END + run.rng.below(2), MAX_END + 1),
        _ => (headroom, end, buffer),
    }
}

fn rust_dump(buffer: &[u8], headroom: usize, end: usize) -> Vec<u8> {
    let pkt = Packet::new(headroom, 0);
    pkt.push_bytes(&buffer[headroom..end]);
    format!("{pkt:#?}").into_bytes()
}

pub fn dump(run: &mut Run) -> Compared {
    let (headroom, end, size) = part(run);
    let buffer = run.rng.bytes(size);
    let would_be = hex_dump_len(headroom..end, &buffer);
    if headroom > end || end > size || end > MAX_END {
        let room = run.rng.below(300);
        let refused = Err(Refusal::BadPart);
        run.same("wb_hex_dump_len", would_be, Err(Refusal::BadPart))?;
        return run.writes_one("wb_hex_dump", room, refused, |out| {
            hex_dump(headroom..end, &buffer, out)
        });
    }
    let text = rust_dump(&buffer, headroom, end);
    run.same("wb_hex_dump_len", would_be, Ok(text.len()))?;
    let room = run.room(text.len());
    let rust = match room < text.len() {
        true => Err(Refusal::NoRoom),
        false => Ok(text),
    };
    run.writes_one("wb_hex_dump", room, rust, |out| {
        hex_dump(headroom..end, &buffer, out)
    })
}

pub fn capture_header(run: &mut Run) -> Compared {
    let room = run.room(24);
    let mut header = vec![0xd4, 0xc3, 0xb2, 0xa1, 2, 0, 4, 0, 0, 0, 0, 0, 0, 0, 0, 0];
    header.extend([0xff, 0xff, 0, 0, 101, 0, 0, 0]);
    let layout = match room < 24 {
        true => Err(Refusal::NoRoom),
        false => Ok(header),
    };
    run.writes_one("wb_pcap_header", room, layout, pcap::header)
}

pub fn capture_record(run: &mut Run) -> Compared {
    let size = run.rng.size(65_535);
    let packet = run.rng.bytes(size);
    let (sec, room) = (run.rng.u32(), run.room(16 + size));
    let usec = match run.rng.below(8) {
        0 => run.rng.u32(),
        1 => run.rng.pick(&[0, 999_999, 1_000_000, u32::MAX]),
        _ => run.rng.below(1_000_000) as u32,
    };
    let length = (size as u32).to_le_bytes();
    let layout = if size > 65_535 {
        Err(Refusal::TooLong)
    } else if usec > 999_999 {
        Err(Refusal::BadTime)
    } else if room < 16 + size {
        Err(Refusal::NoRoom)
    } else {
        Ok([
            &sec.to_le_bytes(),
            &usec.to_le_bytes(),
            &length,
            &length,
            &packet[..],
        ]
        .concat())
    };
    run.writes_one("wb_pcap_record", room, layout, |out| {
        pcap::record(sec, usec, &packet, out)
    })
}
