//! Reads the file as FORMAT.md says, with nothing of the program that writes it but the digest and
//! the header types, makes every call anew and compares. So FORMAT.md holds all that a reader needs,
//! and a changed byte is noticed.

mod flows;
mod packets;
mod reader;

use reader::{Differs, Reader};

/// What the calls of a case are made on.
#[derive(Default)]
struct Current {
    icmp: Option<flows::Icmp>,
    tcp: Option<flows::Tcp>,
    pkt: Option<packets::Run>,
}

fn case(now: &mut Current, kind: u8, r: &mut Reader) -> Result<(), Differs> {
    match kind {
        0x01..=0x05 => flows::ipv4(kind, r),
        0x10..=0x12 => flows::ip4(kind, r),
        0x20..=0x23 => flows::udp4(kind, r),
        0x30 => flows::icmp_new(r).map(|flow| now.icmp = Some(flow)),
        0x31..=0x34 => now.icmp.as_mut().ok_or(Differs)?.call(kind, r),
        0x40 => flows::tcp_new(r).map(|flow| now.tcp = Some(flow)),
        0x41..=0x53 => now.tcp.as_mut().ok_or(Differs)?.call(kind, r),
        0x60 => {
            packets::ended(now.pkt.take())?;
            packets::Run::new(r).map(|run| now.pkt = Some(run))
        }
        0x61..=0x6f => now.pkt.as_mut().ok_or(Differs)?.call(kind, r),
        _ => Err(Differs),
    }
}

/// How many cases there were, or the number of the first that differs.
fn replay(file: &[u8]) -> Result<u32, u32> {
    let start = file.iter().position(|b| *b == 0).ok_or(0_u32)? + 1;
    let (mut rest, mut now, mut count) = (&file[start..], Current::default(), 0);
    loop {
        let [kind, len, tail @ ..] = rest else {
            return Err(count);
        };
        let body = tail.get(..usize::from(*len)).ok_or(count)?;
        rest = &tail[body.len()..];
        let mut r = Reader::new(body);
        if *kind == 0 {
            let ended = packets::ended(now.pkt.take()).is_ok();
            let right = r.u32() == Ok(count) && r.done().is_ok() && rest.is_empty();
            return if ended && right {
                Ok(count)
            } else {
                Err(count)
            };
        }
        let same = case(&mut now, *kind, &mut r).and_then(|()| r.done());
        same.map_err(|Differs| count)?;
        count += 1;
    }
}

/// Where each case begins.
fn starts(file: &[u8]) -> Vec<usize> {
    let mut at = file.iter().position(|b| *b == 0).expect("a text") + 1;
    let mut starts = Vec::new();
    while at < file.len() {
        starts.push(at);
        at += 2 + usize::from(file[at + 1]);
    }
    starts
}

#[test]
fn every_case_comes_out_again() {
    let file = vectors::file();
    assert_eq!(replay(file.bytes()), Ok(file.cases()));
    assert!(file.cases() >= 5000);
    assert!(file.bytes().len() <= 1_000_000);
}

#[test]
fn the_file_is_always_the_same() {
    assert_eq!(vectors::file().bytes(), vectors::file().bytes());
}

/// One bit in a case here and there. It is noticed at its case or, where it changes what a later call
/// is made on, after it. (Not every bit counts: a length that reaches past the payload's end may grow.)
#[test]
fn a_changed_byte_is_noticed() {
    let file = vectors::file();
    let starts = starts(file.bytes());
    let step = starts.len() / 20;
    for (i, at) in starts.iter().enumerate().step_by(step) {
        let mut changed = file.bytes().to_vec();
        let len = 2 + usize::from(changed[at + 1]);
        changed[at + i % len] ^= 1 << (i % 8);
        let first = replay(&changed).expect_err("the change shows");
        assert!(first as usize >= i, "case {i}");
    }
}
