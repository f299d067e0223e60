//! Packets with options (RFC 791, 3.1), right and wrong, and what a run must have seen of them.

use crate::damage::{be16, header, mend, mend_front};
use crate::model;
use crate::rng::Rng;
use crate::run::Run;
use crate::seen::words;
use wispbundle::Refusal;

/// RFC 2113.
const ROUTER_ALERT: [u8; 4] = [0x94, 0x04, 0x00, 0x00];

/// The calls that are handed them.
const CALLS: [&str; 2] = ["wb_check", "wb_assembly_take"];

/// The status of a call, what is true of the packet that it was handed, and how that is tested. The
/// packet has 20 bytes or more.
type Kind = (u8, &'static str, fn(&[u8]) -> bool);

const KINDS: [Kind; 7] = [
    (0, "router alert", |p| {
        p[0] == 0x46 && p[20..24] == ROUTER_ALERT
    }),
    (4, "fewer bytes than the header", |p| {
        p.len() < 4 * usize::from(p[0] & 0x0f)
    }),
    (5, "a header of 4 words", |p| p[0] == 0x44),
    (5, "version 5", |p| p[0] >> 4 == 5),
    (6, "a total length of 20 or more", |p| {
        model::be16(p, 2) >= 20
    }),
    (7, "the first 20 bytes verify", |p| {
        model::verifies(&[&p[..20]])
    }),
    (7, "the first 20 bytes do not verify", |p| {
        p[0] > 0x45 && !model::verifies(&[&p[..20]])
    }),
];

fn line(call: &str, status: u8, what: &str) -> String {
    format!("{}: {what}", words(&(call, status)))
}

fn of_words(call: &str, count: u8) -> String {
    line(call, 0, &format!("a header of {count} words"))
}

/// What a run must have seen: of each call, every length of a header, and every kind.
pub fn owed() -> impl Iterator<Item = String> {
    CALLS.into_iter().flat_map(|call| {
        let lengths = (5..=15).map(move |count| of_words(call, count));
        lengths.chain(KINDS.map(|(status, what, _)| line(call, status, what)))
    })
}

/// Counts a packet that a call was handed, by what is true of it.
pub fn saw(run: &mut Run, call: &str, packet: &[u8], refused: Option<Refusal>) {
    if packet.len() < 20 {
        return;
    }
    let given = refused.map_or(0, Refusal::number);
    if let 0x46..=0x4f = packet[0] {
        run.saw(format!("{call}, handed options"));
    }
    if given == 0 {
        run.saw(of_words(call, packet[0] & 0x0f));
    }
    for (status, what, holds) in KINDS {
        if given == status && holds(packet) {
            run.saw(line(call, status, what));
        }
    }
}

/// Puts options behind a packet's header of 20 bytes, where its total length has room for them: router
/// alert, or any bytes of any of the ten lengths. Where `odd`, one thing is wrong with them once in
/// three.
pub fn put(rng: &mut Rng, packet: &mut Vec<u8>, odd: bool) {
    let size = 4 + 4 * rng.below(10);
    let options = match rng.once_in(4) {
        true => ROUTER_ALERT.to_vec(),
        false => rng.bytes(size).to_vec(),
    };
    let total = packet.len() + options.len();
    if total > 65_535 {
        return;
    }
    packet[0] += (options.len() / 4) as u8;
    be16(packet, 2, total as u16);
    packet.splice(20..20, options);
    mend(packet);
    if odd && rng.once_in(3) {
        spoil(rng, packet);
    }
}

/// One thing that is wrong with a header with options.
fn spoil(rng: &mut Rng, packet: &mut Vec<u8>) {
    let within = 20 + rng.below(header(packet) - 20);
    match rng.below(6) {
        0 => packet[0] = rng.pick(&[0x40, 0x41, 0x44, 0x44]),
        1 => packet[0] ^= rng.pick(&[0x10, 0x10, 0x20, 0x40, 0x80]),
        2 => be16(packet, 2, within as u16),
        3 => return packet.truncate(within),
        4 => return mend_front(packet, 20),
        _ => return packet[within] ^= 1 << rng.below(8),
    }
    mend(packet);
}
