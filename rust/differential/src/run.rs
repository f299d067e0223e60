//! One run: what is drawn, what was compared so far, and the comparison itself.

use crate::marks;
use crate::rng::Rng;
use std::collections::BTreeMap;
use std::fmt::Debug;
use wispbundle::{Marks, Refusal};

/// What differed, in words.
pub type Compared = Result<(), String>;

pub struct Run {
    pub rng: Rng,
    /// Those of the flow or the request that calls are made on.
    pub marks: Marks,
    /// How often a call, by its name in the header, gave a status: 0, or the number of a refusal.
    pub calls: BTreeMap<(&'static str, u8), u64>,
    /// How often something was seen that has a line of its own.
    pub seen: BTreeMap<String, u64>,
}

/// The byte at a place of a buffer before a call.
pub fn pattern(at: usize) -> u8 {
    (at.wrapping_mul(31) ^ 0xa5) as u8
}

impl Run {
    pub fn new() -> Self {
        Self {
            rng: Rng::of_case(0, 0),
            marks: Marks::default(),
            calls: BTreeMap::new(),
            seen: BTreeMap::new(),
        }
    }

    pub fn count(&self) -> u64 {
        self.calls.values().sum()
    }

    /// Counts what is worth a line of its own.
    pub fn saw(&mut self, what: impl Into<String>) {
        *self.seen.entry(what.into()).or_default() += 1;
    }

    /// Draws the marks of a flow or a request.
    pub fn mark(&mut self) -> Marks {
        self.marks = marks::draw(&mut self.rng);
        self.marks
    }

    fn called(&mut self, name: &'static str, status: u8) {
        *self.calls.entry((name, status)).or_default() += 1;
        if status == 0 && self.marks != Marks::default() {
            self.saw(marks::line(name));
        }
    }

    /// Counts a call that answers nothing; what it changed is compared elsewhere.
    pub fn made(&mut self, name: &'static str) -> Compared {
        self.called(name, 0);
        Ok(())
    }

    /// Counts a call, and compares what it answered.
    pub fn same<T: PartialEq + Debug>(
        &mut self,
        name: &'static str,
        got: Result<T, Refusal>,
        expected: Result<T, Refusal>,
    ) -> Compared {
        let status = got.as_ref().map_or_else(|refusal| refusal.number(), |_| 0);
        self.answered(name, status, got, expected)
    }

    /// Counts a call by its status, and compares what it answered.
    pub fn answered<T: PartialEq + Debug>(
        &mut self,
        name: &'static str,
        status: u8,
        got: T,
        expected: T,
    ) -> Compared {
        self.called(name, status);
        match got == expected {
            true => Ok(()),
            false => Err(format!("{name}: {got:?} and not {expected:?}")),
        }
    }

    /// Room for `n` bytes or places: often just enough, at times too little, mostly more.
    pub fn room(&mut self, n: usize) -> usize {
        match self.rng.below(16) {
            0 | 1 => n.saturating_sub(1),
            2 => self.rng.below(n + 1),
            3..=6 => n,
            _ => n + self.rng.below(64),
        }
    }

    /// Makes a call that writes packets end to end into `room` bytes. Compares where each ends, every
    /// byte of them, and the bytes behind, which keep the pattern; all of them do on a refusal.
    pub fn writes<const N: usize>(
        &mut self,
        name: &'static str,
        room: usize,
        expected: Result<[Vec<u8>; N], Refusal>,
        call: impl FnOnce(&mut [u8]) -> Result<[usize; N], Refusal>,
    ) -> Compared {
        let mut out: Vec<u8> = (0..room).map(pattern).collect();
        let got = call(&mut out);
        let packets = expected.as_ref().map_or(Vec::new(), |p| p.concat());
        let ends = expected.map(|packets| {
            let mut end = 0;
            packets.map(|p| {
                end += p.len();
                end
            })
        });
        self.same(name, got, ends)?;
        if out[..packets.len()] != packets {
            return Err(format!("{name}: other bytes in a packet"));
        }
        match (packets.len()..room).find(|&at| out[at] != pattern(at)) {
            None => Ok(()),
            Some(at) => Err(format!(
                "{name}: byte {at} behind the packet was written to"
            )),
        }
    }

    /// The same for one packet.
    pub fn writes_one(
        &mut self,
        name: &'static str,
        room: usize,
        expected: Result<Vec<u8>, Refusal>,
        call: impl FnOnce(&mut [u8]) -> Result<usize, Refusal>,
    ) -> Compared {
        self.writes(name, room, expected.map(|p| [p]), |out| {
            call(out).map(|n| [n])
        })
    }
}

/// What building answers by document 01: 1, 2, 3 in this order, and else the Rust's packets, which are
/// `n` bytes together.
pub fn expected<T>(
    (size, limit): (usize, usize),
    offset: u16,
    (room, n): (usize, usize),
    rust: impl FnOnce() -> T,
) -> Result<T, Refusal> {
    if size > limit {
        Err(Refusal::TooLong)
    } else if offset > 8191 {
        Err(Refusal::BadOffset)
    } else if room < n {
        Err(Refusal::NoRoom)
    } else {
        Ok(rust())
    }
}
