//! Numbers and bytes that look random and are the same for the same seed.

use std::ops::{Deref, DerefMut};
use vectors::rng::Rng as Numbers;

/// The oracle's numbers, and what a run of random calls draws besides.
pub struct Rng(Numbers);

impl Deref for Rng {
    type Target = Numbers;

    fn deref(&self) -> &Numbers {
        &self.0
    }
}

impl DerefMut for Rng {
    fn deref_mut(&mut self) -> &mut Numbers {
        &mut self.0
    }
}

impl Rng {
    /// The numbers of one case of a run.
    pub fn of_case(seed: u64, case: u64) -> Self {
        let mixed = Numbers::new(seed).u64() ^ case;
        Self(Numbers::new(mixed))
    }

    /// True once in `n`.
    pub fn once_in(&mut self, n: usize) -> bool {
        self.below(n) == 0
    }

    /// A number that is often close to 0 or to 2^32.
    pub fn near_wrap(&mut self) -> u32 {
        match self.below(3) {
            0 => self.u32(),
            1 => self.below(300) as u32,
            _ => u32::MAX - self.below(300) as u32,
        }
    }

    /// A size that is mostly small, and at times around the limit, on either side of it.
    pub fn size(&mut self, limit: usize) -> usize {
        match self.below(500) {
            0 => limit - self.below(4),
            1..=5 => limit + 1 + self.below(4),
            6 => self.below(limit + 1),
            7..=24 => self.below(4000),
            25..=99 => self.below(400),
            _ => self.below(48),
        }
    }

    /// Bytes that begin at any alignment: all alike once in eight, and else drawn.
    pub fn bytes(&mut self, len: usize) -> Bytes {
        let start = self.below(8);
        let same = self.pick(&[0x00, 0xff]);
        let mut held = vec![same; start + len + 8];
        if !self.once_in(8) {
            for chunk in held.chunks_exact_mut(8) {
                chunk.copy_from_slice(&self.u64().to_le_bytes());
            }
        }
        Bytes { held, start, len }
    }
}

/// Some bytes, as part of more.
pub struct Bytes {
    held: Vec<u8>,
    start: usize,
    len: usize,
}

impl Deref for Bytes {
    type Target = [u8];

    fn deref(&self) -> &[u8] {
        &self.held[self.start..][..self.len]
    }
}

impl DerefMut for Bytes {
    fn deref_mut(&mut self) -> &mut [u8] {
        &mut self.held[self.start..][..self.len]
    }
}
