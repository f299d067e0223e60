//! Numbers that look random and are the same on every run.

use crate::payload::Payload;
use std::net::{Ipv4Addr, SocketAddrV4};

/// SplitMix64.
pub struct Rng(u64);

impl Rng {
    pub fn new(seed: u64) -> Self {
        Self(seed)
    }

    pub fn u64(&mut self) -> u64 {
        self.0 = self.0.wrapping_add(0x9e37_79b9_7f4a_7c15);
        let mut z = self.0;
        z = (z ^ (z >> 30)).wrapping_mul(0xbf58_476d_1ce4_e5b9);
        z = (z ^ (z >> 27)).wrapping_mul(0x94d0_49bb_1331_11eb);
        z ^ (z >> 31)
    }

    pub fn u32(&mut self) -> u32 {
        (self.u64() >> 32) as u32
    }

    pub fn u16(&mut self) -> u16 {
        (self.u64() >> 48) as u16
    }

    pub fn u8(&mut self) -> u8 {
        (self.u64() >> 56) as u8
    }

    pub fn flip(&mut self) -> bool {
        self.u64() >> 63 == 1
    }

    /// A number below `n`, which is not 0.
    pub fn below(&mut self, n: usize) -> usize {
        (self.u64() % n as u64) as usize
    }

    pub fn pick<T: Copy>(&mut self, from: &[T]) -> T {
        from[self.below(from.len())]
    }

    pub fn addr(&mut self) -> Ipv4Addr {
        self.u32().into()
    }

    pub fn socket(&mut self) -> SocketAddrV4 {
        SocketAddrV4::new(self.addr(), self.u16())
    }

    /// A payload of `len` bytes: by the rule, of one byte throughout, or, where it is short, given.
    pub fn payload(&mut self, len: usize) -> Payload {
        let form = self.below(6);
        let byte = self.u8();
        match form {
            0 => Payload::fill(self.pick(&[0x00, 0xff, byte]), len),
            1 if len <= Payload::GIVEN => Payload::given((0..len).map(|_| self.u8()).collect()),
            _ => Payload::rule(byte, len),
        }
    }

    /// A payload of at most `most` bytes.
    pub fn short(&mut self, most: usize) -> Payload {
        let len = self.below(most + 1);
        self.payload(len)
    }
}
