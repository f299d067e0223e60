//! FNV-1a with 32 bits.

pub struct Fnv(u32);

impl Fnv {
    pub fn new() -> Self {
        Self(0x811c_9dc5)
    }

    pub fn add(&mut self, bytes: &[u8]) {
        for b in bytes {
            self.0 = (self.0 ^ u32::from(*b)).wrapping_mul(0x0100_0193);
        }
    }

    pub fn value(&self) -> u32 {
        self.0
    }
}

impl Default for Fnv {
    fn default() -> Self {
        Self::new()
    }
}

pub fn fnv(bytes: &[u8]) -> u32 {
    let mut digest = Fnv::new();
    digest.add(bytes);
    digest.value()
}

#[cfg(test)]
mod tests {
    use super::fnv;

    #[test]
    fn published_values() {
        assert_eq!(fnv(b""), 0x811c_9dc5);
        assert_eq!(fnv(b"a"), 0xe40c_292c);
        assert_eq!(fnv(b"foobar"), 0xbf9c_f968);
    }
}
