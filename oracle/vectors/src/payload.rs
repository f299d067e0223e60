//! Payloads, long ones by a rule so that the file need not hold them.

#[derive(Debug, Clone)]
enum Form {
    Rule(u8),
    Fill(u8),
    Given,
}

#[derive(Debug, Clone)]
pub struct Payload {
    form: Form,
    bytes: Vec<u8>,
}

impl Payload {
    /// The most bytes that a payload may have to be held in the file.
    pub const GIVEN: usize = 64;

    /// Byte i is (seed + 7 * i + i / 251) mod 256.
    pub fn rule(seed: u8, len: usize) -> Self {
        let byte = |i: usize| ((usize::from(seed) + 7 * i + i / 251) % 256) as u8;
        Self {
            form: Form::Rule(seed),
            bytes: (0..len).map(byte).collect(),
        }
    }

    pub fn fill(byte: u8, len: usize) -> Self {
        Self {
            form: Form::Fill(byte),
            bytes: vec![byte; len],
        }
    }

    pub fn given(bytes: Vec<u8>) -> Self {
        assert!(bytes.len() <= Self::GIVEN);
        Self {
            form: Form::Given,
            bytes,
        }
    }

    pub fn bytes(&self) -> &[u8] {
        &self.bytes
    }

    pub fn len(&self) -> usize {
        self.bytes.len()
    }

    /// Form, seed or byte, length, and the bytes where they are given. An empty payload is six
    /// zeros, whatever its form.
    pub fn encoded(&self) -> Vec<u8> {
        let (form, byte) = match self.form {
            _ if self.bytes.is_empty() => (0, 0),
            Form::Rule(seed) => (0, seed),
            Form::Fill(byte) => (1, byte),
            Form::Given => (2, 0),
        };
        let mut out = vec![form, byte];
        out.extend((self.len() as u32).to_be_bytes());
        if form == 2 {
            out.extend(&self.bytes);
        }
        out
    }
}
