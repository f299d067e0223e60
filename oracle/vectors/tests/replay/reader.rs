//! The fields that FORMAT.md describes.

use std::net::{Ipv4Addr, SocketAddrV4};
use vectors::digest::fnv;

/// The file and the Rust differ, or the file is not as FORMAT.md says.
#[derive(Debug, PartialEq, Eq)]
pub struct Differs;

pub fn same<T: PartialEq>(a: T, b: T) -> Result<(), Differs> {
    if a == b { Ok(()) } else { Err(Differs) }
}

pub struct Reader<'a> {
    rest: &'a [u8],
}

impl<'a> Reader<'a> {
    pub fn new(body: &'a [u8]) -> Self {
        Self { rest: body }
    }

    pub fn done(&self) -> Result<(), Differs> {
        same(self.rest.len(), 0)
    }

    pub fn bytes(&mut self, n: usize) -> Result<&'a [u8], Differs> {
        let (head, rest) = self.rest.split_at_checked(n).ok_or(Differs)?;
        self.rest = rest;
        Ok(head)
    }

    fn number(&mut self, n: usize) -> Result<u64, Differs> {
        let bytes = self.bytes(n)?;
        Ok(bytes.iter().fold(0, |sum, b| sum * 256 + u64::from(*b)))
    }

    pub fn u8(&mut self) -> Result<u8, Differs> {
        self.number(1).map(|n| n as u8)
    }

    pub fn u16(&mut self) -> Result<u16, Differs> {
        self.number(2).map(|n| n as u16)
    }

    pub fn u32(&mut self) -> Result<u32, Differs> {
        self.number(4).map(|n| n as u32)
    }

    pub fn u64(&mut self) -> Result<u64, Differs> {
        self.number(8)
    }

    pub fn size(&mut self) -> Result<usize, Differs> {
        self.number(4).map(|n| n as usize)
    }

    pub fn flag(&mut self) -> Result<bool, Differs> {
        let n = self.u8()?;
        same(n < 2, true).map(|()| n == 1)
    }

    pub fn addr(&mut self) -> Result<Ipv4Addr, Differs> {
        self.u32().map(Ipv4Addr::from)
    }

    pub fn socket(&mut self) -> Result<SocketAddrV4, Differs> {
        Ok(SocketAddrV4::new(self.addr()?, self.u16()?))
    }

    /// A payload of at most `most` bytes.
    pub fn payload(&mut self, most: usize) -> Result<Vec<u8>, Differs> {
        let (form, s, n) = (self.u8()?, self.u8()?, self.size()?);
        same(n <= most && (n > 0 || form + s == 0), true)?;
        match form {
            0 => Ok((0..n)
                .map(|i| (usize::from(s) + 7 * i + i / 251) as u8)
                .collect()),
            1 => Ok(vec![s; n]),
            2 if s == 0 && n <= 64 => Ok(self.bytes(n)?.to_vec()),
            _ => Err(Differs),
        }
    }

    /// An answer that must be these bytes.
    pub fn answer(&mut self, got: &[u8]) -> Result<(), Differs> {
        let n = self.size()?;
        same(n, got.len())?;
        if n <= 128 {
            same(self.bytes(n)?, got)
        } else {
            same(self.u32()?, fnv(got))
        }
    }

    /// A length and a digest that must be those of these bytes.
    pub fn digest(&mut self, got: &[u8]) -> Result<(), Differs> {
        same(self.size()?, got.len())?;
        same(self.u32()?, fnv(got))
    }

    pub fn packets(&mut self, got: &[Vec<u8>]) -> Result<(), Differs> {
        same(usize::from(self.u8()?), got.len())?;
        for p in got {
            same(self.size()?, p.len())?;
        }
        self.answer(&got.concat())
    }

    /// A number for each side, or none.
    pub fn sides(&mut self) -> Result<(Option<u32>, Option<u32>), Differs> {
        let (bits, cl, sv) = (self.u8()?, self.u32()?, self.u32()?);
        same(bits < 4, true)?;
        let side = |bit: u8, n: u32| match bits & bit {
            0 if n != 0 => Err(Differs),
            0 => Ok(None),
            _ => Ok(Some(n)),
        };
        Ok((side(1, cl)?, side(2, sv)?))
    }
}
