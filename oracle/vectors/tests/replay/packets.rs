//! The calls on a packet with headroom.

use crate::reader::{Differs, Reader, same};
use pkt::{Packet, PktSlice};
use vectors::digest::fnv;
use vectors::pod::{Blob, header_at, part};

const MAX_END: usize = 1_048_576;

pub struct Run {
    pkt: Packet,
    /// The largest end that the run may reach, and the largest that it has reached.
    room: usize,
    reached: usize,
}

/// A run that is over has reached the end that it was given.
pub fn ended(run: Option<Run>) -> Result<(), Differs> {
    run.map_or(Ok(()), |run| same(run.room, run.reached))
}

/// Calls a function of a header's size that takes the packet and the header's bytes.
macro_rules! sized {
    ($size:expr, $call:ident, $($arg:expr),*) => {
        match $size {
            0 => Ok($call::<0>($($arg),*)),
            1 => Ok($call::<1>($($arg),*)),
            4 => Ok($call::<4>($($arg),*)),
            8 => Ok($call::<8>($($arg),*)),
            14 => Ok($call::<14>($($arg),*)),
            16 => Ok($call::<16>($($arg),*)),
            20 => Ok($call::<20>($($arg),*)),
            _ => Err(Differs),
        }
    };
}

fn push_hdr<const N: usize>(pkt: &Packet) -> usize {
    pkt.push_hdr::<Blob<N>>().off()
}

fn push<const N: usize>(pkt: &Packet, item: &[u8]) -> usize {
    pkt.push(Blob::<N>(item.try_into().expect("N bytes"))).off()
}

fn lower<const N: usize>(pkt: &mut Packet) -> usize {
    pkt.lower_headroom::<Blob<N>>().off()
}

fn lower_for<const N: usize>(pkt: &mut Packet, item: &[u8]) -> usize {
    let item = Blob::<N>(item.try_into().expect("N bytes"));
    pkt.lower_headroom_for(item).off()
}

fn give_back<const N: usize>(pkt: &mut Packet) {
    let off = pkt.headroom();
    pkt.return_headroom(header_at::<N>(off));
}

fn same_part(r: &mut Reader, got: PktSlice) -> Result<(), Differs> {
    same((r.size()?, r.size()?), (got.off(), got.len()))
}

impl Run {
    pub fn new(r: &mut Reader) -> Result<Self, Differs> {
        let (headroom, room) = (r.size()?, r.size()?);
        same(headroom <= room && room <= MAX_END, true)?;
        let pkt = Packet::new(headroom, 0);
        let reached = headroom;
        let mut run = Self { pkt, room, reached };
        run.record(r)?;
        Ok(run)
    }

    fn end(&self) -> usize {
        self.pkt.headroom() + self.pkt.len()
    }

    fn record(&mut self, r: &mut Reader) -> Result<(), Differs> {
        let end = self.end();
        self.reached = self.reached.max(end);
        same((r.size()?, r.size()?), (self.pkt.headroom(), end))?;
        same(r.u32()?, fnv(&part(0, end).get(&self.pkt)))
    }

    pub fn call(&mut self, kind: u8, r: &mut Reader) -> Result<(), Differs> {
        match kind {
            0x61..=0x64 => self.longer(kind, r)?,
            0x65..=0x67 => self.headroom(kind, r)?,
            0x69 | 0x6a | 0x6d => self.read_part(kind, r)?,
            0x6e => self.write_part(r)?,
            _ => self.read(kind, r)?,
        }
        self.record(r)
    }

    fn longer(&mut self, kind: u8, r: &mut Reader) -> Result<(), Differs> {
        let pkt = &self.pkt;
        match kind {
            0x61 => {
                let off = sized!(r.size()?, push_hdr, pkt)?;
                same(r.size()?, off)
            }
            0x62 => {
                let item = r.payload(20)?;
                let off = sized!(item.len(), push, pkt, &item)?;
                same(r.size()?, off)
            }
            0x63 => {
                let got = pkt.push_bytes(r.payload(self.room)?);
                same_part(r, got)
            }
            _ => {
                let len = r.size()?;
                same(len <= self.room, true)?;
                same_part(r, pkt.push_slice(len))
            }
        }
    }

    fn headroom(&mut self, kind: u8, r: &mut Reader) -> Result<(), Differs> {
        let spare = self.pkt.headroom();
        if kind == 0x67 {
            let (off, size) = (r.size()?, r.size()?);
            same(off == spare && size <= self.pkt.len(), true)?;
            return sized!(size, give_back, &mut self.pkt);
        }
        let item = if kind == 0x65 {
            vec![0; r.size()?.min(spare + 1)]
        } else {
            r.payload(20)?
        };
        same(item.len() <= spare, true)?;
        let off = match kind {
            0x65 => sized!(item.len(), lower, &mut self.pkt)?,
            _ => sized!(item.len(), lower_for, &mut self.pkt, &item)?,
        };
        same(r.size()?, off)
    }

    /// A part must lie within the packet.
    fn within(&self, off: usize, len: usize) -> Result<(), Differs> {
        same(off >= self.pkt.headroom() && off + len <= self.end(), true)
    }

    fn read_part(&mut self, kind: u8, r: &mut Reader) -> Result<(), Differs> {
        let (off, len) = (r.size()?, r.size()?);
        self.within(off, len)?;
        let ps = part(off, len);
        let got = match kind {
            0x69 => self.pkt.to_vec_from(ps),
            0x6a => self.pkt.clone().into_vec_from(ps),
            _ => ps.get(&self.pkt).to_vec(),
        };
        r.answer(&got)
    }

    fn write_part(&mut self, r: &mut Reader) -> Result<(), Differs> {
        let (off, data) = (r.size()?, r.payload(self.room)?);
        self.within(off, data.len())?;
        let ps = part(off, data.len());
        ps.mutate(&self.pkt, |bytes| bytes.copy_from_slice(&data));
        Ok(())
    }

    fn read(&mut self, kind: u8, r: &mut Reader) -> Result<(), Differs> {
        match kind {
            0x68 => r.answer(&self.pkt.to_vec()),
            0x6b => r.answer(format!("{:#?}", self.pkt).as_bytes()),
            0x6c => same(r.u64()?, self.pkt.bit_time()),
            _ => same_part(r, self.pkt.as_slice()),
        }
    }
}
