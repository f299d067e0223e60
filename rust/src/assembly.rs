//! Putting pieces together.

use crate::{Refusal, sys};
use std::net::Ipv4Addr;

/// The size of an assembly's payload buffer.
pub const PAYLOAD_BYTES: usize = 65_515;

/// The size of an assembly's map.
pub const MAP_BYTES: usize = 1024;

/// What the pieces of one datagram have in common: the four fields that RFC 791 names. Pieces that
/// differ in the protocol alone are of two datagrams, and the assembly of either refuses the other's
/// by 8.
#[derive(Copy, Clone, Debug, PartialEq, Eq, Hash)]
pub struct Key {
    pub src: Ipv4Addr,
    pub dst: Ipv4Addr,
    pub id: u16,
    pub protocol: u8,
}

/// What an assembly knows beside its two buffers.
#[derive(Copy, Clone, Debug, PartialEq, Eq)]
pub struct Record {
    pub key: Key,
    /// The datagram's IPv4 payload bytes, where a piece with MF clear has told them.
    pub total: Option<usize>,
    /// One more than the furthest end of a piece with MF set, or 0. In an assembly that was opened, a
    /// known total is at least this.
    pub floor: usize,
    pub spoilt: bool,
}

/// What an accepted piece leaves behind.
#[derive(Copy, Clone, Debug, PartialEq, Eq)]
pub enum Outcome {
    /// Bytes are missing still.
    Waiting,
    /// The whole IPv4 payload is held.
    Complete,
    /// Two pieces contradict each other. The piece that spoils zeroes both buffers; a spoilt record and
    /// its buffers are then left as they are.
    Spoilt,
}

/// How an assembly stands.
#[derive(Copy, Clone, Debug, PartialEq, Eq)]
pub enum Progress {
    /// Bytes are missing still.
    Waiting,
    /// The whole IPv4 payload is held: so many bytes.
    Complete(usize),
    /// Two pieces contradict each other.
    Spoilt,
}

impl Key {
    fn of(key: sys::Key) -> Self {
        Self {
            src: Ipv4Addr::from(key.saddr),
            dst: Ipv4Addr::from(key.daddr),
            id: key.id,
            protocol: key.protocol,
        }
    }

    fn raw(&self) -> sys::Key {
        sys::Key {
            saddr: u32::from(self.src),
            daddr: u32::from(self.dst),
            id: self.id,
            protocol: self.protocol,
        }
    }
}

impl Record {
    fn of(record: sys::Assembly) -> Self {
        Self {
            key: Key::of(record.key),
            total: record.known.then_some(record.total),
            floor: record.floor,
            spoilt: record.spoilt,
        }
    }

    fn raw(&self) -> sys::Assembly {
        sys::Assembly {
            key: self.key.raw(),
            known: self.total.is_some(),
            total: self.total.unwrap_or(0),
            floor: self.floor,
            spoilt: self.spoilt,
        }
    }
}

impl Outcome {
    fn of(number: u8) -> Self {
        match number {
            1 => Self::Waiting,
            2 => Self::Complete,
            3 => Self::Spoilt,
            n => unreachable!("a call that is carried out is proved to have no outcome {n}"),
        }
    }
}

/// One datagram in progress, over two borrowed buffers of [`PAYLOAD_BYTES`] and [`MAP_BYTES`]. From an
/// opened one, the same accepted pieces end in the same state, in any order and with any repeats.
///
/// ```
/// use wispbundle::{Assembly, Key, Outcome, Template};
///
/// let (src, dst) = ([10, 0, 0, 1].into(), [10, 0, 0, 2].into());
/// let template = Template { id: 7, protocol: 17, ..Template::new(src, dst) };
/// let (mut payload, mut map) = ([0; wispbundle::PAYLOAD_BYTES], [0; wispbundle::MAP_BYTES]);
/// let key = Key { src, dst, id: 7, protocol: 17 };
/// let mut assembly = Assembly::open(key, &mut payload, &mut map).unwrap();
/// let mut out = [0; 40];
///
/// let n = template.tail(b"twenty bytes of lap!", 1, &mut out).unwrap();
/// assert_eq!(assembly.take(&out[..n]), Ok(Outcome::Waiting));
/// let n = template.fragment(b"twenty bytes of lap!", 0, 1, &mut out).unwrap();
/// assert_eq!(assembly.take(&out[..n]), Ok(Outcome::Complete));
/// assert_eq!(assembly.held(), Some(&b"twenty bytes of lap!"[..]));
/// ```
#[derive(Debug)]
pub struct Assembly<'a> {
    record: Record,
    payload: &'a mut [u8],
    map: &'a mut [u8],
}

impl<'a> Assembly<'a> {
    /// Zeroes both buffers. Refuses by 11, for their sizes.
    pub fn open(key: Key, payload: &'a mut [u8], map: &'a mut [u8]) -> Result<Self, Refusal> {
        let (to, room, marks, marks_room) = (
            payload.as_mut_ptr(),
            payload.len(),
            map.as_mut_ptr(),
            map.len(),
        );
        // SAFETY: both pointers and counts are those of slices that are borrowed alone.
        let answer = unsafe { sys::wb_assembly_open(key.raw(), to, room, marks, marks_room) };
        Refusal::unless_accepted(answer.status)?;
        Ok(Self::resume(Record::of(answer.assembly), payload, map))
    }

    /// Goes on with a record and buffers that were kept. Any are taken: those that no assembly has
    /// are refused by 11 with the next call, and hold nothing.
    pub fn resume(record: Record, payload: &'a mut [u8], map: &'a mut [u8]) -> Self {
        Self {
            record,
            payload,
            map,
        }
    }

    /// Takes the piece that a packet carries: its data goes to its place, and its blocks are marked.
    /// The packet may have options, as for [`check`](crate::check). Refuses by 11, 4, 5, 6, 4, 7, 18, 8,
    /// 9, 10.
    pub fn take(&mut self, packet: &[u8]) -> Result<Outcome, Refusal> {
        let (before, from, count) = (self.record.raw(), packet.as_ptr(), packet.len());
        let (to, room) = (self.payload.as_mut_ptr(), self.payload.len());
        let (marks, marks_room) = (self.map.as_mut_ptr(), self.map.len());
        // SAFETY: all pointers and counts are those of slices, and both buffers are borrowed alone.
        let answer =
            unsafe { sys::wb_assembly_take(before, from, count, to, room, marks, marks_room) };
        Refusal::unless_accepted(answer.status)?;
        self.record = Record::of(answer.assembly);
        Ok(Outcome::of(answer.outcome))
    }

    /// How the assembly stands. Refuses by 11.
    pub fn progress(&self) -> Result<Progress, Refusal> {
        let (from, count) = (self.payload.as_ptr(), self.payload.len());
        let (marks, marks_count) = (self.map.as_ptr(), self.map.len());
        // SAFETY: both pointers and counts are those of slices.
        let answer = unsafe {
            sys::wb_assembly_progress(self.record.raw(), from, count, marks, marks_count)
        };
        Refusal::unless_accepted(answer.status)?;
        Ok(match Outcome::of(answer.outcome) {
            Outcome::Waiting => Progress::Waiting,
            Outcome::Complete => Progress::Complete(answer.length),
            Outcome::Spoilt => Progress::Spoilt,
        })
    }

    /// The datagram's IPv4 payload, where [`progress`](Self::progress) answers that it is complete.
    pub fn held(&self) -> Option<&[u8]> {
        match self.progress() {
            Ok(Progress::Complete(length)) => self.payload.get(..length),
            _ => None,
        }
    }

    pub fn record(&self) -> Record {
        self.record
    }

    /// The whole payload buffer.
    pub fn payload(&self) -> &[u8] {
        self.payload
    }

    /// Which blocks of 8 bytes are held: block k is bit k mod 8 of byte k/8, lowest bit first.
    pub fn map(&self) -> &[u8] {
        self.map
    }
}
