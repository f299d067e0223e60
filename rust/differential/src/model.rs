//! Document 01's check and assembly, the latter with document 02's key, written anew and in another
//! way: bytes and whole pieces, no blocks tested and no floor. Headers are RFC 791's, with options.

use std::net::Ipv4Addr;
use wispbundle::{Good, Key, MAP_BYTES, Outcome, PAYLOAD_BYTES, Progress, Record, Refusal};

pub fn be16(bytes: &[u8], at: usize) -> usize {
    usize::from(bytes[at]) << 8 | usize::from(bytes[at + 1])
}

/// RFC 1071 word by word, folding at every step.
pub fn verifies(parts: &[&[u8]]) -> bool {
    let mut sum = 0_u32;
    for part in parts {
        for pair in part.chunks(2) {
            sum += u32::from(pair[0]) << 8 | pair.get(1).map_or(0, |&low| u32::from(low));
            sum = (sum & 0xffff) + (sum >> 16);
        }
    }
    sum == 0xffff
}

/// The header with its options and the data up to the total length: 4 (under 20), 5, 6, 4 (total), 7,
/// 18. RFC 791, 3.1: the version is the first byte's high four bits, and its low four, the IHL, are
/// "the length of the internet header in 32 bit words", which "points to the beginning of the data".
fn read(packet: &[u8]) -> Result<(&[u8], &[u8]), Refusal> {
    if packet.len() < 20 {
        return Err(Refusal::Short);
    }
    let (version, ihl) = (packet[0] >> 4, packet[0] & 0x0f);
    let (header, total) = (usize::from(ihl) << 2, be16(packet, 2));
    match () {
        _ if version != 4 || ihl < 5 => Err(Refusal::NotIpv4),
        _ if total < header => Err(Refusal::BadTotal),
        _ if packet.len() < total => Err(Refusal::Short),
        _ if !verifies(&[&packet[..header]]) => Err(Refusal::BadHeader),
        _ if be16(packet, 6) & 0x8000 != 0 => Err(Refusal::Reserved),
        _ => Ok(packet[..total].split_at(header)),
    }
}

pub fn check(packet: &[u8]) -> Result<Good, Refusal> {
    let (header, data) = read(packet)?;
    let protocol = header[9];
    if be16(header, 6) & 0x3fff != 0 {
        return Err(Refusal::Piece);
    }
    let cut = match protocol {
        1 => data.len() < 8,
        6 => data.len() < 20 || data[12] != 0x50,
        17 => data.len() < 8 || be16(data, 4) != data.len(),
        _ => return Err(Refusal::OtherProtocol),
    };
    let length = (data.len() as u16).to_be_bytes();
    let pseudo = [&header[12..20], &[0, protocol], &length].concat();
    match () {
        _ if cut => Err(Refusal::Cut),
        _ if protocol == 17 && be16(data, 6) == 0 => Ok(Good::WithoutChecksum),
        _ if protocol == 1 && !verifies(&[data]) => Err(Refusal::BadSum),
        _ if protocol != 1 && !verifies(&[&pseudo, data]) => Err(Refusal::BadSum),
        _ => Ok(Good::Checked),
    }
}

/// What a header names as its datagram.
pub fn key_of(header: &[u8]) -> Key {
    let addr = |at| Ipv4Addr::new(header[at], header[at + 1], header[at + 2], header[at + 3]);
    Key {
        src: addr(12),
        dst: addr(16),
        id: be16(header, 4) as u16,
        protocol: header[9],
    }
}

/// A piece that was accepted.
pub struct Piece {
    pub start: usize,
    pub data: Vec<u8>,
    pub more: bool,
}

impl Piece {
    pub fn end(&self) -> usize {
        self.start + self.data.len()
    }

    /// 4, 5, 6, 4, 7, 18, 8, 9, 10.
    pub fn read(key: Key, packet: &[u8]) -> Result<Self, Refusal> {
        let (header, data) = read(packet)?;
        let field = be16(header, 6);
        let piece = Self {
            start: 8 * (field & 0x1fff),
            data: data.to_vec(),
            more: field & 0x2000 != 0,
        };
        match () {
            _ if key_of(header) != key => Err(Refusal::WrongKey),
            _ if piece.more && !piece.data.len().is_multiple_of(8) => Err(Refusal::NotBlocks),
            _ if piece.end() > PAYLOAD_BYTES => Err(Refusal::TooFar),
            _ => Ok(piece),
        }
    }

    /// Whether two pieces hold different bytes at one place, or their ends cannot both be.
    fn contradicts(&self, other: &Self) -> bool {
        let (from, to) = (self.start.max(other.start), self.end().min(other.end()));
        let bytes = from < to
            && self.data[from - self.start..to - self.start]
                != other.data[from - other.start..to - other.start];
        bytes
            || match (self.more, other.more) {
                (false, false) => self.end() != other.end(),
                (true, false) => self.end() >= other.end(),
                (false, true) => other.end() >= self.end(),
                (true, true) => false,
            }
    }
}

/// What taking a piece answers, where the assembly then stands so.
pub fn outcome(progress: Progress) -> Outcome {
    match progress {
        Progress::Waiting => Outcome::Waiting,
        Progress::Complete(_) => Outcome::Complete,
        Progress::Spoilt => Outcome::Spoilt,
    }
}

/// An assembly as the list of the pieces that it accepted.
pub struct Assembly {
    key: Key,
    pieces: Vec<Piece>,
    spoilt: bool,
    pub payload: Vec<u8>,
    pub map: Vec<u8>,
}

impl Assembly {
    pub fn open(key: Key) -> Self {
        Self {
            key,
            pieces: Vec::new(),
            spoilt: false,
            payload: vec![0; PAYLOAD_BYTES],
            map: vec![0; MAP_BYTES],
        }
    }

    pub fn record(&self) -> Record {
        let last = self.pieces.iter().find(|p| !p.more);
        let ends = self.pieces.iter().filter(|p| p.more).map(Piece::end);
        Record {
            key: self.key,
            total: last.map(Piece::end),
            floor: ends.max().map_or(0, |end| end + 1),
            spoilt: self.spoilt,
        }
    }

    /// Whether the pieces leave no gap below the total.
    fn covers(&self, total: usize) -> bool {
        let mut spans: Vec<_> = self.pieces.iter().map(|p| (p.start, p.end())).collect();
        spans.sort();
        let reach = |held, (start, end): (usize, usize)| match start <= held {
            true => end.max(held),
            false => held,
        };
        spans.into_iter().fold(0, reach) >= total
    }

    pub fn progress(&self) -> Progress {
        match self.record().total {
            _ if self.spoilt => Progress::Spoilt,
            Some(total) if self.covers(total) => Progress::Complete(total),
            _ => Progress::Waiting,
        }
    }

    fn spoil(&mut self) {
        self.pieces.clear();
        self.spoilt = true;
        self.payload.fill(0);
        self.map.fill(0);
    }

    fn keep(&mut self, piece: Piece) {
        self.payload[piece.start..piece.end()].copy_from_slice(&piece.data);
        for byte in piece.start..piece.end() {
            let block = byte / 8;
            self.map[block / 8] |= 1 << (block % 8);
        }
        self.pieces.push(piece);
    }

    pub fn take(&mut self, packet: &[u8]) -> Result<Outcome, Refusal> {
        let piece = Piece::read(self.key, packet)?;
        if !self.spoilt {
            match self.pieces.iter().any(|other| other.contradicts(&piece)) {
                true => self.spoil(),
                false => self.keep(piece),
            }
        }
        Ok(outcome(self.progress()))
    }
}
