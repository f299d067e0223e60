//! The file and its cases.

use crate::digest::fnv;
use crate::payload::Payload;
use std::collections::BTreeMap;
use std::net::{Ipv4Addr, SocketAddrV4};

#[derive(Debug, Copy, Clone, PartialEq, Eq, PartialOrd, Ord)]
#[repr(u8)]
pub enum Kind {
    End = 0x00,
    IpCsum = 0x01,
    IpHdr = 0x02,
    TcpHdr = 0x03,
    UdpHdr = 0x04,
    IcmpHdr = 0x05,
    Fragment = 0x10,
    Tail = 0x11,
    Datagram = 0x12,
    ClientDgram = 0x20,
    ServerDgram = 0x21,
    ClientDgramEveryFragOff = 0x22,
    ServerDgramEveryFragOff = 0x23,
    IcmpFlowNew = 0x30,
    Echo = 0x31,
    EchoReply = 0x32,
    EchoMany = 0x33,
    EchoReplyMany = 0x34,
    TcpFlowNew = 0x40,
    PushState = 0x41,
    PopState = 0x42,
    ClientHole = 0x43,
    ServerHole = 0x44,
    ClientDataSegment = 0x45,
    ServerDataSegment = 0x46,
    ClientAck = 0x47,
    ServerAck = 0x48,
    ClientHdr = 0x49,
    ServerHdr = 0x4a,
    Open = 0x4b,
    ClientClose = 0x4c,
    ServerClose = 0x4d,
    ClientReset = 0x4e,
    ServerReset = 0x4f,
    ClientMessage = 0x50,
    ServerMessage = 0x51,
    ClientMessageEveryFragOff = 0x52,
    ServerMessageEveryFragOff = 0x53,
    PacketNew = 0x60,
    PushHdr = 0x61,
    Push = 0x62,
    PushBytes = 0x63,
    PushSlice = 0x64,
    LowerHeadroom = 0x65,
    LowerHeadroomFor = 0x66,
    ReturnHeadroom = 0x67,
    ToVec = 0x68,
    ToVecFrom = 0x69,
    IntoVecFrom = 0x6a,
    Dump = 0x6b,
    BitTime = 0x6c,
    Get = 0x6d,
    Mutate = 0x6e,
    AsSlice = 0x6f,
}

/// A call that is being written down: its inputs, then what the Rust answered.
pub struct Case {
    kind: Kind,
    body: Vec<u8>,
}

impl Case {
    /// The most bytes that an answer may have to be held in the file; of a longer one the file
    /// holds the digest.
    pub const HELD: usize = 128;

    pub fn new(kind: Kind) -> Self {
        let body = Vec::new();
        Self { kind, body }
    }

    pub fn u8(mut self, n: u8) -> Self {
        self.body.push(n);
        self
    }

    pub fn u16(mut self, n: u16) -> Self {
        self.body.extend(n.to_be_bytes());
        self
    }

    pub fn u32(mut self, n: u32) -> Self {
        self.body.extend(n.to_be_bytes());
        self
    }

    pub fn u64(mut self, n: u64) -> Self {
        self.body.extend(n.to_be_bytes());
        self
    }

    /// A number of bytes or a place among them.
    pub fn size(self, n: usize) -> Self {
        self.u32(u32::try_from(n).expect("sizes fit into 32 bits"))
    }

    pub fn addr(self, addr: Ipv4Addr) -> Self {
        self.u32(addr.into())
    }

    pub fn socket(self, socket: SocketAddrV4) -> Self {
        self.addr(*socket.ip()).u16(socket.port())
    }

    pub fn payload(mut self, payload: &Payload) -> Self {
        self.body.extend(payload.encoded());
        self
    }

    pub fn bytes(mut self, bytes: &[u8]) -> Self {
        self.body.extend(bytes);
        self
    }

    /// An answer: its length, then its bytes or, where they are many, their digest.
    pub fn answer(self, bytes: &[u8]) -> Self {
        let case = self.size(bytes.len());
        if bytes.len() <= Self::HELD {
            case.bytes(bytes)
        } else {
            case.u32(fnv(bytes))
        }
    }

    /// Several packets: how many, the length of each, and all of them end to end.
    pub fn packets(mut self, packets: &[Vec<u8>]) -> Self {
        self = self.u8(packets.len() as u8);
        for p in packets {
            self = self.size(p.len());
        }
        self.answer(&packets.concat())
    }
}

pub struct File {
    bytes: Vec<u8>,
    counts: BTreeMap<Kind, u32>,
}

impl File {
    pub fn new(preface: &str) -> Self {
        let mut bytes = preface.as_bytes().to_vec();
        bytes.push(0);
        let counts = BTreeMap::new();
        Self { bytes, counts }
    }

    fn put(&mut self, case: &Case) {
        let len = u8::try_from(case.body.len()).expect("a case has at most 255 bytes");
        self.bytes.extend([case.kind as u8, len]);
        self.bytes.extend(&case.body);
    }

    pub fn add(&mut self, case: Case) {
        self.put(&case);
        *self.counts.entry(case.kind).or_insert(0) += 1;
    }

    /// The last case says how many there were before it.
    pub fn end(&mut self) {
        self.put(&Case::new(Kind::End).u32(self.cases()));
    }

    pub fn cases(&self) -> u32 {
        self.counts.values().sum()
    }

    pub fn counts(&self) -> &BTreeMap<Kind, u32> {
        &self.counts
    }

    pub fn bytes(&self) -> &[u8] {
        &self.bytes
    }
}
