//! The calls that are measured: those of the archive, the Rust's own, and a copy of as many bytes.

use crate::measure::{Calls, calls};
use ezpkt::ip4::IpFrag;
use pkt::Packet;
use pkt::ipv4::ip_hdr;
use std::cell::RefCell;
use std::hint::black_box;
use std::net::SocketAddrV4;
use std::rc::Rc;
use wispbundle::{Marks, sys};

/// What is measured side by side.
pub struct Subject {
    pub ours: Calls,
    /// The same by single calls of the archive, where `ours` is one for a list.
    pub singly: Option<Calls>,
    pub rust: Option<Calls>,
    pub copy: Calls,
}

const CL: SocketAddrV4 = SocketAddrV4::new(std::net::Ipv4Addr::new(10, 0, 0, 1), 20_777);
const SV: SocketAddrV4 = SocketAddrV4::new(std::net::Ipv4Addr::new(10, 0, 0, 2), 20_777);

/// Room for the longest packet.
const ROOM: usize = 65_535;

fn bytes(n: usize) -> Vec<u8> {
    (0..n).map(|i| (i * 7 + i / 251) as u8).collect()
}

fn copy(n: usize) -> Calls {
    let (from, mut to) = (bytes(n), vec![0; n]);
    calls(move || black_box(&mut to[..]).copy_from_slice(black_box(&from)))
}

fn accepted(status: u8) {
    assert_eq!(status, 0, "a call that is measured was refused");
}

pub fn checksum(n: usize) -> Subject {
    let (ours, rust) = (bytes(n), bytes(n));
    Subject {
        ours: calls(move || {
            let from = black_box(&ours[..]);
            // SAFETY: the pointer and the count are those of a slice.
            let sum = unsafe { sys::wb_ip_csum(from.as_ptr(), from.len()) };
            accepted(black_box(sum).status);
        }),
        singly: None,
        rust: Some(calls(move || {
            black_box(pkt::ipv4::ip_csum(black_box(&rust)));
        })),
        copy: copy(n),
    }
}

fn udp() -> sys::UdpDatagram {
    sys::UdpDatagram {
        saddr: u32::from(*CL.ip()),
        daddr: u32::from(*SV.ip()),
        sport: CL.port(),
        dport: SV.port(),
        frag_off: 0,
        csum: true,
        marks: Marks::default(),
    }
}

fn write_udp(payload: &[u8], out: &mut [u8]) -> usize {
    let (from, to) = (payload.as_ptr(), out.as_mut_ptr());
    // SAFETY: both pointers and counts are those of slices, and `out` is borrowed alone.
    let answer = unsafe { sys::wb_build_udp(udp(), from, payload.len(), to, out.len()) };
    accepted(answer.status);
    answer.length
}

/// A datagram with a payload of `n` bytes and a checksum.
pub fn build_udp(n: usize) -> Subject {
    let (payload, mut out, rust) = (bytes(n), vec![0; ROOM], bytes(n));
    let mut flow = ezpkt::udp4::UdpFlow::new(CL, SV, true);
    Subject {
        ours: calls(move || {
            black_box(write_udp(black_box(&payload), black_box(&mut out)));
        }),
        singly: None,
        rust: Some(calls(move || {
            let packet = Packet::from(flow.client_dgram(black_box(&rust)).csum());
            drop(black_box(packet));
        })),
        copy: copy(28 + n),
    }
}

const TEMPLATE: sys::Template = sys::Template {
    tos: 0,
    id: 7,
    df: false,
    evil: false,
    ttl: 64,
    protocol: 17,
    saddr: 0x0a00_0001,
    daddr: 0x0a00_0002,
};

fn header() -> ip_hdr {
    let mut h = ip_hdr::default();
    h.set_id(7).set_protocol(17);
    h.set_saddr(*CL.ip()).set_daddr(*SV.ip());
    h
}

fn write_piece(payload: &[u8], off: u16, len: u16, out: &mut [u8]) -> usize {
    let (from, to) = (payload.as_ptr(), out.as_mut_ptr());
    // SAFETY: both pointers and counts are those of slices, and `out` is borrowed alone.
    let answer =
        unsafe { sys::wb_fragment(TEMPLATE, from, payload.len(), off, len, to, out.len()) };
    accepted(answer.status);
    answer.length
}

/// Where a payload of `n` bytes is cut, at every `len` blocks.
fn offsets(n: usize, len: u16) -> impl Iterator<Item = u16> {
    (0..n.div_ceil(8) as u16).step_by(usize::from(len))
}

fn rust_cut(n: usize, len: u16) -> Calls {
    let rust = IpFrag::new(header(), bytes(n));
    calls(move || {
        for off in offsets(n, len) {
            drop(black_box(black_box(&rust).fragment(off, len, true)));
        }
    })
}

/// A payload of `n` bytes, cut at every `len` blocks.
pub fn cut(n: usize, len: u16) -> Subject {
    let (payload, mut out) = (bytes(n), vec![0; ROOM]);
    Subject {
        ours: calls(move || {
            for off in offsets(n, len) {
                black_box(write_piece(
                    black_box(&payload),
                    off,
                    len,
                    black_box(&mut out),
                ));
            }
        }),
        singly: None,
        rust: Some(rust_cut(n, len)),
        copy: copy(n),
    }
}

/// A list of pieces, and the buffers that it is cut into.
struct List {
    payload: Vec<u8>,
    requests: Vec<sys::BlockRequest>,
    out: Vec<u8>,
    ends: Vec<usize>,
}

impl List {
    /// A payload of `n` bytes, cut at every `len` blocks.
    fn new(n: usize, len: u16) -> Self {
        let request = |off| sys::BlockRequest { off, len };
        let requests: Vec<_> = offsets(n, len).map(request).collect();
        Self {
            payload: bytes(n),
            ends: vec![0; requests.len()],
            out: vec![0; ROOM],
            requests,
        }
    }

    fn cut(&mut self) -> usize {
        let (from, count) = (self.payload.as_ptr(), self.payload.len());
        let (list, requests) = (self.requests.as_ptr(), self.requests.len());
        let (to, room) = (self.out.as_mut_ptr(), self.out.len());
        let (ends, places) = (self.ends.as_mut_ptr(), self.ends.len());
        // SAFETY: all pointers and counts are those of slices, and both buffers are borrowed alone.
        let answer = unsafe {
            sys::wb_fragments(
                TEMPLATE, from, count, list, requests, to, room, ends, places,
            )
        };
        accepted(answer.status);
        answer.length
    }

    /// The same by a call for each piece.
    fn cut_singly(&mut self) -> usize {
        let mut end = 0;
        for (request, place) in self.requests.iter().zip(&mut self.ends) {
            let out = &mut self.out[end..];
            end += write_piece(&self.payload, request.off, request.len, out);
            *place = end;
        }
        end
    }
}

/// What [`cut`] cuts, end to end by a list. Both ways work on the same buffers, so that where these lie
/// does not count.
pub fn cut_list(n: usize, len: u16) -> Subject {
    let list = Rc::new(RefCell::new(List::new(n, len)));
    let same = list.clone();
    Subject {
        ours: calls(move || {
            black_box(black_box(&mut *list.borrow_mut()).cut());
        }),
        singly: Some(calls(move || {
            black_box(black_box(&mut *same.borrow_mut()).cut_singly());
        })),
        rust: Some(rust_cut(n, len)),
        copy: copy(n),
    }
}

struct Assembly {
    record: sys::Assembly,
    payload: Vec<u8>,
    map: Vec<u8>,
}

impl Assembly {
    /// The payload and the map, each as a pointer and a count.
    fn buffers(&mut self) -> (*mut u8, usize, *mut u8, usize) {
        let (payload, map) = (&mut self.payload, &mut self.map);
        (
            payload.as_mut_ptr(),
            payload.len(),
            map.as_mut_ptr(),
            map.len(),
        )
    }

    fn open(&mut self) {
        let (key, (payload, bytes, map, marks)) = (self.record.key, self.buffers());
        // SAFETY: both pointers and counts are those of slices that are borrowed alone.
        let answer = unsafe { sys::wb_assembly_open(key, payload, bytes, map, marks) };
        accepted(answer.status);
        self.record = answer.assembly;
    }

    fn new() -> Self {
        let key = sys::Key {
            saddr: TEMPLATE.saddr,
            daddr: TEMPLATE.daddr,
            id: TEMPLATE.id,
            protocol: TEMPLATE.protocol,
        };
        let record = sys::Assembly {
            key,
            known: false,
            total: 0,
            floor: 0,
            spoilt: false,
        };
        let mut new = Self {
            record,
            payload: vec![0; wispbundle::PAYLOAD_BYTES],
            map: vec![0; wispbundle::MAP_BYTES],
        };
        new.open();
        new
    }

    fn take(&mut self, packet: &[u8]) -> u8 {
        let (before, from, count) = (self.record, packet.as_ptr(), packet.len());
        let (payload, bytes, map, marks) = self.buffers();
        // SAFETY: all pointers and counts are those of slices, and both buffers are borrowed alone.
        let answer =
            unsafe { sys::wb_assembly_take(before, from, count, payload, bytes, map, marks) };
        accepted(answer.status);
        self.record = answer.assembly;
        answer.outcome
    }

    /// An assembly without pieces, for `n` bytes: the record and the marks as opening leaves them.
    /// Bytes whose block is not marked do not count.
    fn forget(&mut self, n: usize) {
        self.record.known = false;
        self.record.total = 0;
        self.record.floor = 0;
        self.map[..n.div_ceil(64)].fill(0);
    }
}

pub fn open() -> Subject {
    let mut assembly = Assembly::new();
    Subject {
        ours: calls(move || black_box(&mut assembly).open()),
        singly: None,
        rust: None,
        copy: copy(wispbundle::PAYLOAD_BYTES + wispbundle::MAP_BYTES),
    }
}

fn pieces(n: usize, len: u16) -> Vec<Vec<u8>> {
    let payload = bytes(n);
    let piece = |off| {
        let mut out = vec![0; ROOM];
        let n = write_piece(&payload, off, len, &mut out);
        out.truncate(n);
        out
    };
    offsets(n, len).map(piece).collect()
}

/// What is taken, and whether into an assembly that has it already.
#[derive(Copy, Clone, PartialEq, Eq)]
pub enum Order {
    Cut,
    Reversed,
    Again,
}

/// The pieces of `n` bytes, cut at every `len` blocks, taken until they are complete.
pub fn take(n: usize, len: u16, order: Order) -> Subject {
    let (mut assembly, mut pieces) = (Assembly::new(), pieces(n, len));
    if order == Order::Reversed {
        pieces.reverse();
    }
    if order == Order::Again {
        for piece in &pieces {
            assembly.take(piece);
        }
    }
    Subject {
        ours: calls(move || {
            if order != Order::Again {
                assembly.forget(n);
            }
            let mut outcome = 0;
            for piece in &pieces {
                outcome = black_box(&mut assembly).take(black_box(piece));
            }
            assert_eq!(outcome, 2, "the pieces that are measured are complete");
        }),
        singly: None,
        rust: None,
        copy: copy(n),
    }
}

/// The check of a datagram with a payload of `n` bytes.
pub fn check(n: usize) -> Subject {
    let mut packet = vec![0; ROOM];
    let length = write_udp(&bytes(n), &mut packet);
    packet.truncate(length);
    Subject {
        ours: calls(move || {
            let packet = black_box(&packet[..]);
            // SAFETY: the pointer and the count are those of a slice.
            let answer = unsafe { sys::wb_check(packet.as_ptr(), packet.len()) };
            accepted(black_box(answer).status);
        }),
        singly: None,
        rust: None,
        copy: copy(length),
    }
}
