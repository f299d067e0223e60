//! Calls on a TCP flow. A case is a call on the flow that the last `TcpFlowNew` opened, and ends
//! with the sequence numbers of both sides after the call.

use crate::MAX_TCP;
use crate::digest::Fnv;
use crate::file::{Case, File, Kind};
use crate::payload::Payload;
use crate::rng::Rng;
use ezpkt::tcp4::TcpFlow;
use pkt::Packet;
use std::net::SocketAddrV4;

/// A number for each side, or none.
type Sides = (Option<u32>, Option<u32>);

#[derive(Copy, Clone, PartialEq, Eq)]
enum Side {
    Client,
    Server,
}

use Side::{Client, Server};

impl Side {
    fn draw(rng: &mut Rng) -> Self {
        if rng.flip() { Client } else { Server }
    }

    /// The kind for this side, of a pair that begins with the client's.
    fn of(self, kinds: [Kind; 2]) -> Case {
        Case::new(kinds[self as usize])
    }
}

/// Which sides have a number (bit 0 client, bit 1 server), then the two numbers, 0 where none.
fn sides(case: Case, (cl, sv): Sides) -> Case {
    let bits = u8::from(cl.is_some()) + 2 * u8::from(sv.is_some());
    case.u8(bits).u32(cl.unwrap_or(0)).u32(sv.unwrap_or(0))
}

fn bytes(packets: Vec<Packet>) -> Vec<Vec<u8>> {
    packets.iter().map(Packet::to_vec).collect()
}

struct Run<'a> {
    file: &'a mut File,
    flow: TcpFlow,
    ends: [SocketAddrV4; 2],
}

impl<'a> Run<'a> {
    fn new(file: &'a mut File, ends: [SocketAddrV4; 2], seqs: [u32; 2]) -> Self {
        let [cl, sv] = ends;
        let flow = TcpFlow::new(cl, sv, seqs[0], seqs[1], true);
        let mut run = Self { file, flow, ends };
        let case = Case::new(Kind::TcpFlowNew).socket(cl).socket(sv);
        run.add(case.u32(seqs[0]).u32(seqs[1]));
        run
    }

    fn draw(file: &'a mut File, rng: &mut Rng, seqs: [u32; 2]) -> Self {
        let ends = [rng.socket(), rng.socket()];
        Self::new(file, ends, seqs)
    }

    /// The two sequence numbers. The flow equals a new one with these, so they are all its state.
    fn seqs(&mut self) -> [u32; 2] {
        let old = self.flow.push_state(Some(0), Some(0));
        self.flow.pop_state(old);
        let (Some(cl), Some(sv)) = old else {
            panic!("both sides were set")
        };
        let [a, b] = self.ends;
        assert_eq!(self.flow, TcpFlow::new(a, b, cl, sv, true));
        [cl, sv]
    }

    fn add(&mut self, case: Case) {
        let [cl, sv] = self.seqs();
        self.file.add(case.u32(cl).u32(sv));
    }

    fn push_state(&mut self, set: Sides) -> Sides {
        let old = self.flow.push_state(set.0, set.1);
        self.add(sides(sides(Case::new(Kind::PushState), set), old));
        old
    }

    fn pop_state(&mut self, set: Sides) {
        self.flow.pop_state(set);
        self.add(sides(Case::new(Kind::PopState), set));
    }

    fn hole(&mut self, side: Side, bytes: u32) {
        match side {
            Client => self.flow.client_hole(bytes),
            Server => self.flow.server_hole(bytes),
        }
        self.add(side.of([Kind::ClientHole, Kind::ServerHole]).u32(bytes));
    }

    fn data_segment(&mut self, side: Side, payload: &Payload) {
        assert!(payload.len() <= MAX_TCP);
        let seg = match side {
            Client => self.flow.client_data_segment(payload.bytes()),
            Server => self.flow.server_data_segment(payload.bytes()),
        };
        let case = side.of([Kind::ClientDataSegment, Kind::ServerDataSegment]);
        self.add(case.payload(payload).answer(&Packet::from(seg).to_vec()));
    }

    fn ack(&mut self, side: Side) {
        let seg = match side {
            Client => self.flow.client_ack(),
            Server => self.flow.server_ack(),
        };
        let case = side.of([Kind::ClientAck, Kind::ServerAck]);
        self.add(case.answer(&Packet::from(seg).to_vec()));
    }

    fn hdr(&mut self, side: Side, dlen: u32, csum: u16) {
        let got = match side {
            Client => self.flow.client_hdr(dlen, csum),
            Server => self.flow.server_hdr(dlen, csum),
        };
        let case = side.of([Kind::ClientHdr, Kind::ServerHdr]);
        self.add(case.u32(dlen).u16(csum).answer(&got));
    }

    fn open(&mut self) {
        let got = bytes(self.flow.open());
        self.add(Case::new(Kind::Open).packets(&got));
    }

    fn close(&mut self, side: Side) {
        let got = match side {
            Client => self.flow.client_close(),
            Server => self.flow.server_close(),
        };
        let case = side.of([Kind::ClientClose, Kind::ServerClose]);
        self.add(case.packets(&bytes(got)));
    }

    fn reset(&mut self, side: Side) {
        let got = match side {
            Client => self.flow.client_reset(),
            Server => self.flow.server_reset(),
        };
        let case = side.of([Kind::ClientReset, Kind::ServerReset]);
        self.add(case.answer(&got.to_vec()));
    }

    fn sent(&mut self, side: Side, payload: &Payload, ack: bool, field: u16) -> Vec<Vec<u8>> {
        assert!(payload.len() <= MAX_TCP);
        bytes(match side {
            Client => self.flow.client_message(payload.bytes(), ack, field),
            Server => self.flow.server_message(payload.bytes(), ack, field),
        })
    }

    fn message(&mut self, side: Side, payload: &Payload, ack: bool, field: u16) {
        let got = self.sent(side, payload, ack, field);
        let case = side.of([Kind::ClientMessage, Kind::ServerMessage]);
        let case = case.payload(payload).u8(u8::from(ack)).u16(field);
        self.add(case.packets(&got));
    }

    /// The same message with all 65,536 fragment fields, one behind the other.
    fn every_frag_off(&mut self, side: Side, payload: &Payload, ack: bool) {
        let (mut total, mut digest) = (0, Fnv::new());
        for field in 0..=u16::MAX {
            let got = self.sent(side, payload, ack, field).concat();
            total += got.len();
            digest.add(&got);
        }
        let kinds = [
            Kind::ClientMessageEveryFragOff,
            Kind::ServerMessageEveryFragOff,
        ];
        let case = side.of(kinds).payload(payload).u8(u8::from(ack));
        self.add(case.size(total).u32(digest.value()));
    }

    /// A call drawn at random.
    fn any(&mut self, rng: &mut Rng, most: usize) {
        let (side, n) = (Side::draw(rng), rng.below(most + 1));
        let (a, b) = (near_wrap(rng), near_wrap(rng));
        let set = (rng.flip().then_some(a), rng.flip().then_some(b));
        match rng.below(14) {
            0 => drop(self.push_state(set)),
            1 => self.pop_state(set),
            2 => self.hole(side, a),
            3 | 4 => self.data_segment(side, &rng.payload(n)),
            5 => self.ack(side),
            6 => self.hdr(side, rng.below(4000) as u32, rng.u16()),
            7 => self.open(),
            8 => self.close(side),
            9 => self.reset(side),
            10 => self.message(side, &rng.payload(n), rng.flip(), rng.u16()),
            _ => self.message(side, &rng.payload(n), rng.flip(), 0),
        }
    }

    /// Every call once, the payloads of n bytes.
    fn each(&mut self, rng: &mut Rng, n: usize) {
        self.open();
        for side in [Client, Server] {
            self.data_segment(side, &rng.payload(n));
            self.ack(side);
            self.message(side, &rng.payload(n), false, 0);
            self.message(side, &rng.payload(n), true, 0);
            self.message(side, &rng.payload(n), rng.flip(), rng.u16());
            self.hdr(side, n as u32, rng.u16());
            self.hole(side, n as u32);
            self.reset(side);
        }
        self.close(Client);
        self.close(Server);
    }
}

/// A number that is often close to 2^32 or 0.
fn near_wrap(rng: &mut Rng) -> u32 {
    match rng.below(3) {
        0 => rng.u32(),
        1 => rng.below(300) as u32,
        _ => u32::MAX - rng.below(300) as u32,
    }
}

const SIZES: [usize; 20] = [
    0, 1, 2, 3, 4, 7, 8, 9, 23, 24, 64, 255, 256, 1459, 1460, 3447, 3448, 65_493, 65_494, 65_495,
];

fn sizes(file: &mut File, rng: &mut Rng) {
    for n in SIZES {
        let seqs = [near_wrap(rng), near_wrap(rng)];
        Run::draw(file, rng, seqs).each(rng, n);
    }
}

/// Every call with both numbers at and around 2^32.
fn wraps(file: &mut File, rng: &mut Rng) {
    for back in 0..8 {
        let start = 2_u32.wrapping_sub(back);
        Run::draw(file, rng, [start, start]).each(rng, 4);
    }
}

/// All settings of sides for saving and setting state, nested once.
fn states(file: &mut File, rng: &mut Rng) {
    for bits in 0..16 {
        let seqs = [rng.u32(), rng.u32()];
        let mut run = Run::draw(file, rng, seqs);
        let mut draw = |bit: u32| (bits & bit != 0).then(|| near_wrap(rng));
        let (outer, inner) = ((draw(1), draw(2)), (draw(4), draw(8)));
        let first = run.push_state(outer);
        run.message(Client, &Payload::rule(1, 3), true, 0);
        let second = run.push_state(inner);
        run.message(Server, &Payload::rule(2, 5), true, 0);
        run.pop_state(second);
        run.pop_state(first);
        run.ack(Client);
    }
}

/// Holes and header-only calls with numbers that roll over by themselves.
fn advances(file: &mut File, rng: &mut Rng) {
    let mut run = Run::draw(file, rng, [1, u32::MAX]);
    for n in [0, 1, u32::MAX, u32::MAX - 1, 1 << 31, 65_536, rng.u32()] {
        for side in [Client, Server] {
            run.hole(side, n);
            run.hdr(side, n, rng.u16());
            run.data_segment(side, &rng.payload(2));
        }
    }
}

/// A computed checksum of 0 stays 0: two payload bytes that make up for the rest.
fn checksum_zero(file: &mut File, rng: &mut Rng) {
    for side in [Client, Server] {
        let seqs = [rng.u32(), rng.u32()];
        let mut run = Run::draw(file, rng, seqs);
        let [cl, sv] = run.seqs();
        let bare = run.sent(side, &Payload::given(vec![0, 0]), false, 0);
        run.flow.pop_state((Some(cl), Some(sv)));
        let payload = Payload::given(bare[0][36..38].to_vec());
        let got = run.sent(side, &payload, false, 0);
        assert_eq!(got[0][36..38], [0, 0]);
        run.flow.pop_state((Some(cl), Some(sv)));
        run.message(side, &payload, false, 0);
    }
}

fn every_frag_off(file: &mut File, rng: &mut Rng) {
    let mut run = Run::draw(file, rng, [4_294_700_000, 7]);
    run.every_frag_off(Client, &rng.payload(9), false);
    run.every_frag_off(Server, &rng.payload(4), true);
}

/// Document 01's example: open at 1000 and 5000.
fn example(file: &mut File) {
    let cl = SocketAddrV4::new([10, 0, 0, 1].into(), 40_000);
    let sv = SocketAddrV4::new([10, 0, 0, 2].into(), 80);
    Run::new(file, [cl, sv], [1000, 5000]).open();
    let late = [4_294_967_294, 0];
    Run::new(file, [cl, sv], late).message(Client, &Payload::given(b"abcd".to_vec()), false, 0);
}

pub fn write(file: &mut File, rng: &mut Rng) {
    example(file);
    sizes(file, rng);
    wraps(file, rng);
    states(file, rng);
    advances(file, rng);
    checksum_zero(file, rng);
    every_frag_off(file, rng);
    for (calls, most) in [(1500, 24), (600, 80), (400, 3000), (100, MAX_TCP)] {
        let seqs = [near_wrap(rng), near_wrap(rng)];
        let mut run = Run::draw(file, rng, seqs);
        for _ in 0..calls {
            run.any(rng, most);
        }
    }
}
