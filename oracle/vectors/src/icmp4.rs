//! Echoes and replies of an ICMP flow. A case is a call on the flow that the last `IcmpFlowNew`
//! opened, and holds the flow's two numbers after the call.

use crate::MAX_ICMP;
use crate::digest::Fnv;
use crate::file::{Case, File, Kind};
use crate::payload::Payload;
use crate::rng::Rng;
use ezpkt::icmp4::IcmpFlow;
use std::net::Ipv4Addr;

struct Run<'a> {
    file: &'a mut File,
    flow: IcmpFlow,
    cl: Ipv4Addr,
    sv: Ipv4Addr,
}

impl<'a> Run<'a> {
    fn new(file: &'a mut File, cl: Ipv4Addr, sv: Ipv4Addr) -> Self {
        let flow = IcmpFlow::new(cl, sv, true);
        let mut run = Self { file, flow, cl, sv };
        run.add(Case::new(Kind::IcmpFlowNew).addr(cl).addr(sv));
        run
    }

    fn draw(file: &'a mut File, rng: &mut Rng) -> Self {
        let (cl, sv) = (rng.addr(), rng.addr());
        Self::new(file, cl, sv)
    }

    /// The ping and pong numbers, as the flow shows itself. Nothing else of it ever changes.
    fn numbers(&self) -> (u16, u16) {
        let shown = format!("{:?}", self.flow);
        let (cl, sv) = (self.cl, self.sv);
        let fixed = format!("IcmpFlow {{ cl: {cl}, sv: {sv}, raw: true, id: 4660, ping_seq: ");
        let rest = shown.strip_prefix(&fixed).expect("the fixed part stays");
        let (ping, rest) = rest.split_once(", pong_seq: ").expect("two numbers");
        let pong = rest.strip_suffix(" }").expect("two numbers");
        let number = |digits: &str| digits.parse().expect("a number");
        (number(ping), number(pong))
    }

    fn add(&mut self, case: Case) {
        let (ping, pong) = self.numbers();
        self.file.add(case.u16(ping).u16(pong));
    }

    fn call(&mut self, reply: bool, payload: &Payload) -> Vec<u8> {
        assert!(payload.len() <= MAX_ICMP);
        let pkt = if reply {
            self.flow.echo_reply(payload.bytes())
        } else {
            self.flow.echo(payload.bytes())
        };
        pkt.to_vec()
    }

    fn once(&mut self, reply: bool, payload: &Payload) {
        let got = self.call(reply, payload);
        let kind = [Kind::Echo, Kind::EchoReply][usize::from(reply)];
        self.add(Case::new(kind).payload(payload).answer(&got));
    }

    /// The same call many times over, as one digest.
    fn many(&mut self, reply: bool, payload: &Payload, times: u32) {
        let (mut total, mut digest) = (0, Fnv::new());
        for _ in 0..times {
            let got = self.call(reply, payload);
            total += got.len();
            digest.add(&got);
        }
        let kind = [Kind::EchoMany, Kind::EchoReplyMany][usize::from(reply)];
        let case = Case::new(kind).payload(payload).u32(times);
        self.add(case.size(total).u32(digest.value()));
    }
}

const SIZES: [usize; 18] = [
    0, 1, 2, 3, 4, 7, 8, 9, 31, 32, 64, 255, 256, 1472, 3480, 65_505, 65_506, 65_507,
];

fn sizes(file: &mut File, rng: &mut Rng) {
    for n in SIZES {
        let mut run = Run::draw(file, rng);
        for reply in [false, true, true, false, false] {
            run.once(reply, &rng.payload(n));
        }
    }
}

/// Both numbers around 65,536, reached apart.
fn numbers_wrap(file: &mut File, rng: &mut Rng) {
    for (first, second) in [(false, true), (true, false)] {
        let mut run = Run::draw(file, rng);
        run.many(first, &rng.payload(3), 65_533);
        for _ in 0..6 {
            run.once(first, &rng.payload(5));
            run.once(second, &rng.payload(6));
        }
        run.many(second, &rng.payload(0), 65_527);
        for _ in 0..6 {
            run.once(second, &rng.payload(1));
        }
    }
}

/// A checksum of 0 stays 0: two payload bytes that make up for the rest.
fn checksum_zero(file: &mut File, rng: &mut Rng) {
    for reply in [false, true] {
        let mut run = Run::draw(file, rng);
        run.once(reply, &rng.payload(2));
        let mut bare = IcmpFlow::new(run.cl, run.sv, true);
        let zeros = [0, 0];
        let sum = if reply {
            bare.echo_reply(&zeros);
            bare.echo_reply(&zeros).to_vec()
        } else {
            bare.echo(&zeros);
            bare.echo(&zeros).to_vec()
        };
        run.once(reply, &Payload::given(sum[22..24].to_vec()));
    }
}

fn mixed(file: &mut File, rng: &mut Rng) {
    let mut run = Run::draw(file, rng);
    for _ in 0..200 {
        let most = rng.pick(&[10, 60, 1500]);
        run.once(rng.flip(), &rng.short(most));
    }
}

pub fn write(file: &mut File, rng: &mut Rng) {
    let example = Payload::given(b"lap!".to_vec());
    Run::new(file, [10, 0, 0, 1].into(), [10, 0, 0, 2].into()).once(false, &example);
    sizes(file, rng);
    numbers_wrap(file, rng);
    checksum_zero(file, rng);
    mixed(file, rng);
}
