//! Calls on a packet with headroom. A case is a call on the packet that the last `PacketNew` made,
//! and ends with the headroom, the end and a digest of every byte before the end, the headroom's
//! bytes included.

use crate::digest::fnv;
use crate::file::{Case, File, Kind};
use crate::payload::Payload;
use crate::pod::{Blob, header_at, part};
use crate::rng::Rng;
use pkt::{Hdr, Packet};

/// Document 01's largest end.
const MAX_END: usize = 1_048_576;

/// The longest dump in the file.
const MAX_DUMP: usize = 32_768;

/// The sizes of header that are tried.
const SIZES: [usize; 7] = [0, 1, 4, 8, 14, 16, 20];

/// Runs the code with a constant of the size's value.
macro_rules! sized {
    ($size:expr, $n:ident => $code:expr) => {
        match $size {
            0 => sized!(@ 0, $n => $code),
            1 => sized!(@ 1, $n => $code),
            4 => sized!(@ 4, $n => $code),
            8 => sized!(@ 8, $n => $code),
            14 => sized!(@ 14, $n => $code),
            16 => sized!(@ 16, $n => $code),
            20 => sized!(@ 20, $n => $code),
            _ => panic!("not one of SIZES"),
        }
    };
    (@ $value:literal, $n:ident => $code:expr) => {{
        const $n: usize = $value;
        $code
    }};
}

fn blob<const N: usize>(bytes: &[u8]) -> Blob<N> {
    Blob(bytes.try_into().expect("N bytes"))
}

struct Run {
    pkt: Packet,
    headroom: usize,
    room: usize,
    cases: Vec<Case>,
}

impl Run {
    fn new(headroom: usize, capacity: usize) -> Self {
        let pkt = Packet::new(headroom, capacity);
        let cases = Vec::new();
        Self {
            pkt,
            headroom,
            room: headroom,
            cases,
        }
    }

    fn end(&self) -> usize {
        self.pkt.headroom() + self.pkt.len()
    }

    fn state(pkt: &Packet, case: Case) -> Case {
        let end = pkt.headroom() + pkt.len();
        let digest = fnv(&part(0, end).get(pkt));
        case.size(pkt.headroom()).size(end).u32(digest)
    }

    fn add(&mut self, case: Case) {
        self.room = self.room.max(self.end());
        assert!(self.room <= MAX_END);
        self.cases.push(Self::state(&self.pkt, case));
    }

    /// The opening case comes first, and holds the largest end that the run reaches.
    fn close(self, file: &mut File) {
        let fresh = Packet::new(self.headroom, 0);
        let case = Case::new(Kind::PacketNew);
        let case = case.size(self.headroom).size(self.room);
        file.add(Self::state(&fresh, case));
        for case in self.cases {
            file.add(case);
        }
    }

    fn push_hdr(&mut self, size: usize) {
        let off = sized!(size, N => self.pkt.push_hdr::<Blob<N>>().off());
        self.add(Case::new(Kind::PushHdr).size(size).size(off));
    }

    fn push(&mut self, item: &Payload) {
        let off = sized!(item.len(), N => self.pkt.push(blob::<N>(item.bytes())).off());
        self.add(Case::new(Kind::Push).payload(item).size(off));
    }

    fn push_bytes(&mut self, data: &Payload) {
        let got = self.pkt.push_bytes(data.bytes());
        let case = Case::new(Kind::PushBytes).payload(data);
        self.add(case.size(got.off()).size(got.len()));
    }

    fn push_slice(&mut self, len: usize) {
        let got = self.pkt.push_slice(len);
        let case = Case::new(Kind::PushSlice).size(len);
        self.add(case.size(got.off()).size(got.len()));
    }

    fn lower(&mut self, size: usize) {
        let off = sized!(size, N => self.pkt.lower_headroom::<Blob<N>>().off());
        self.add(Case::new(Kind::LowerHeadroom).size(size).size(off));
    }

    fn lower_for(&mut self, item: &Payload) {
        let bytes = item.bytes();
        let off = sized!(item.len(), N => self.pkt.lower_headroom_for(blob::<N>(bytes)).off());
        self.add(Case::new(Kind::LowerHeadroomFor).payload(item).size(off));
    }

    /// Gives back `size` bytes at the packet's start, where alone it is accepted.
    fn give_back(&mut self, size: usize) {
        let off = self.pkt.headroom();
        sized!(size, N => {
            let hdr: Hdr<Blob<N>> = header_at(off);
            self.pkt.return_headroom(hdr)
        });
        self.add(Case::new(Kind::ReturnHeadroom).size(off).size(size));
    }

    fn all_bytes(&mut self) {
        let got = self.pkt.to_vec();
        self.add(Case::new(Kind::ToVec).answer(&got));
    }

    /// Whether the Rust would give the headroom's bytes too.
    fn gives_headroom(&self, off: usize, len: usize) -> bool {
        let whole = off == self.pkt.headroom() && len == self.pkt.len();
        whole && self.pkt.headroom() > 0
    }

    fn vec_from(&mut self, off: usize, len: usize) {
        if self.gives_headroom(off, len) {
            return;
        }
        let got = self.pkt.to_vec_from(part(off, len));
        let case = Case::new(Kind::ToVecFrom).size(off).size(len);
        self.add(case.answer(&got));
        let got = self.pkt.clone().into_vec_from(part(off, len));
        let case = Case::new(Kind::IntoVecFrom).size(off).size(len);
        self.add(case.answer(&got));
    }

    fn get(&mut self, off: usize, len: usize) {
        let got = part(off, len).get(&self.pkt).to_vec();
        self.add(Case::new(Kind::Get).size(off).size(len).answer(&got));
    }

    fn mutate(&mut self, off: usize, data: &Payload) {
        part(off, data.len()).mutate(&self.pkt, |bytes| bytes.copy_from_slice(data.bytes()));
        self.add(Case::new(Kind::Mutate).size(off).payload(data));
    }

    /// The whole packet as a part, where it is not shorter than the headroom.
    fn as_slice(&mut self) {
        if self.pkt.len() < self.pkt.headroom() {
            return;
        }
        let got = self.pkt.as_slice();
        let case = Case::new(Kind::AsSlice);
        self.add(case.size(got.off()).size(got.len()));
    }

    fn dump(&mut self) {
        let text = format!("{:#?}", self.pkt);
        assert!(text.len() <= MAX_DUMP);
        self.add(Case::new(Kind::Dump).answer(text.as_bytes()));
    }

    fn bit_time(&mut self) {
        let got = self.pkt.bit_time();
        self.add(Case::new(Kind::BitTime).u64(got));
    }

    /// A part of the packet drawn at random, often at one of its ends.
    fn draw(&self, rng: &mut Rng, most: usize) -> (usize, usize) {
        let n = self.pkt.len();
        let inside = rng.below(n + 1);
        let start = rng.pick(&[0, n, inside]);
        let some = rng.below(n - start + 1);
        let len = rng.pick(&[0, n - start, some]).min(most);
        (self.pkt.headroom() + start, len)
    }

    /// A call drawn at random, among those that are accepted.
    fn any(&mut self, rng: &mut Rng) {
        let size = rng.pick(&SIZES);
        let (off, len) = self.draw(rng, 64);
        match rng.below(14) {
            0 => self.push_hdr(size),
            1 => self.push(&rng.payload(size)),
            2 => self.push_bytes(&rng.short(64)),
            3 => self.push_slice(rng.below(40)),
            4 if size <= self.pkt.headroom() => self.lower(size),
            5 | 6 if size <= self.pkt.headroom() => self.lower_for(&rng.payload(size)),
            7 if size <= self.pkt.len() => self.give_back(size),
            8 => self.all_bytes(),
            9 => self.vec_from(off, len),
            10 => self.get(off, len),
            11 => self.mutate(off, &rng.payload(len)),
            12 => self.as_slice(),
            _ => self.bit_time(),
        }
    }
}

/// Dumps of 0 to 33 bytes behind several headrooms.
fn dumps(file: &mut File, rng: &mut Rng) {
    for headroom in [0, 1, 15, 16, 33] {
        let mut run = Run::new(headroom, 0);
        for _ in 0..34 {
            run.dump();
            run.push_bytes(&rng.payload(1));
        }
        run.bit_time();
        run.close(file);
    }
}

/// Every byte once, so that every character of a dump is shown.
fn every_byte(file: &mut File) {
    let mut run = Run::new(16, 64);
    for start in [0, 64, 128, 192] {
        run.push_bytes(&Payload::given((start..=start + 63).collect()));
        run.dump();
    }
    run.all_bytes();
    run.close(file);
}

/// Packets of the sizes that flows build, with the headroom of 16 that the Rust gives them.
fn packets(file: &mut File, rng: &mut Rng) {
    for n in [20, 28, 32, 40, 41, 1500, 3508, 4096, 7000, 65_534, 65_535] {
        let mut run = Run::new(16, n);
        run.push_bytes(&rng.payload(n));
        run.all_bytes();
        run.bit_time();
        run.as_slice();
        if n <= 7000 {
            run.dump();
        }
        run.close(file);
    }
}

/// Positions in a dump up to the last of five digits, and ends up to the largest.
fn far_positions(file: &mut File, rng: &mut Rng) {
    for headroom in [0xff0, 0xfff, 0xfff0, 0xffff, 0x1_0000, 0xf_ffef, 0xf_fff0] {
        let mut run = Run::new(headroom, 0);
        let n = rng.below(17).min(MAX_END - headroom);
        run.push_bytes(&rng.payload(n));
        run.push_slice(16.min(MAX_END - headroom - n));
        run.dump();
        run.all_bytes();
        run.close(file);
    }
    let mut run = Run::new(MAX_END, 0);
    run.dump();
    run.lower(20);
    run.dump();
    run.bit_time();
    run.close(file);
    let mut run = Run::new(0, MAX_END);
    run.push_slice(MAX_END);
    run.bit_time();
    run.all_bytes();
    run.as_slice();
    run.close(file);
}

/// Lowering and returning by every size, down to no headroom and up to no packet.
fn headrooms(file: &mut File, rng: &mut Rng) {
    for size in SIZES {
        for spare in [0, 3] {
            let mut run = Run::new(2 * size + spare, 0);
            run.push_bytes(&rng.payload(5));
            run.lower_for(&rng.payload(size));
            run.lower(size);
            run.dump();
            run.give_back(size);
            run.lower_for(&rng.payload(size));
            run.all_bytes();
            run.give_back(size);
            run.give_back(size);
            run.push_hdr(size);
            run.push(&rng.payload(size));
            run.dump();
            run.close(file);
        }
    }
}

/// Every part of a packet of four bytes.
fn parts(file: &mut File, rng: &mut Rng) {
    for headroom in [0, 1, 4, 16] {
        let mut run = Run::new(headroom, 0);
        run.push_bytes(&rng.payload(4));
        for start in 0..=4 {
            for len in 0..=4 - start {
                run.vec_from(headroom + start, len);
                run.get(headroom + start, len);
            }
        }
        run.mutate(headroom + 1, &rng.payload(2));
        run.as_slice();
        run.all_bytes();
        run.close(file);
    }
}

pub fn write(file: &mut File, rng: &mut Rng) {
    dumps(file, rng);
    every_byte(file);
    packets(file, rng);
    headrooms(file, rng);
    parts(file, rng);
    for _ in 0..40 {
        let mut run = Run::new(rng.pick(&[0, 16, 40, 100]), 0);
        for _ in 0..40 {
            run.any(rng);
        }
        run.dump();
        run.close(file);
    }
    far_positions(file, rng);
}
