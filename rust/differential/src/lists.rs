//! Lists of pieces, beside the Rust's `fragment` for each request in turn.

use crate::pieces;
use crate::rng::Rng;
use crate::run::{Compared, Run, pattern};
use ezpkt::ip4::IpFrag;
use vectors::MAX_IPV4;
use wispbundle::{BlockRequest, ListRefusal, Refusal};

const MAX_OFFSET: u16 = 8191;

/// A request; once in eight the one before it again.
fn request(rng: &mut Rng, size: usize, before: Option<&BlockRequest>) -> BlockRequest {
    match before {
        Some(&same) if rng.once_in(8) => same,
        _ => BlockRequest {
            off: pieces::offset(rng, size),
            len: pieces::blocks(rng, size),
        },
    }
}

/// So many requests. In some lists several offsets are the most or above it.
fn draw(rng: &mut Rng, size: usize, count: usize) -> Vec<BlockRequest> {
    let (far, mut list) = (rng.once_in(16), Vec::new());
    for _ in 0..count {
        let mut next = request(rng, size, list.last());
        if far && rng.flip() {
            next.off = rng.pick(&[MAX_OFFSET, MAX_OFFSET + 1, u16::MAX]);
        }
        list.push(next);
    }
    list
}

/// What is lent to be written to.
#[derive(Clone, PartialEq)]
struct Lent {
    out: Vec<u8>,
    ends: Vec<usize>,
}

impl Lent {
    /// Room for `n` bytes and `count` ends, or too little.
    fn draw(run: &mut Run, n: usize, count: usize) -> Self {
        let (room, places) = (run.room(n), run.room(count));
        Self {
            out: (0..room).map(pattern).collect(),
            ends: (0..places).map(|at| usize::MAX - at).collect(),
        }
    }

    /// Writes packets end to end, and where each ends; answers where the last does.
    fn write(&mut self, packets: &[Vec<u8>]) -> usize {
        let mut end = 0;
        for (packet, place) in packets.iter().zip(&mut self.ends) {
            self.out[end..][..packet.len()].copy_from_slice(packet);
            end += packet.len();
            *place = end;
        }
        end
    }

    /// Number 1, then 2 for the first such request, then 3.
    fn refused(&self, size: usize, list: &[BlockRequest], n: usize) -> Result<(), ListRefusal> {
        let far = list.iter().position(|request| request.off > MAX_OFFSET);
        let refused = |refusal, index| Err(ListRefusal { refusal, index });
        match far {
            _ if size > MAX_IPV4 => refused(Refusal::TooLong, None),
            Some(index) => refused(Refusal::BadOffset, Some(index)),
            _ if self.out.len() < n => refused(Refusal::NoRoom, None),
            _ if self.ends.len() < list.len() => refused(Refusal::NoRoom, None),
            _ => Ok(()),
        }
    }
}

/// The list begins at any place, and has up to six requests.
pub fn compare(run: &mut Run) -> Compared {
    let size = run.rng.size(MAX_IPV4);
    let payload = run.rng.bytes(size);
    let template = pieces::draw(&mut run.rng);
    let (start, count) = (run.rng.below(4), run.rng.below(7));
    let held = draw(&mut run.rng, size, start + count);
    let list = &held[start..];
    let rust = IpFrag::new(pieces::header(&mut run.rng, &template), payload.to_vec());
    let packet = |request: &BlockRequest| rust.fragment(request.off, request.len, true).to_vec();
    let packets: Vec<_> = list.iter().map(packet).collect();
    let n = packets.iter().map(Vec::len).sum();
    let mut ours = Lent::draw(run, n, count);
    let (mut after, read) = (ours.clone(), (payload.to_vec(), list.to_vec()));
    let expected = ours.refused(size, list, n).map(|()| after.write(&packets));
    let answer = template.fragments(&payload, list, &mut ours.out, &mut ours.ends);
    let status = answer.map_or_else(ListRefusal::number, |_| 0);
    run.answered("wb_fragments", status, answer, expected)?;
    match ours == after && (payload.to_vec(), list.to_vec()) == read {
        true => Ok(()),
        false => Err("wb_fragments: a buffer has other contents".to_string()),
    }
}
