//! Taking a piece into any record and any buffers, also ones that no pieces lead to: document 01's
//! rule for the marks, the total and the floor, byte by byte.

use crate::model::{Piece, outcome};
use crate::run::{Compared, Run};
use crate::{pieces, taking};
use wispbundle::{Assembly, Key, MAP_BYTES, Outcome, PAYLOAD_BYTES, Progress, Record, Refusal};

struct State {
    record: Record,
    payload: Vec<u8>,
    map: Vec<u8>,
}

impl State {
    fn is_marked(&self, byte: usize) -> bool {
        let block = byte / 8;
        self.map[block / 8] >> (block % 8) & 1 == 1
    }

    fn contradicts(&self, piece: &Piece) -> bool {
        let place = |i: usize| piece.start + i;
        let held = |i: usize| self.is_marked(place(i));
        let unlike = |(i, byte): (usize, &u8)| held(i) && self.payload[place(i)] != *byte;
        let ends = match (piece.more, self.record.total) {
            (true, Some(total)) => piece.end() >= total,
            (false, Some(total)) => piece.end() != total,
            (_, None) => false,
        };
        let below = !piece.more && self.record.floor > piece.end();
        ends || below || piece.data.iter().enumerate().any(unlike)
    }

    fn keep(&mut self, piece: &Piece) {
        for (i, byte) in piece.data.iter().enumerate() {
            let (place, block) = (piece.start + i, (piece.start + i) / 8);
            self.payload[place] = *byte;
            self.map[block / 8] |= 1 << (block % 8);
        }
        match piece.more {
            true => self.record.floor = self.record.floor.max(piece.end() + 1),
            false => self.record.total = Some(piece.end()),
        }
    }

    fn spoil(&mut self) {
        self.record.total = None;
        self.record.floor = 0;
        self.record.spoilt = true;
        self.payload.fill(0);
        self.map.fill(0);
    }

    fn take(&mut self, packet: &[u8]) -> Result<Outcome, Refusal> {
        let piece = Piece::read(self.record.key, packet)?;
        match self.record.spoilt {
            true => {}
            false if self.contradicts(&piece) => self.spoil(),
            false => self.keep(&piece),
        }
        Ok(outcome(self.progress()))
    }

    fn progress(&self) -> Progress {
        match self.record.total {
            _ if self.record.spoilt => Progress::Spoilt,
            Some(total) if (0..total).all(|byte| self.is_marked(byte)) => Progress::Complete(total),
            _ => Progress::Waiting,
        }
    }
}

/// Numbers and bytes as they come, but none that is refused by 11.
fn draw(run: &mut Run, key: Key, size: usize) -> State {
    let rng = &mut run.rng;
    let (blocks, any_marks) = (size / 8 + 1, rng.u8());
    let (some, others) = (8 * rng.below(blocks), 8 * rng.below(blocks) + rng.below(2));
    let total = rng.pick(&[size, size, some, 0, PAYLOAD_BYTES]);
    let floor = rng.pick(&[0, 0, others, size, size + 1, 65_513]);
    let marks = rng.pick(&[0x00, 0x00, 0xff, any_marks]);
    let mut map = vec![marks; MAP_BYTES];
    map[..8].copy_from_slice(&rng.u64().to_le_bytes());
    State {
        record: Record {
            key,
            total: rng.flip().then_some(total),
            floor: floor.min(65_513),
            spoilt: rng.once_in(16),
        },
        payload: vec![rng.pick(&[0x00, 0xff, 0x5a]); PAYLOAD_BYTES],
        map,
    }
}

pub fn compare(run: &mut Run) -> Compared {
    let template = pieces::draw(&mut run.rng);
    let size = run.rng.below(600);
    let payload = match run.rng.flip() {
        true => vec![run.rng.pick(&[0x00, 0xff, 0x5a]); size],
        false => run.rng.bytes(size).to_vec(),
    };
    let mut model = draw(run, taking::key(&template), size);
    let (mut held, mut map) = (model.payload.clone(), model.map.clone());
    let mut ours = Assembly::resume(model.record, &mut held, &mut map);
    taking::same_progress(run, &ours, model.progress())?;
    for _ in 0..1 + run.rng.below(3) {
        let len = 1 + run.rng.below(40) as u16;
        let packet = taking::packet(&mut run.rng, &template, &payload, len, true);
        taking::takes(run, &mut ours, &packet, model.take(&packet))?;
        taking::same_state(&ours, model.record, &model.payload, &model.map)?;
        taking::same_progress(run, &ours, model.progress())?;
    }
    Ok(())
}
