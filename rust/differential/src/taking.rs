//! Assemblies beside the model: pieces in any order, again, damaged, and contradicting each other.

use crate::rng::Rng;
use crate::run::{Compared, Run};
use crate::{damage, model, options, pieces};
use wispbundle::{
    Assembly, Key, MAP_BYTES, Outcome, PAYLOAD_BYTES, Progress, Record, Refusal, Template,
};

/// One piece of the payload, mostly one of the cuts at every `len` blocks.
fn piece(rng: &mut Rng, template: &Template, payload: &[u8], len: u16) -> Vec<u8> {
    let blocks = (payload.len() / 8) as u16;
    let (off, len) = match rng.below(12) {
        0 => (
            rng.below(usize::from(blocks) + 3) as u16,
            rng.below(6) as u16,
        ),
        1 => (rng.pick(&[8188, 8189, 8190, 8191]), len),
        _ => (len * rng.below(usize::from(blocks / len) + 1) as u16, len),
    };
    let mut out = vec![0; 20 + payload.len()];
    let n = template.fragment(payload, off.min(8191), len, &mut out);
    out.truncate(n.expect("there is room"));
    out
}

/// What is taken: mostly a piece as it was cut with the reserved bit clear, at times with options, and
/// else one with that bit set, of another protocol, with other bytes, or damaged.
pub fn packet(rng: &mut Rng, template: &Template, payload: &[u8], len: u16, odd: bool) -> Vec<u8> {
    let mut template = Template {
        evil: rng.once_in(16),
        ..*template
    };
    if rng.once_in(16) {
        template.protocol ^= 1 << rng.below(8);
    }
    let mut packet = piece(rng, &template, payload, len);
    if rng.once_in(4) {
        options::put(rng, &mut packet, odd);
    }
    let last = packet.len() - 1;
    match rng.below(16) {
        0 if odd && last >= damage::header(&packet) => packet[last] ^= 1,
        1 | 2 if odd => packet = damage::damaged(rng, packet),
        3 => packet.extend([rng.u8(); 3]),
        _ => {}
    }
    packet
}

pub fn key(template: &Template) -> Key {
    Key {
        src: template.src,
        dst: template.dst,
        id: template.id,
        protocol: template.protocol,
    }
}

/// Whether a piece's key, which is another, is so in the protocol alone.
fn in_protocol_alone(key: Key, packet: &[u8]) -> bool {
    let other = model::key_of(packet);
    let protocol = other.protocol;
    other == Key { protocol, ..key }
}

/// Takes a piece, and compares what was answered.
pub fn takes(
    run: &mut Run,
    ours: &mut Assembly,
    packet: &[u8],
    expected: Result<Outcome, Refusal>,
) -> Compared {
    let got = ours.take(packet);
    run.same("wb_assembly_take", got, expected)?;
    options::saw(run, "wb_assembly_take", packet, got.err());
    match got {
        Ok(Outcome::Waiting) => run.saw("taken: waiting"),
        Ok(Outcome::Complete) => run.saw("taken: complete"),
        Ok(Outcome::Spoilt) => run.saw("taken: spoilt"),
        Err(Refusal::WrongKey) if in_protocol_alone(ours.record().key, packet) => {
            run.saw("refused by 8: for the protocol alone")
        }
        Err(_) => {}
    }
    Ok(())
}

/// Compares the answer, the record and every byte of both buffers, a refusal's too.
pub fn compare(run: &mut Run) -> Compared {
    let template = pieces::draw(&mut run.rng);
    let size = run.rng.size(PAYLOAD_BYTES).min(PAYLOAD_BYTES);
    let payload = run.rng.bytes(size);
    let at_most = (size / 16).max(1);
    let (len, odd) = (1 + run.rng.below(at_most) as u16, run.rng.flip());
    let (mut held, mut map) = (vec![0xa5; PAYLOAD_BYTES], vec![0x5a; MAP_BYTES]);
    let opened = Assembly::open(key(&template), &mut held, &mut map);
    run.same(
        "wb_assembly_open",
        opened.as_ref().map_err(|e| *e).map(|a| a.record()),
        Ok(record(&template)),
    )?;
    let mut ours = opened.expect("it was compared");
    let mut model = model::Assembly::open(key(&template));
    same_progress(run, &ours, Progress::Waiting)?;
    for _ in 0..1 + run.rng.below(12) {
        let packet = packet(&mut run.rng, &template, &payload, len, odd);
        takes(run, &mut ours, &packet, model.take(&packet))?;
        same_state(&ours, model.record(), &model.payload, &model.map)?;
        same_progress(run, &ours, model.progress())?;
    }
    Ok(())
}

fn record(template: &Template) -> Record {
    Record {
        key: key(template),
        total: None,
        floor: 0,
        spoilt: false,
    }
}

/// Compares the record and every byte of both buffers.
pub fn same_state(ours: &Assembly, record: Record, payload: &[u8], map: &[u8]) -> Compared {
    let got = ours.record();
    match () {
        _ if got != record => Err(format!("assembly take: {got:?} and not {record:?}")),
        _ if ours.payload() != payload => Err("assembly take: other payload bytes".to_string()),
        _ if ours.map() != map => Err("assembly take: other marks".to_string()),
        _ => Ok(()),
    }
}

/// Compares how an assembly stands, and what it holds, with an accepted answer.
pub fn same_progress(run: &mut Run, ours: &Assembly, expected: Progress) -> Compared {
    let held = match expected {
        Progress::Complete(length) => Some(&ours.payload()[..length]),
        Progress::Waiting | Progress::Spoilt => None,
    };
    run.saw(match expected {
        Progress::Waiting => "stands: waiting",
        Progress::Complete(_) => "stands: complete",
        Progress::Spoilt => "stands: spoilt",
    });
    run.same("wb_assembly_progress", ours.progress(), Ok(expected))?;
    match ours.held() == held {
        true => Ok(()),
        false => Err("assembly: other bytes held".to_string()),
    }
}

/// Records and buffers that no assembly has: refused by 11, whatever the packet is.
pub fn refused(run: &mut Run) -> Compared {
    let template = pieces::draw(&mut run.rng);
    let good = record(&template);
    let above = run.rng.pick(&[1, 2, 1000, usize::MAX - PAYLOAD_BYTES]);
    let (mut record, mut p, mut m) = (good, PAYLOAD_BYTES, MAP_BYTES);
    match run.rng.below(4) {
        0 => record.total = Some(PAYLOAD_BYTES + above),
        1 => record.floor = PAYLOAD_BYTES - 2 + above,
        2 => {
            p = run
                .rng
                .pick(&[0, 1, 1024, PAYLOAD_BYTES - 1, PAYLOAD_BYTES + 1])
        }
        _ => m = run.rng.pick(&[0, 1, 1023, 1025, PAYLOAD_BYTES]),
    }
    record.spoilt = run.rng.once_in(4);
    let packet = packet(&mut run.rng, &template, &[7; 64], 1, true);
    let (mut held, mut map) = (vec![0xa5; p], vec![0x5a; m]);
    if (p, m) != (PAYLOAD_BYTES, MAP_BYTES) {
        let opened = Assembly::open(good.key, &mut held, &mut map).map(|_| ());
        run.same("wb_assembly_open", opened, Err(Refusal::BadAssembly))?;
    }
    let mut ours = Assembly::resume(record, &mut held, &mut map);
    let progress = ours.progress();
    run.same("wb_assembly_progress", progress, Err(Refusal::BadAssembly))?;
    takes(run, &mut ours, &packet, Err(Refusal::BadAssembly))?;
    let untouched = ours.record() == record
        && ours.payload().iter().all(|&b| b == 0xa5)
        && ours.map().iter().all(|&b| b == 0x5a);
    match untouched {
        true => Ok(()),
        false => Err("assembly: a refusal left something else behind".to_string()),
    }
}
