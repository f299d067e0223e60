//! ICMP flows beside the Rust's.

use crate::marks::put;
use crate::run::{Compared, Run, expected};
use vectors::MAX_ICMP;
use wispbundle::{IcmpFlow, Marks};

/// Two flows at the same numbers. The Rust's can only be counted up, so most start at 0, and some just
/// below 65,536.
fn draw(run: &mut Run) -> Result<(IcmpFlow, ezpkt::icmp4::IcmpFlow), String> {
    let (cl, sv) = (run.rng.addr(), run.rng.addr());
    let mut ours = IcmpFlow::new(cl, sv);
    let given = IcmpFlow {
        cl,
        sv,
        ping_seq: 0,
        pong_seq: 0,
        marks: Marks::default(),
    };
    run.same("wb_icmp_new", Ok(ours), Ok(given))?;
    let mut rust = ezpkt::icmp4::IcmpFlow::new(cl, sv, true);
    if run.rng.once_in(1000) {
        ours.ping_seq = 65_534;
        ours.pong_seq = 65_535;
        (0..ours.ping_seq).for_each(|_| drop(rust.echo(&[])));
        (0..ours.pong_seq).for_each(|_| drop(rust.echo_reply(&[])));
    }
    Ok((ours, rust))
}

/// Marks a flow anew.
fn mark(run: &mut Run, flow: &mut IcmpFlow) -> Compared {
    let (before, marks) = (*flow, run.mark());
    *flow = before.marked(marks);
    run.same(
        "wb_icmp_marked",
        Ok(*flow),
        Ok(IcmpFlow { marks, ..before }),
    )
}

/// An echo or a reply, and the flow after it.
fn packet(run: &mut Run, ours: &mut IcmpFlow, rust: &mut ezpkt::icmp4::IcmpFlow) -> Compared {
    let size = run.rng.size(MAX_ICMP);
    let payload = run.rng.bytes(size);
    let (room, reply, mut after) = (run.room(28 + size), run.rng.flip(), *ours);
    let packet = expected((size, MAX_ICMP), 0, (room, 28 + size), || match reply {
        false => {
            after.ping_seq = after.ping_seq.wrapping_add(1);
            put(after.marks, rust.echo(&payload).to_vec())
        }
        true => {
            after.pong_seq = after.pong_seq.wrapping_add(1);
            put(after.marks, rust.echo_reply(&payload).to_vec())
        }
    });
    match reply {
        false => run.writes_one("wb_icmp_echo", room, packet, |out| ours.echo(&payload, out))?,
        true => run.writes_one("wb_icmp_echo_reply", room, packet, |out| {
            ours.echo_reply(&payload, out)
        })?,
    }
    match *ours == after {
        true => Ok(()),
        false => Err(format!("icmp: {ours:?} and not {after:?}")),
    }
}

pub fn compare(run: &mut Run) -> Compared {
    let (mut ours, mut rust) = draw(run)?;
    for _ in 0..1 + run.rng.below(8) {
        if run.rng.once_in(3) {
            mark(run, &mut ours)?;
        }
        packet(run, &mut ours, &mut rust)?;
    }
    Ok(())
}
