//! The checksum beside the Rust's.

use crate::run::{Compared, Run};
use wispbundle::{Refusal, ip_csum};

pub fn compare(run: &mut Run) -> Compared {
    let size = run.rng.size(65_535);
    let bytes = run.rng.bytes(size);
    let rust = match size {
        ..=65_535 => Ok(pkt::ipv4::ip_csum(&bytes)),
        _ => Err(Refusal::TooLong),
    };
    run.same("wb_ip_csum", ip_csum(&bytes), rust)
}
