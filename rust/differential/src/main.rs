//! Random calls of the crate beside the same calls of resynth's Rust, or beside a model of document
//! 01 where the Rust has none: every answer, every state and every byte, those behind a packet too.
//!
//! The archive's version is compared first. differential [SEED [CALLS]] makes at least so many calls,
//! and fails also if it has not seen all that `seen` names. differential SEED case NUMBER makes one
//! case again.

mod building;
mod checking;
mod damage;
mod icmp;
mod lists;
mod marks;
mod model;
mod options;
mod pieces;
mod records;
mod rng;
mod run;
mod seen;
mod sums;
mod taking;
mod tcp;
mod udp;
mod writing;

use rng::Rng;
use run::{Compared, Run};
use std::process::ExitCode;
use std::time::Instant;
use wispbundle::sys::VERSION;
use wispbundle::{Marks, version};

const SEED: u64 = 0x7769_7370;
const CALLS: u64 = 1_000_000;

const KINDS: [fn(&mut Run) -> Compared; 17] = [
    sums::compare,
    building::tcp,
    building::icmp,
    pieces::compare,
    pieces::compare,
    lists::compare,
    udp::compare,
    udp::compare,
    icmp::compare,
    tcp::compare,
    tcp::compare,
    writing::dump,
    writing::capture_header,
    writing::capture_record,
    checking::compare,
    checking::compare,
    assemblies,
];

fn assemblies(run: &mut Run) -> Compared {
    match run.rng.below(16) {
        0 => taking::refused(run),
        1..=4 => records::compare(run),
        _ => taking::compare(run),
    }
}

fn one(run: &mut Run, seed: u64, case: u64) -> Compared {
    run.rng = Rng::of_case(seed, case);
    run.marks = Marks::default();
    let kind = run.rng.pick(&KINDS);
    kind(run)
}

fn report(run: &Run, start: Instant) {
    for (call, count) in &run.calls {
        println!("{count:9}  {}", seen::words(call));
    }
    for (what, count) in &run.seen {
        println!("{count:9}  {what}");
    }
    println!("{} seconds", start.elapsed().as_secs());
}

fn number(words: &[String], at: usize, usual: u64) -> u64 {
    words.get(at).map_or(usual, |word| {
        word.parse()
            .unwrap_or_else(|_| panic!("{word} is no number"))
    })
}

fn main() -> ExitCode {
    let words: Vec<String> = std::env::args().skip(1).collect();
    let (mut run, start, seed) = (Run::new(), Instant::now(), number(&words, 0, SEED));
    if let Err(what) = run.same("wb_version", Ok(version()), Ok(VERSION)) {
        println!("{what}");
        return ExitCode::FAILURE;
    }
    let again = words.get(1).is_some_and(|word| word == "case");
    let calls = if again { 2 } else { number(&words, 1, CALLS) };
    let mut case = if again { number(&words, 2, 0) } else { 0 };
    while run.count() < calls {
        if let Err(what) = one(&mut run, seed, case) {
            println!("seed {seed}, case {case}: {what}");
            return ExitCode::FAILURE;
        }
        case += 1;
    }
    report(&run, start);
    println!(
        "{} calls, 0 differ (seed {seed}, {case} cases)",
        run.count()
    );
    let faults = match again {
        true => Vec::new(),
        false => seen::faults(&run),
    };
    for fault in &faults {
        println!("{fault}");
    }
    match faults.is_empty() {
        true => ExitCode::SUCCESS,
        false => ExitCode::FAILURE,
    }
}
