//! The archive's calls, the Rust's own on the same inputs, and a copy of the same bytes, in one run.
//! Writes docs/BENCH.md's tables to standard output.
//!
//! bench [--date DAY] [--plot FILE] [--quick]

mod growth;
mod machine;
mod measure;
mod plot;
mod rows;
mod subjects;

use measure::Effort;
use std::time::Duration;
use std::{env, fs};

/// The word behind an option.
fn option(words: &[String], name: &str) -> Option<String> {
    let at = words.iter().position(|word| word == name)?;
    words.get(at + 1).cloned()
}

fn main() -> std::io::Result<()> {
    let words: Vec<String> = env::args().skip(1).collect();
    let quick = words.iter().any(|word| word == "--quick");
    let effort = Effort {
        batch: Duration::from_micros(200),
        batches: if quick { 50 } else { 1000 },
    };
    let day = option(&words, "--date").unwrap_or_else(machine::today);
    let machine = machine::described(&day);
    let rows = rows::all(effort);
    let curves = growth::all(effort);
    println!("Measured on {machine}.\n\n{}", rows::table(&rows));
    println!("{}", rows::goals(&rows));
    println!("Nanoseconds for a call by the bytes that it works on:\n");
    println!("{}\n{}", growth::table(&curves), growth::goals(&curves));
    match option(&words, "--plot") {
        Some(file) => fs::write(file, plot::drawn(&curves, &machine)),
        None => Ok(()),
    }
}
