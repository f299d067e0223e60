//! The rows of the table, and the goals.

use crate::measure::{Effort, best};
use crate::subjects::{self, Order, Subject};

/// Nanoseconds for a call.
pub struct Row {
    pub name: &'static str,
    pub ours: f64,
    pub singly: Option<f64>,
    pub rust: Option<f64>,
    pub copy: f64,
}

pub fn measured(name: &'static str, subject: Subject, effort: Effort) -> Row {
    let (ours, copy) = (Some(subject.ours), Some(subject.copy));
    let [ours, singly, rust, copy] = best([ours, subject.singly, subject.rust, copy], effort);
    Row {
        name,
        ours: ours.expect("it was measured"),
        singly,
        rust,
        copy: copy.expect("it was measured"),
    }
}

/// Three pieces: 1,480, 1,480 and 528 bytes.
const WHOLE: usize = 3488;
const BLOCKS: u16 = 185;

/// A row's name, and what is measured for it.
type Named = (&'static str, fn() -> Subject);

pub fn all(effort: Effort) -> Vec<Row> {
    let rows: [Named; 12] = [
        ("checksum of 20 bytes", || subjects::checksum(20)),
        ("checksum of 1,500 bytes", || subjects::checksum(1500)),
        ("checksum of 3,488 bytes", || subjects::checksum(3488)),
        ("checksum of 65,515 bytes", || subjects::checksum(65_515)),
        ("build UDP, 3,480 bytes, checksum", || {
            subjects::build_udp(3480)
        }),
        ("cut 3,488 bytes in three", || subjects::cut(WHOLE, BLOCKS)),
        ("cut 3,488 bytes by a list of three", || {
            subjects::cut_list(WHOLE, BLOCKS)
        }),
        ("open an assembly", subjects::open),
        ("take three pieces in order", || {
            subjects::take(WHOLE, BLOCKS, Order::Cut)
        }),
        ("take three pieces reversed", || {
            subjects::take(WHOLE, BLOCKS, Order::Reversed)
        }),
        ("take three pieces again", || {
            subjects::take(WHOLE, BLOCKS, Order::Again)
        }),
        ("check UDP, 3,480 bytes", || subjects::check(3480)),
    ];
    let measure = |(name, subject): Named| measured(name, subject(), effort);
    rows.map(measure).into_iter().collect()
}

fn show(ns: f64) -> String {
    match ns {
        ..10.0 => format!("{ns:.1}"),
        _ => format!("{ns:.0}"),
    }
}

pub fn table(rows: &[Row]) -> String {
    let mut text = String::from(
        "| call | here, ns | the Rust, ns | memcpy, ns | here / Rust | here / memcpy |\n",
    );
    text += "|---|---:|---:|---:|---:|---:|\n";
    for row in rows {
        let rust = row.rust.map_or("–".to_string(), show);
        let ratio = row
            .rust
            .map_or("–".to_string(), |r| format!("{:.2}", row.ours / r));
        let copied = row.ours / row.copy;
        text += &format!(
            "| {} | {} | {rust} | {} | {ratio} | {copied:.1} |\n",
            row.name,
            show(row.ours),
            show(row.copy)
        );
    }
    text
}

/// One goal: what was measured, in words, and the most that its ratio may be.
fn goal(row: &Row, ratio: f64, words: &str, most: f64) -> String {
    let met = if ratio <= most { "met" } else { "missed" };
    format!("- {}: {words}, goal {most}: {met}\n", row.name)
}

/// The most that a call may take of the Rust's time: the checksum, whose carries are put back one by
/// one, four times, building with it three times, and cutting as long.
fn most_of_the_rust(name: &str) -> Option<f64> {
    let mosts = [("checksum of 3,488", 4.0), ("build", 3.0), ("cut", 1.0)];
    let found = mosts.iter().find(|(word, _)| name.starts_with(word));
    found.map(|(_, most)| *most)
}

/// Beside the Rust as above, a list no slower than its single calls, taking within ten times a memcpy.
pub fn goals(rows: &[Row]) -> String {
    let mut text = String::new();
    for row in rows {
        let begins = |word| row.name.starts_with(word);
        if let (Some(rust), Some(most)) = (row.rust, most_of_the_rust(row.name)) {
            let ratio = row.ours / rust;
            text += &goal(row, ratio, &format!("{ratio:.2} of the Rust's time"), most);
        }
        if let Some(singly) = row.singly {
            let (ratio, time) = (row.ours / singly, show(singly));
            let words = format!("{ratio:.2} of the single calls' time ({time} ns)");
            text += &goal(row, ratio, &words, 1.0);
        }
        if begins("take three pieces in") || begins("take three pieces rev") {
            let ratio = row.ours / row.copy;
            text += &goal(row, ratio, &format!("{ratio:.1} times a memcpy"), 10.0);
        }
    }
    text
}
