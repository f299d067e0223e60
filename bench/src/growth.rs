//! How the time of a call grows with the bytes.

use crate::measure::Effort;
use crate::rows::{Row, measured};
use crate::subjects::{self, Order, Subject};

pub const SIZES: [usize; 7] = [100, 300, 1000, 3000, 10_000, 30_000, 65_000];

/// More blocks than any payload has.
const ALL: u16 = 8190;

/// One kind of call at every size.
pub struct Curve {
    pub name: &'static str,
    pub rows: Vec<Row>,
}

/// A curve's name, and what is measured at each size.
type Named = (&'static str, fn(usize) -> Subject);

pub fn all(effort: Effort) -> Vec<Curve> {
    let kinds: [Named; 5] = [
        ("checksum", subjects::checksum),
        ("build UDP", subjects::build_udp),
        ("cut (one piece)", |n| subjects::cut(n, ALL)),
        ("take (one piece)", |n| subjects::take(n, ALL, Order::Cut)),
        ("check", subjects::check),
    ];
    let curve = |(name, subject): Named| Curve {
        name,
        rows: SIZES
            .map(|n| measured(name, subject(n), effort))
            .into_iter()
            .collect(),
    };
    kinds.map(curve).into_iter().collect()
}

pub fn table(curves: &[Curve]) -> String {
    let mut text = String::from("| bytes |");
    for curve in curves {
        let rust = if curve.rows[0].rust.is_some() {
            " (the Rust)"
        } else {
            ""
        };
        text += &format!(" {}{rust} |", curve.name);
    }
    text += " memcpy |\n|---:|";
    text += &"---:|".repeat(curves.len() + 1);
    text += "\n";
    for (i, size) in SIZES.into_iter().enumerate() {
        text += &format!("| {size} |");
        for curve in curves {
            let row = &curve.rows[i];
            let rust = row.rust.map_or(String::new(), |r| format!(" ({r:.0})"));
            text += &format!(" {:.0}{rust} |", row.ours);
        }
        text += &format!(" {:.0} |\n", curves[0].rows[i].copy);
    }
    text
}

/// The time for a byte at the largest size beside that at 3,000 bytes: about 1 where the work is
/// linear.
pub fn goals(curves: &[Curve]) -> String {
    let mut text = String::new();
    for curve in curves {
        let per_byte = |i: usize| curve.rows[i].ours / SIZES[i] as f64;
        let ratio = per_byte(6) / per_byte(3);
        let met = if ratio <= 1.5 { "linear" } else { "not linear" };
        text += &format!(
            "- {}: a byte of 65,000 takes {ratio:.2} of a byte of 3,000: {met}\n",
            curve.name
        );
    }
    text
}
