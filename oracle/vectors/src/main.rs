//! Writes the vectors to standard output, and how many there are of each kind to standard error.

use std::io::{self, Write};

fn main() -> io::Result<()> {
    let file = vectors::file();
    io::stdout().write_all(file.bytes())?;
    for (kind, count) in file.counts() {
        eprintln!("{:02x} {count:6} {kind:?}", *kind as u8);
    }
    eprintln!("   {:6} in all, {} bytes", file.cases(), file.bytes().len());
    Ok(())
}
