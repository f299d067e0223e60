//! Calls of the Rust with their inputs, and what the Rust answered, as a file that is read front to
//! back. FORMAT.md in the workspace's folder says what each byte means.

pub mod digest;
pub mod file;
pub mod pod;
pub mod rng;

mod icmp4;
mod ip4;
mod ipv4;
mod packet;
mod payload;
mod tcp4;
mod udp4;

use file::File;
use rng::Rng;

/// Every choice that is not listed in the source is drawn from this seed.
pub const SEED: u64 = 0x7769_7370_6275_6e64;

/// The largest payloads that document 01 accepts.
pub const MAX_TCP: usize = 65_495;
pub const MAX_UDP: usize = 65_507;
pub const MAX_ICMP: usize = 65_507;
pub const MAX_IPV4: usize = 65_515;

/// The file's first lines.
fn preface() -> String {
    let mut text =
        String::from("Calls of resynth's raw packet code, and what the Rust answered.\n");
    text += "The Rust is giannitedesco/resynth at fab2584190 (MIT licence), compiled unchanged:\n";
    for (name, bytes) in pkt::SOURCES.iter().chain(ezpkt::SOURCES) {
        let digest = digest::fnv(bytes);
        text += &format!("  {name}, {} bytes, FNV-1a {digest:08x}\n", bytes.len());
    }
    text += &format!("Seed {SEED:016x}. To write it again, in the folder oracle:\n");
    text += "  cargo run --release --offline > FILE\n";
    text += "oracle/FORMAT.md says what each byte means. This text ends with a byte 0.\n";
    text
}

/// The whole file.
pub fn file() -> File {
    let mut file = File::new(&preface());
    let mut rng = Rng::new(SEED);
    ipv4::write(&mut file, &mut rng);
    ip4::write(&mut file, &mut rng);
    udp4::write(&mut file, &mut rng);
    icmp4::write(&mut file, &mut rng);
    tcp4::write(&mut file, &mut rng);
    packet::write(&mut file, &mut rng);
    file.end();
    file
}
