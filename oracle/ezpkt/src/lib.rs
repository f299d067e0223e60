//! The crate `ezpkt` as far as raw IPv4 packets need it; every module is the Rust's own file.

include!(concat!(env!("OUT_DIR"), "/sources.rs"));
