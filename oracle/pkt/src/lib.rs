//! The crate `pkt` as far as raw IPv4 packets need it: `ipv4` and `packet` are the Rust's own files,
//! `eth` is a stand-in.

pub mod eth;

include!(concat!(env!("OUT_DIR"), "/sources.rs"));

pub use packet::{Hdr, Packet, PktSlice, Ref, RefMut, SliceRef, SliceRefMut};
