//! Stand-in for the Ethernet module: the names that `ezpkt` uses, and the header's 14 bytes, which
//! only count towards capacities. Every call into it lies behind `raw = false`, which is left out,
//! so a call stops the program.

#![allow(non_camel_case_types, clippy::new_ret_no_self)]

use bytemuck::{Pod, Zeroable};
use std::net::Ipv4Addr;

pub mod ethertype {
    pub const IPV4: u16 = 0x0800;
}

#[repr(C, packed(1))]
#[derive(Pod, Zeroable, Debug, Copy, Clone)]
pub struct eth_hdr {
    bytes: [u8; 14],
}

#[derive(Debug, Copy, Clone)]
pub struct MacAddr;

fn left_out() -> ! {
    unreachable!("Ethernet framing is left out")
}

impl From<Ipv4Addr> for MacAddr {
    fn from(_: Ipv4Addr) -> Self {
        left_out()
    }
}

impl eth_hdr {
    pub fn new(_: MacAddr, _: MacAddr, _: u16) -> Self {
        left_out()
    }

    pub fn with_proto(_: u16) -> Self {
        left_out()
    }

    pub fn src_from_ip(&mut self, _: Ipv4Addr) {
        left_out()
    }

    pub fn dst_from_ip(&mut self, _: Ipv4Addr) {
        left_out()
    }

    pub fn set_broadcast(&mut self) {
        left_out()
    }
}
