//! The ends of a flow, and addresses of `std::net` as the numbers of the archive and back.

use crate::sys;
use std::net::{Ipv4Addr, SocketAddrV4};

/// Which end sends.
pub(crate) enum Side {
    Client,
    Server,
}

pub(crate) fn raw(address: SocketAddrV4) -> sys::Addr {
    sys::Addr {
        ip: u32::from(*address.ip()),
        port: address.port(),
    }
}

pub(crate) fn socket(address: sys::Addr) -> SocketAddrV4 {
    SocketAddrV4::new(Ipv4Addr::from(address.ip), address.port)
}
