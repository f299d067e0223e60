//! UDP flows.

use crate::address::{Side, raw, socket};
use crate::{Marks, Refusal, sys};
use std::net::{Ipv4Addr, SocketAddrV4};

/// Two ends, and what every packet is marked with. Each call for a datagram writes one to the start of
/// `out` and answers its length. It refuses by 22, 1, 3.
///
/// ```
/// use wispbundle::{Choices, UdpFlow};
///
/// let flow = UdpFlow::new("10.0.0.1:1".parse().unwrap(), "10.0.0.2:2".parse().unwrap());
/// let mut out = [0; 30];
/// let choices = Choices { csum: true, ..Choices::default() };
/// assert_eq!(flow.client_dgram(&[0xeb, 0xd4], choices, &mut out), Ok(30));
/// assert_eq!(out[26..28], [0xff, 0xff]);
/// ```
#[derive(Copy, Clone, Debug, PartialEq, Eq)]
pub struct UdpFlow {
    pub cl: SocketAddrV4,
    pub sv: SocketAddrV4,
    pub marks: Marks,
}

/// What goes with a datagram: another source address than the flow's, the whole 16-bit field of the
/// IPv4 header, and whether a checksum is asked for, without which no datagram is built: 22.
#[derive(Copy, Clone, Debug, Default, PartialEq, Eq)]
pub struct Choices {
    pub srcip: Option<Ipv4Addr>,
    pub frag_off: u16,
    pub csum: bool,
}

impl Choices {
    fn raw(self) -> sys::Choices {
        sys::Choices {
            other_source: self.srcip.is_some(),
            srcip: self.srcip.map_or(0, u32::from),
            frag_off: self.frag_off,
            csum: self.csum,
        }
    }
}

impl UdpFlow {
    /// A flow with the default marks.
    pub fn new(cl: SocketAddrV4, sv: SocketAddrV4) -> Self {
        // SAFETY: no pointer goes in.
        Self::of(unsafe { sys::wb_udp_new(raw(cl), raw(sv)) })
    }

    /// The flow with other marks on every packet from now on.
    pub fn marked(self, marks: Marks) -> Self {
        // SAFETY: no pointer goes in.
        Self::of(unsafe { sys::wb_udp_marked(self.raw(), marks) })
    }

    fn of(flow: sys::UdpFlow) -> Self {
        Self {
            cl: socket(flow.cl),
            sv: socket(flow.sv),
            marks: flow.marks,
        }
    }

    fn raw(&self) -> sys::UdpFlow {
        sys::UdpFlow {
            cl: raw(self.cl),
            sv: raw(self.sv),
            marks: self.marks,
        }
    }

    fn dgram(
        &self,
        side: Side,
        bytes: &[u8],
        choices: Choices,
        out: &mut [u8],
    ) -> Result<usize, Refusal> {
        let call = match side {
            Side::Client => sys::wb_udp_client_dgram,
            Side::Server => sys::wb_udp_server_dgram,
        };
        let (flow, from, count, given) = (self.raw(), bytes.as_ptr(), bytes.len(), choices.raw());
        // SAFETY: both pointers and counts are those of slices, and `out` is borrowed alone.
        Refusal::or_length(unsafe { call(flow, from, count, given, out.as_mut_ptr(), out.len()) })
    }

    /// From the client to the server.
    pub fn client_dgram(
        &self,
        bytes: &[u8],
        choices: Choices,
        out: &mut [u8],
    ) -> Result<usize, Refusal> {
        self.dgram(Side::Client, bytes, choices, out)
    }

    /// From the server to the client.
    pub fn server_dgram(
        &self,
        bytes: &[u8],
        choices: Choices,
        out: &mut [u8],
    ) -> Result<usize, Refusal> {
        self.dgram(Side::Server, bytes, choices, out)
    }
}
