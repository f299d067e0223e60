//! ICMP flows.

use crate::lend::lend;
use crate::{Marks, Refusal, sys};
use std::net::Ipv4Addr;

/// Two ends, the next number of an echo and of a reply, and what every packet is marked with. The
/// numbers start at 0, count apart and wrap at 65,536. Each call for a packet writes one to the start
/// of `out` and answers its length. It refuses by 1, 3, and the flow is then as before.
///
/// ```
/// let mut flow = wispbundle::IcmpFlow::new([10, 0, 0, 1].into(), [10, 0, 0, 2].into());
/// let mut out = [0; 32];
/// assert_eq!(flow.echo(b"lap!", &mut out), Ok(32));
/// assert_eq!(out[20..28], [0x08, 0x00, 0x09, 0x49, 0x12, 0x34, 0x00, 0x00]);
/// assert_eq!((flow.ping_seq, flow.pong_seq), (1, 0));
/// ```
#[derive(Copy, Clone, Debug, PartialEq, Eq)]
pub struct IcmpFlow {
    pub cl: Ipv4Addr,
    pub sv: Ipv4Addr,
    pub ping_seq: u16,
    pub pong_seq: u16,
    pub marks: Marks,
}

impl IcmpFlow {
    /// A flow with the default marks.
    pub fn new(cl: Ipv4Addr, sv: Ipv4Addr) -> Self {
        // SAFETY: no pointer goes in.
        Self::of(unsafe { sys::wb_icmp_new(u32::from(cl), u32::from(sv)) })
    }

    /// The flow with other marks on every packet from now on.
    pub fn marked(self, marks: Marks) -> Self {
        // SAFETY: no pointer goes in.
        Self::of(unsafe { sys::wb_icmp_marked(self.raw(), marks) })
    }

    fn of(flow: sys::IcmpFlow) -> Self {
        Self {
            cl: Ipv4Addr::from(flow.cl),
            sv: Ipv4Addr::from(flow.sv),
            ping_seq: flow.ping_seq,
            pong_seq: flow.pong_seq,
            marks: flow.marks,
        }
    }

    fn raw(&self) -> sys::IcmpFlow {
        sys::IcmpFlow {
            cl: u32::from(self.cl),
            sv: u32::from(self.sv),
            ping_seq: self.ping_seq,
            pong_seq: self.pong_seq,
            marks: self.marks,
        }
    }

    fn sent(&mut self, answer: sys::IcmpSent) -> Result<usize, Refusal> {
        Refusal::unless_accepted(answer.status)?;
        *self = Self::of(answer.flow);
        Ok(answer.length)
    }

    /// An echo from the client.
    pub fn echo(&mut self, bytes: &[u8], out: &mut [u8]) -> Result<usize, Refusal> {
        self.sent(lend!(wb_icmp_echo, self.raw(), bytes, out))
    }

    /// A reply from the server.
    pub fn echo_reply(&mut self, bytes: &[u8], out: &mut [u8]) -> Result<usize, Refusal> {
        self.sent(lend!(wb_icmp_echo_reply, self.raw(), bytes, out))
    }
}
