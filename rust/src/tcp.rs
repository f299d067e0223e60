//! TCP flows.

use crate::address::{Side, raw, socket};
use crate::lend::{lend, lend_out};
use crate::{Marks, Refusal, sys};
use std::net::SocketAddrV4;

/// A sequence number for the client's side and one for the server's, or none.
pub type Sides = (Option<u32>, Option<u32>);

/// Two ends, the next sequence number of each, which wraps at 2^32, and what every packet is marked
/// with.
///
/// A call that sends writes its packets end to end to the start of `out`, or none of them, and
/// answers where each ends. It refuses by 1, 3, and the flow is then as before.
///
/// ```
/// use wispbundle::{Refusal, TcpFlow};
///
/// let (cl, sv) = ("10.0.0.1:40000".parse().unwrap(), "10.0.0.2:80".parse().unwrap());
/// let mut flow = TcpFlow::new(cl, sv, 1000, 5000);
/// let mut out = [0; 120];
/// assert_eq!(flow.open(&mut out[..119]), Err(Refusal::NoRoom));
/// assert_eq!(flow.open(&mut out), Ok([40, 80, 120]));
/// assert_eq!((flow.cl_seq, flow.sv_seq), (1001, 5001));
/// ```
#[derive(Copy, Clone, Debug, PartialEq, Eq)]
pub struct TcpFlow {
    pub cl: SocketAddrV4,
    pub sv: SocketAddrV4,
    pub cl_seq: u32,
    pub sv_seq: u32,
    pub marks: Marks,
}

/// Where the packets of a message end.
#[derive(Copy, Clone, Debug, PartialEq, Eq)]
pub struct Message {
    pub end: usize,
    /// The end of the other side's acknowledgment, where one was asked for.
    pub ack_end: Option<usize>,
}

fn seq(number: Option<u32>) -> sys::Seq {
    sys::Seq {
        is_set: number.is_some(),
        number: number.unwrap_or(0),
    }
}

fn number(seq: sys::Seq) -> Option<u32> {
    seq.is_set.then_some(seq.number)
}

impl TcpFlow {
    /// A flow with the default marks.
    pub fn new(cl: SocketAddrV4, sv: SocketAddrV4, cl_seq: u32, sv_seq: u32) -> Self {
        // SAFETY: no pointer goes in.
        Self::of(unsafe { sys::wb_tcp_new(raw(cl), raw(sv), cl_seq, sv_seq) })
    }

    /// The flow with other marks on every packet from now on.
    pub fn marked(self, marks: Marks) -> Self {
        // SAFETY: no pointer goes in.
        Self::of(unsafe { sys::wb_tcp_marked(self.raw(), marks) })
    }

    fn of(flow: sys::TcpFlow) -> Self {
        Self {
            cl: socket(flow.cl),
            sv: socket(flow.sv),
            cl_seq: flow.cl_seq,
            sv_seq: flow.sv_seq,
            marks: flow.marks,
        }
    }

    fn raw(&self) -> sys::TcpFlow {
        sys::TcpFlow {
            cl: raw(self.cl),
            sv: raw(self.sv),
            cl_seq: self.cl_seq,
            sv_seq: self.sv_seq,
            marks: self.marks,
        }
    }

    /// The answer's flow, and where its packets end.
    fn sent(&mut self, answer: sys::TcpSent) -> Result<[usize; 3], Refusal> {
        Refusal::unless_accepted(answer.status)?;
        *self = Self::of(answer.flow);
        Ok([answer.first, answer.second, answer.third])
    }

    fn sent_one(&mut self, answer: sys::TcpSent) -> Result<usize, Refusal> {
        self.sent(answer).map(|[end, _, _]| end)
    }

    fn message(
        &mut self,
        side: Side,
        bytes: &[u8],
        send_ack: bool,
        frag_off: u16,
        out: &mut [u8],
    ) -> Result<Message, Refusal> {
        let call = match side {
            Side::Client => sys::wb_tcp_client_message,
            Side::Server => sys::wb_tcp_server_message,
        };
        let (flow, from, count) = (self.raw(), bytes.as_ptr(), bytes.len());
        let (to, room) = (out.as_mut_ptr(), out.len());
        // SAFETY: both pointers and counts are those of slices, and `out` is borrowed alone.
        let answer = unsafe { call(flow, from, count, send_ack, frag_off, to, room) };
        self.sent(answer).map(|[end, second, _]| Message {
            end,
            ack_end: send_ack.then_some(second),
        })
    }

    /// Three packets, 120 bytes: SYN, SYN and ACK, ACK.
    pub fn open(&mut self, out: &mut [u8]) -> Result<[usize; 3], Refusal> {
        self.sent(lend_out!(wb_tcp_open, self.raw(), out))
    }

    /// Three packets, 120 bytes: FIN and ACK from the client, FIN and ACK from the server, ACK.
    pub fn client_close(&mut self, out: &mut [u8]) -> Result<[usize; 3], Refusal> {
        self.sent(lend_out!(wb_tcp_client_close, self.raw(), out))
    }

    /// Three packets, 120 bytes: FIN and ACK from the server, FIN and ACK from the client, ACK.
    pub fn server_close(&mut self, out: &mut [u8]) -> Result<[usize; 3], Refusal> {
        self.sent(lend_out!(wb_tcp_server_close, self.raw(), out))
    }

    /// One packet: RST alone, acknowledgment number 0.
    pub fn client_reset(&mut self, out: &mut [u8]) -> Result<usize, Refusal> {
        self.sent_one(lend_out!(wb_tcp_client_reset, self.raw(), out))
    }

    /// One packet: RST alone, acknowledgment number 0.
    pub fn server_reset(&mut self, out: &mut [u8]) -> Result<usize, Refusal> {
        self.sent_one(lend_out!(wb_tcp_server_reset, self.raw(), out))
    }

    /// One packet: ACK.
    pub fn client_ack(&mut self, out: &mut [u8]) -> Result<usize, Refusal> {
        self.sent_one(lend_out!(wb_tcp_client_ack, self.raw(), out))
    }

    /// One packet: ACK.
    pub fn server_ack(&mut self, out: &mut [u8]) -> Result<usize, Refusal> {
        self.sent_one(lend_out!(wb_tcp_server_ack, self.raw(), out))
    }

    /// One packet with the bytes, PSH and ACK.
    pub fn client_data_segment(&mut self, bytes: &[u8], out: &mut [u8]) -> Result<usize, Refusal> {
        self.sent_one(lend!(wb_tcp_client_data_segment, self.raw(), bytes, out))
    }

    /// One packet with the bytes, PSH and ACK.
    pub fn server_data_segment(&mut self, bytes: &[u8], out: &mut [u8]) -> Result<usize, Refusal> {
        self.sent_one(lend!(wb_tcp_server_data_segment, self.raw(), bytes, out))
    }

    /// A data segment with `frag_off` as the IPv4 header's whole field, and behind it, where
    /// `send_ack` is true, the server's ACK, 40 bytes more.
    pub fn client_message(
        &mut self,
        bytes: &[u8],
        send_ack: bool,
        frag_off: u16,
        out: &mut [u8],
    ) -> Result<Message, Refusal> {
        self.message(Side::Client, bytes, send_ack, frag_off, out)
    }

    /// A data segment with `frag_off` as the IPv4 header's whole field, and behind it, where
    /// `send_ack` is true, the client's ACK, 40 bytes more.
    pub fn server_message(
        &mut self,
        bytes: &[u8],
        send_ack: bool,
        frag_off: u16,
        out: &mut [u8],
    ) -> Result<Message, Refusal> {
        self.message(Side::Server, bytes, send_ack, frag_off, out)
    }

    /// Moves the client's number on by so many bytes, with no packet.
    pub fn client_hole(&mut self, bytes: u32) {
        // SAFETY: no pointer goes in.
        *self = Self::of(unsafe { sys::wb_tcp_client_hole(self.raw(), bytes) });
    }

    /// Moves the server's number on by so many bytes, with no packet.
    pub fn server_hole(&mut self, bytes: u32) {
        // SAFETY: no pointer goes in.
        *self = Self::of(unsafe { sys::wb_tcp_server_hole(self.raw(), bytes) });
    }

    /// A TCP header alone, with PSH, ACK and the checksum given, as if `dlen` bytes followed it.
    pub fn client_hdr(&mut self, dlen: u32, csum: u16) -> [u8; 20] {
        // SAFETY: no pointer goes in.
        let answer = unsafe { sys::wb_tcp_client_hdr(self.raw(), dlen, csum) };
        *self = Self::of(answer.flow);
        answer.bytes
    }

    /// A TCP header alone, with PSH, ACK and the checksum given, as if `dlen` bytes followed it.
    pub fn server_hdr(&mut self, dlen: u32, csum: u16) -> [u8; 20] {
        // SAFETY: no pointer goes in.
        let answer = unsafe { sys::wb_tcp_server_hdr(self.raw(), dlen, csum) };
        *self = Self::of(answer.flow);
        answer.bytes
    }

    /// Sets the numbers that are given, and answers the old number of each side that was set. The marks
    /// stay, here and in [`pop_state`](Self::pop_state).
    ///
    /// ```
    /// # let (cl, sv) = ("10.0.0.1:40000".parse().unwrap(), "10.0.0.2:80".parse().unwrap());
    /// let mut flow = wispbundle::TcpFlow::new(cl, sv, 1000, 5000);
    /// let old = flow.push_state(Some(77), None);
    /// assert_eq!((flow.cl_seq, old), (77, (Some(1000), None)));
    /// flow.pop_state(old);
    /// assert_eq!(flow.cl_seq, 1000);
    /// ```
    pub fn push_state(&mut self, cl_seq: Option<u32>, sv_seq: Option<u32>) -> Sides {
        // SAFETY: no pointer goes in.
        let answer = unsafe { sys::wb_tcp_push_state(self.raw(), seq(cl_seq), seq(sv_seq)) };
        *self = Self::of(answer.flow);
        (number(answer.cl), number(answer.sv))
    }

    /// Sets the numbers that are given.
    pub fn pop_state(&mut self, (cl_seq, sv_seq): Sides) {
        // SAFETY: no pointer goes in.
        *self = Self::of(unsafe { sys::wb_tcp_pop_state(self.raw(), seq(cl_seq), seq(sv_seq)) });
    }
}
