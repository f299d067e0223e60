//! TCP flows beside the Rust's, several calls on each.

use crate::marks::put;
use crate::run::{Compared, Run, expected};
use pkt::Packet;
use vectors::MAX_TCP;
use wispbundle::{Marks, Refusal, TcpFlow};

struct Pair {
    ours: TcpFlow,
    rust: ezpkt::tcp4::TcpFlow,
}

fn three(marks: Marks, packets: Vec<Packet>) -> [Vec<u8>; 3] {
    let bytes: Vec<_> = packets.iter().map(|p| put(marks, p.to_vec())).collect();
    bytes.try_into().expect("three packets")
}

/// A packet and the acknowledgment behind it, which may be missing.
fn message(marks: Marks, packets: Vec<Packet>) -> [Vec<u8>; 2] {
    let mut bytes = packets.iter().map(|p| put(marks, p.to_vec()));
    [
        bytes.next().expect("one packet"),
        bytes.next().unwrap_or_default(),
    ]
}

impl Pair {
    fn draw(run: &mut Run) -> Result<Self, String> {
        let (cl, sv) = (run.rng.socket(), run.rng.socket());
        let (cl_seq, sv_seq) = (run.rng.near_wrap(), run.rng.near_wrap());
        let ours = TcpFlow::new(cl, sv, cl_seq, sv_seq);
        let given = TcpFlow {
            cl,
            sv,
            cl_seq,
            sv_seq,
            marks: Marks::default(),
        };
        run.same("wb_tcp_new", Ok(ours), Ok(given))?;
        let rust = ezpkt::tcp4::TcpFlow::new(cl, sv, cl_seq, sv_seq, true);
        Ok(Self { ours, rust })
    }

    /// Marks the flow anew.
    fn mark(&mut self, run: &mut Run) -> Compared {
        let (before, marks) = (self.ours, run.mark());
        self.ours = before.marked(marks);
        run.same(
            "wb_tcp_marked",
            Ok(self.ours),
            Ok(TcpFlow { marks, ..before }),
        )
    }

    /// Compares both numbers and the marks, and that nothing else of either flow has changed.
    fn same_state(&mut self, marks: Marks) -> Compared {
        let ours = self.ours;
        let same = ezpkt::tcp4::TcpFlow::new(ours.cl, ours.sv, ours.cl_seq, ours.sv_seq, true);
        match self.rust == same && ours.marks == marks {
            true => Ok(()),
            false => Err(format!("tcp: {ours:?} and not {:?}, {marks:?}", self.rust)),
        }
    }

    fn handshake(&mut self, run: &mut Run) -> Compared {
        let (room, marks) = (run.room(120), run.marks);
        let fits = |rust: &mut dyn FnMut() -> Vec<Packet>| {
            expected((0, 0), 0, (room, 120), || three(marks, rust()))
        };
        let (ours, rust) = (&mut self.ours, &mut self.rust);
        match run.rng.below(3) {
            0 => {
                let rust = fits(&mut || rust.open());
                run.writes("wb_tcp_open", room, rust, |out| ours.open(out))
            }
            1 => {
                let rust = fits(&mut || rust.client_close());
                run.writes("wb_tcp_client_close", room, rust, |out| {
                    ours.client_close(out)
                })
            }
            _ => {
                let rust = fits(&mut || rust.server_close());
                run.writes("wb_tcp_server_close", room, rust, |out| {
                    ours.server_close(out)
                })
            }
        }
    }

    fn bare(&mut self, run: &mut Run) -> Compared {
        let (room, marks) = (run.room(40), run.marks);
        let fits = |rust: Packet| expected((0, 0), 0, (room, 40), || put(marks, rust.to_vec()));
        let (ours, rust) = (&mut self.ours, &self.rust);
        match run.rng.below(4) {
            0 => run.writes_one(
                "wb_tcp_client_reset",
                room,
                fits(rust.client_reset()),
                |out| ours.client_reset(out),
            ),
            1 => run.writes_one(
                "wb_tcp_server_reset",
                room,
                fits(rust.server_reset()),
                |out| ours.server_reset(out),
            ),
            2 => run.writes_one(
                "wb_tcp_client_ack",
                room,
                fits(rust.client_ack().into()),
                |out| ours.client_ack(out),
            ),
            _ => run.writes_one(
                "wb_tcp_server_ack",
                room,
                fits(rust.server_ack().into()),
                |out| ours.server_ack(out),
            ),
        }
    }

    fn segment(&mut self, run: &mut Run) -> Compared {
        let size = run.rng.size(MAX_TCP);
        let (payload, n) = (run.rng.bytes(size), 40 + size);
        let (room, server) = (run.room(n), run.rng.flip());
        let (ours, rust) = (&mut self.ours, &mut self.rust);
        let packet = expected((size, MAX_TCP), 0, (room, n), || {
            let segment = Packet::from(match server {
                false => rust.client_data_segment(&payload),
                true => rust.server_data_segment(&payload),
            });
            put(run.marks, segment.to_vec())
        });
        match server {
            false => run.writes_one("wb_tcp_client_data_segment", room, packet, |out| {
                ours.client_data_segment(&payload, out)
            }),
            true => run.writes_one("wb_tcp_server_data_segment", room, packet, |out| {
                ours.server_data_segment(&payload, out)
            }),
        }
    }

    fn message(&mut self, run: &mut Run) -> Compared {
        let size = run.rng.size(MAX_TCP);
        let (payload, ack, server) = (run.rng.bytes(size), run.rng.flip(), run.rng.flip());
        let n = 40 + size + if ack { 40 } else { 0 };
        let (room, field) = (run.room(n), run.rng.u16());
        let (ours, rust) = (&mut self.ours, &mut self.rust);
        let packets = expected((size, MAX_TCP), 0, (room, n), || {
            let packets = match server {
                false => rust.client_message(&payload, ack, field),
                true => rust.server_message(&payload, ack, field),
            };
            message(run.marks, packets)
        });
        let ends = |m: wispbundle::Message| [m.end, m.ack_end.unwrap_or(m.end)];
        match server {
            false => run.writes("wb_tcp_client_message", room, packets, |out| {
                ours.client_message(&payload, ack, field, out).map(ends)
            }),
            true => run.writes("wb_tcp_server_message", room, packets, |out| {
                ours.server_message(&payload, ack, field, out).map(ends)
            }),
        }
    }

    fn without_packets(&mut self, run: &mut Run) -> Compared {
        let (a, b, csum) = (run.rng.near_wrap(), run.rng.near_wrap(), run.rng.u16());
        let (cl, sv) = (run.rng.flip().then_some(a), run.rng.flip().then_some(b));
        let (ours, rust) = (&mut self.ours, &mut self.rust);
        type Never<T> = Result<T, Refusal>;
        match run.rng.below(6) {
            0 => {
                ours.client_hole(a);
                rust.client_hole(a);
                run.made("wb_tcp_client_hole")
            }
            1 => {
                ours.server_hole(a);
                rust.server_hole(a);
                run.made("wb_tcp_server_hole")
            }
            2 => {
                let got: Never<Vec<u8>> = Ok(ours.client_hdr(a, csum).to_vec());
                run.same("wb_tcp_client_hdr", got, Ok(rust.client_hdr(a, csum)))
            }
            3 => {
                let got: Never<Vec<u8>> = Ok(ours.server_hdr(a, csum).to_vec());
                run.same("wb_tcp_server_hdr", got, Ok(rust.server_hdr(a, csum)))
            }
            4 => run.same(
                "wb_tcp_push_state",
                Ok(ours.push_state(cl, sv)),
                Ok(rust.push_state(cl, sv)),
            ),
            _ => {
                ours.pop_state((cl, sv));
                rust.pop_state((cl, sv));
                run.made("wb_tcp_pop_state")
            }
        }
    }
}

pub fn compare(run: &mut Run) -> Compared {
    let mut pair = Pair::draw(run)?;
    if run.rng.flip() {
        pair.mark(run)?;
    }
    for _ in 0..1 + run.rng.below(8) {
        match run.rng.below(6) {
            0 => pair.handshake(run)?,
            1 => pair.bare(run)?,
            2 => pair.segment(run)?,
            3 => pair.message(run)?,
            4 => pair.without_packets(run)?,
            _ => pair.mark(run)?,
        }
        pair.same_state(run.marks)?;
    }
    Ok(())
}
