//! Wispbundle for Rust: raw IPv4, TCP, UDP and ICMP packets, pieces of a datagram, and putting pieces
//! together. The work is done by libwispbundle.a, in which every function is proved to do what its
//! contract says; this crate lends slices to it and names its numbers.
//!
//! Every call takes every input. It writes to the start of the buffer that it is lent, answers how
//! many bytes it wrote, and leaves the bytes behind them as they were. A call that is refused answers
//! the [`Refusal`], or over a list the [`ListRefusal`], and changes nothing: no byte, no flow, no
//! assembly.
//!
//! A telemetry datagram, cut in three and put together from the last piece to the first:
//!
//! ```
//! use wispbundle::{Assembly, Key, MAP_BYTES, Outcome, PAYLOAD_BYTES, Template, UdpDatagram, check};
//!
//! # fn main() -> Result<(), wispbundle::Refusal> {
//! let (car, pit) = ("10.0.0.1:20777".parse().unwrap(), "10.0.0.2:20777".parse().unwrap());
//! let mut packet = [0; 3508];
//! let n = UdpDatagram { csum: true, ..UdpDatagram::new(car, pit) }.build(&[42; 3480], &mut packet)?;
//! assert_eq!(n, 3508);
//!
//! let template = Template { id: 7, protocol: 17, ..Template::new(*car.ip(), *pit.ip()) };
//! let (mut payload, mut map) = (vec![0; PAYLOAD_BYTES], vec![0; MAP_BYTES]);
//! let key = Key { src: *car.ip(), dst: *pit.ip(), id: 7, protocol: 17 };
//! let mut assembly = Assembly::open(key, &mut payload, &mut map)?;
//! let mut piece = [0; 1500];
//! for off in [370, 185, 0] {
//!     let n = template.fragment(&packet[20..], off, 185, &mut piece)?;
//!     let outcome = assembly.take(&piece[..n])?;
//!     assert_eq!(outcome, if off == 0 { Outcome::Complete } else { Outcome::Waiting });
//! }
//! assert_eq!(assembly.held(), Some(&packet[20..]));
//!
//! let mut whole = [0; 3508];
//! let n = template.datagram(assembly.held().unwrap(), &mut whole)?;
//! check(&whole[..n])?;
//! # Ok(())
//! # }
//! ```

mod address;
mod assembly;
mod build;
mod check;
mod csum;
mod dump;
mod icmp;
mod lend;
mod marks;
pub mod pcap;
mod piece;
mod refusal;
pub mod sys;
mod tcp;
mod udp;
mod version;

pub use assembly::{Assembly, Key, MAP_BYTES, Outcome, PAYLOAD_BYTES, Progress, Record};
pub use build::{Echo, IcmpPacket, TcpSegment, UdpDatagram, flags};
pub use check::{Good, check};
pub use csum::ip_csum;
pub use dump::{hex_dump, hex_dump_len};
pub use icmp::IcmpFlow;
pub use marks::Marks;
pub use piece::{BlockRequest, Piece, Template};
pub use refusal::{ListRefusal, Refusal};
pub use tcp::{Message, Sides, TcpFlow};
pub use udp::{Choices, UdpFlow};
pub use version::version;
