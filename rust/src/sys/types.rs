//! The structs of include/wispbundle.h, without `wb_` and in the same order.

macro_rules! structs {
    ($($(#[$doc:meta])* $name:ident { $($field:ident: $type:ty),+ $(,)? })+) => {
        $($(#[$doc])*
        #[repr(C)]
        #[derive(Copy, Clone, Debug, PartialEq, Eq)]
        pub struct $name {
            $(pub $field: $type),+
        })+
    };
}

structs! {
    Length { status: u8, length: usize }
    Sum { status: u8, sum: u16 }
    /// The TOS and the TTL of the IPv4 header, any numbers.
    ///
    /// ```
    /// use wispbundle::{IcmpFlow, Marks};
    ///
    /// let marks = Marks { tos: 0xb8, ..Marks::default() };
    /// let mut flow = IcmpFlow::new([10, 0, 0, 1].into(), [10, 0, 0, 2].into()).marked(marks);
    /// let mut out = [0; 32];
    /// assert_eq!(flow.echo(b"lap!", &mut out), Ok(32));
    /// assert_eq!((out[1], out[8]), (0xb8, 64));
    /// ```
    Marks { tos: u8, ttl: u8 }
    TcpSegment {
        saddr: u32,
        daddr: u32,
        sport: u16,
        dport: u16,
        seq: u32,
        ack: u32,
        flags: u8,
        frag_off: u16,
        marks: Marks,
    }
    UdpDatagram {
        saddr: u32,
        daddr: u32,
        sport: u16,
        dport: u16,
        frag_off: u16,
        csum: bool,
        marks: Marks,
    }
    IcmpPacket { saddr: u32, daddr: u32, reply: bool, seq: u16, marks: Marks }
    Template {
        tos: u8,
        id: u16,
        df: bool,
        evil: bool,
        ttl: u8,
        protocol: u8,
        saddr: u32,
        daddr: u32,
    }
    IpPiece { template: Template, off: u16, len: u16 }
    /// One piece of a list: `len` blocks of 8 bytes of the payload, from block `off` on.
    BlockRequest { off: u16, len: u16 }
    Listed { status: u8, length: usize, index: usize }
    Addr { ip: u32, port: u16 }
    TcpFlow { cl: Addr, sv: Addr, cl_seq: u32, sv_seq: u32, marks: Marks }
    TcpSent { status: u8, flow: TcpFlow, first: usize, second: usize, third: usize }
    TcpHeader { flow: TcpFlow, bytes: [u8; 20] }
    Seq { is_set: bool, number: u32 }
    Pushed { flow: TcpFlow, cl: Seq, sv: Seq }
    UdpFlow { cl: Addr, sv: Addr, marks: Marks }
    Choices { other_source: bool, srcip: u32, frag_off: u16, csum: bool }
    IcmpFlow { cl: u32, sv: u32, ping_seq: u16, pong_seq: u16, marks: Marks }
    IcmpSent { status: u8, flow: IcmpFlow, length: usize }
    Checked { status: u8, no_checksum: bool }
    Key { saddr: u32, daddr: u32, id: u16, protocol: u8 }
    Assembly { key: Key, known: bool, total: usize, floor: usize, spoilt: bool }
    Opened { status: u8, assembly: Assembly }
    Taken { status: u8, outcome: u8, assembly: Assembly }
    Progress { status: u8, outcome: u8, length: usize }
    Packet { headroom: usize, end: usize }
}
