//! The archive's functions as include/wispbundle.h declares them, under the same names.
//!
//! For every function here: a pointer and the count behind it name that many bytes, requests or
//! ends, the pointer is aligned and not null, and bytes behind a `*mut` overlap no other bytes of the
//! same call. That is all that a caller owes; the safe calls of this crate pay it with slices. And
//! the archive is that of these declarations: [`wb_version`] answers [`VERSION`].

mod types;
pub use types::*;

#[cfg(not(any(target_arch = "x86_64", target_arch = "aarch64")))]
compile_error!("libwispbundle.a is for x86-64; beside it only aarch64 is known, for tests");

/// The header's `WB_VERSION`: the number of the archive whose structs and calls these are.
pub const VERSION: u32 = 8;

macro_rules! functions {
    ($($($name:ident),+: fn $args:tt -> $answer:ident;)+) => {
        unsafe extern "C" {
            $($(pub fn $name $args -> $answer;)+)+
        }
    };
}

// Functions that differ in name alone stand together.
functions! {
    wb_version: fn() -> u32;

    wb_ip_csum: fn(buf: *const u8, buf_len: usize) -> Sum;

    wb_build_tcp: fn(
        segment: TcpSegment, payload: *const u8, payload_len: usize, out: *mut u8, out_len: usize
    ) -> Length;
    wb_build_udp: fn(
        datagram: UdpDatagram, payload: *const u8, payload_len: usize, out: *mut u8, out_len: usize
    ) -> Length;
    wb_build_icmp: fn(
        echo: IcmpPacket, payload: *const u8, payload_len: usize, out: *mut u8, out_len: usize
    ) -> Length;
    wb_build_piece: fn(
        piece: IpPiece, payload: *const u8, payload_len: usize, out: *mut u8, out_len: usize
    ) -> Length;

    wb_fragment: fn(
        template: Template, payload: *const u8, payload_len: usize, off: u16, len: u16,
        out: *mut u8, out_len: usize
    ) -> Length;
    wb_tail: fn(
        template: Template, payload: *const u8, payload_len: usize, off: u16,
        out: *mut u8, out_len: usize
    ) -> Length;
    wb_datagram: fn(
        template: Template, payload: *const u8, payload_len: usize, out: *mut u8, out_len: usize
    ) -> Length;
    wb_fragments: fn(
        template: Template, payload: *const u8, payload_len: usize,
        list: *const BlockRequest, list_len: usize,
        out: *mut u8, out_len: usize, ends: *mut usize, ends_len: usize
    ) -> Listed;

    wb_tcp_new: fn(cl: Addr, sv: Addr, cl_seq: u32, sv_seq: u32) -> TcpFlow;
    wb_tcp_marked: fn(flow: TcpFlow, marks: Marks) -> TcpFlow;
    wb_tcp_open, wb_tcp_client_close, wb_tcp_server_close, wb_tcp_client_reset, wb_tcp_server_reset,
        wb_tcp_client_ack, wb_tcp_server_ack: fn(
        flow: TcpFlow, out: *mut u8, out_len: usize
    ) -> TcpSent;
    wb_tcp_client_data_segment, wb_tcp_server_data_segment: fn(
        flow: TcpFlow, bytes: *const u8, bytes_len: usize, out: *mut u8, out_len: usize
    ) -> TcpSent;
    wb_tcp_client_message, wb_tcp_server_message: fn(
        flow: TcpFlow,
        bytes: *const u8, bytes_len: usize, send_ack: bool, frag_off: u16,
        out: *mut u8, out_len: usize
    ) -> TcpSent;
    wb_tcp_client_hole, wb_tcp_server_hole: fn(flow: TcpFlow, bytes: u32) -> TcpFlow;
    wb_tcp_client_hdr, wb_tcp_server_hdr: fn(flow: TcpFlow, dlen: u32, csum: u16) -> TcpHeader;
    wb_tcp_push_state: fn(flow: TcpFlow, cl_seq: Seq, sv_seq: Seq) -> Pushed;
    wb_tcp_pop_state: fn(flow: TcpFlow, cl_seq: Seq, sv_seq: Seq) -> TcpFlow;

    wb_udp_new: fn(cl: Addr, sv: Addr) -> UdpFlow;
    wb_udp_marked: fn(flow: UdpFlow, marks: Marks) -> UdpFlow;
    wb_udp_client_dgram, wb_udp_server_dgram: fn(
        flow: UdpFlow,
        bytes: *const u8, bytes_len: usize, given: Choices, out: *mut u8, out_len: usize
    ) -> Length;

    wb_icmp_new: fn(cl: u32, sv: u32) -> IcmpFlow;
    wb_icmp_marked: fn(flow: IcmpFlow, marks: Marks) -> IcmpFlow;
    wb_icmp_echo, wb_icmp_echo_reply: fn(
        flow: IcmpFlow, bytes: *const u8, bytes_len: usize, out: *mut u8, out_len: usize
    ) -> IcmpSent;

    wb_check: fn(packet: *const u8, packet_len: usize) -> Checked;

    wb_assembly_open: fn(
        key: Key, payload: *mut u8, payload_len: usize, map: *mut u8, map_len: usize
    ) -> Opened;
    wb_assembly_take: fn(
        before: Assembly,
        packet: *const u8, packet_len: usize,
        payload: *mut u8, payload_len: usize, map: *mut u8, map_len: usize
    ) -> Taken;
    wb_assembly_progress: fn(
        before: Assembly,
        payload: *const u8, payload_len: usize, map: *const u8, map_len: usize
    ) -> Progress;

    wb_pcap_header: fn(out: *mut u8, out_len: usize) -> Length;
    wb_pcap_record: fn(
        sec: u32, usec: u32, packet: *const u8, packet_len: usize, out: *mut u8, out_len: usize
    ) -> Length;

    wb_hex_dump_len: fn(packet: Packet, buf: *const u8, buf_len: usize) -> Length;
    wb_hex_dump: fn(
        packet: Packet, buf: *const u8, buf_len: usize, out: *mut u8, out_len: usize
    ) -> Length;
}
