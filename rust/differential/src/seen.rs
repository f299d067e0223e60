//! What a run must have seen to count: every call of the archive, carried out and refused by every
//! number that the documents give it, every answer that is no refusal, a piece that was refused for
//! its protocol alone, of headers with options all that `options` names, and other marks than a new
//! flow's in every call that `marks` names.

use crate::run::Run;
use crate::{marks, options};

const HEADER: &str = include_str!("../../../include/wispbundle.h");

/// The calls in the header's order, and the numbers that each can give. A call that takes no payload
/// is never refused by 1, and one that takes no offset never by 2.
const NUMBERS: [(&str, &[u8]); 45] = [
    ("wb_version", &[]),
    ("wb_ip_csum", &[1]),
    ("wb_build_tcp", &[1, 3]),
    ("wb_build_udp", &[1, 3, 22]),
    ("wb_build_icmp", &[1, 3]),
    ("wb_build_piece", &[1, 2, 3]),
    ("wb_fragment", &[1, 2, 3]),
    ("wb_tail", &[1, 2, 3]),
    ("wb_datagram", &[1, 3]),
    ("wb_fragments", &[1, 2, 3]),
    ("wb_tcp_new", &[]),
    ("wb_tcp_marked", &[]),
    ("wb_tcp_open", &[3]),
    ("wb_tcp_client_close", &[3]),
    ("wb_tcp_server_close", &[3]),
    ("wb_tcp_client_reset", &[3]),
    ("wb_tcp_server_reset", &[3]),
    ("wb_tcp_client_ack", &[3]),
    ("wb_tcp_server_ack", &[3]),
    ("wb_tcp_client_data_segment", &[1, 3]),
    ("wb_tcp_server_data_segment", &[1, 3]),
    ("wb_tcp_client_message", &[1, 3]),
    ("wb_tcp_server_message", &[1, 3]),
    ("wb_tcp_client_hole", &[]),
    ("wb_tcp_server_hole", &[]),
    ("wb_tcp_client_hdr", &[]),
    ("wb_tcp_server_hdr", &[]),
    ("wb_tcp_push_state", &[]),
    ("wb_tcp_pop_state", &[]),
    ("wb_udp_new", &[]),
    ("wb_udp_marked", &[]),
    ("wb_udp_client_dgram", &[1, 3, 22]),
    ("wb_udp_server_dgram", &[1, 3, 22]),
    ("wb_icmp_new", &[]),
    ("wb_icmp_marked", &[]),
    ("wb_icmp_echo", &[1, 3]),
    ("wb_icmp_echo_reply", &[1, 3]),
    ("wb_check", &[4, 5, 6, 7, 12, 13, 14, 15, 18]),
    ("wb_assembly_open", &[11]),
    ("wb_assembly_take", &[4, 5, 6, 7, 8, 9, 10, 11, 18]),
    ("wb_assembly_progress", &[11]),
    ("wb_pcap_header", &[3]),
    ("wb_pcap_record", &[1, 3, 17]),
    ("wb_hex_dump_len", &[16]),
    ("wb_hex_dump", &[3, 16]),
];

const ANSWERS: [&str; 9] = [
    "checked: good",
    "checked: good without checksum",
    "taken: waiting",
    "taken: complete",
    "taken: spoilt",
    "refused by 8: for the protocol alone",
    "stands: waiting",
    "stands: complete",
    "stands: spoilt",
];

/// The functions that the header declares: what stands before a bracket and begins with `wb_`.
fn declared() -> impl Iterator<Item = &'static str> {
    let names = HEADER
        .split('(')
        .filter_map(|text| text.split([' ', '\n']).next_back());
    names.filter(|name| name.starts_with("wb_"))
}

/// A call and its status, as one line says them.
pub fn words((call, status): &(&str, u8)) -> String {
    match status {
        0 => call.to_string(),
        number => format!("{call} refused by {number}"),
    }
}

/// What the run should have seen and has not, and what it has seen and should not.
pub fn faults(run: &Run) -> Vec<String> {
    let statuses = |(call, numbers): &(&'static str, &'static [u8])| {
        let call = *call;
        [0].iter()
            .chain(*numbers)
            .map(move |&status| (call, status))
    };
    let owed: Vec<_> = NUMBERS.iter().flat_map(statuses).collect();
    let made = owed.iter().filter(|call| !run.calls.contains_key(call));
    let other = run.calls.keys().filter(|call| !owed.contains(call));
    let marked = NUMBERS.iter().filter(|(call, _)| marks::are_handed(call));
    let lines = ANSWERS.map(String::from).into_iter().chain(options::owed());
    let lines = lines.chain(marked.map(|(call, _)| marks::line(call)));
    let given = lines.filter(|what| !run.seen.contains_key(what));
    let mut faults: Vec<_> = made
        .map(|call| format!("never seen: {}", words(call)))
        .collect();
    faults.extend(given.map(|what| format!("never seen: {what}")));
    faults.extend(other.map(|call| format!("not in the table: {}", words(call))));
    if !declared().eq(NUMBERS.map(|(call, _)| call)) {
        faults.push("the header declares other calls than the table".to_string());
    }
    faults
}
