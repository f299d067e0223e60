/* Wispbundle for C: raw IPv4, TCP, UDP and ICMP packets, pieces of a datagram, and putting pieces together.
 *
 * Link with libwispbundle.a (`.ci/archive` writes it), which is for x86-64 Linux, from C11 or C++11.
 *
 * What a caller owes. Bytes go in as a pointer and a count: so many bytes are there, at any alignment, and the pointer
 * is not NULL, also where the count is 0. Requests and ends go in likewise, but they are counted themselves and not
 * their bytes, and lie where C aligns them. A buffer that is written to (no const) overlaps no other bytes of the same
 * call. A bool is 0 or 1. Numbers in structs are plain: 10.0.0.1 is 0x0a000001, and port 80 is 80.
 *
 * What a call owes. It takes every input that keeps to this, whatever the numbers and the bytes are, and answers. The
 * answer of a call that can refuse has a status: 0 where the call was carried out, and else the number of the refusal.
 * A refused call leaves every buffer as it was, and all else in its answer is 0, but a flow or an assembly that was
 * handed in comes back as it was, and where one of a list is refused, the answer has its index. So `flow = answer.flow`
 * is always right.
 *
 * Threads. Calls share no state: all that a call knows is in its arguments, and all that it changes is in its answer
 * and in the buffers that it is lent. Threads may call at the same time, if none of them uses a buffer that another
 * one's call is writing to.
 *
 * What is proved. The code of each function does what its contract in crates/wispbundle/src says, which is what is said
 * of it here. The proof does not cover the compiler's back end, which makes the archive from that code; how C hands
 * structs and pointers over; nor that a caller's pointers and counts are what they say.
 */
#ifndef WISPBUNDLE_H
#define WISPBUNDLE_H

#if !defined(__x86_64__)
#error "libwispbundle.a is for x86-64: elsewhere C passes structs otherwise"
#endif

#include <stdbool.h>
#include <stddef.h>
#include <stdint.h>

#ifdef __cplusplus
extern "C" {
#endif

/* ---- the version: another number after each change of a struct or a call, also where every size stays. The header is
 * the archive's exactly if wb_version answers WB_VERSION. */
#define WB_VERSION 8

uint32_t wb_version(void);

/* ---- statuses. Where several apply, the first in the order that is named with the call is given. */
enum {
    WB_ACCEPTED = 0,
    WB_TOO_LONG = 1,        /* payload above 65,495 (TCP), 65,507 (UDP, ICMP), 65,515 (IPv4 payload); more than
                               65,535 bytes to sum or to put in one capture record */
    WB_BAD_OFFSET = 2,      /* piece offset above 8,191 */
    WB_NO_ROOM = 3,         /* a buffer is shorter than what is to be written */
    WB_SHORT = 4,           /* fewer than 20 bytes, or fewer than the total length */
    WB_NOT_IPV4 = 5,        /* version is not 4, or header length is under 5 words */
    WB_BAD_TOTAL = 6,       /* total length is under the header length */
    WB_BAD_HEADER = 7,      /* IPv4 header checksum does not verify */
    WB_WRONG_KEY = 8,       /* key differs from the assembly's: source, destination, identification or protocol */
    WB_NOT_BLOCKS = 9,      /* MF set and data length no multiple of 8 */
    WB_TOO_FAR = 10,        /* a piece ends above 65,515 */
    WB_BAD_ASSEMBLY = 11,   /* buffer sizes wrong, or total above 65,515 or floor above 65,513 */
    WB_OTHER_PROTOCOL = 12, /* protocol is not 1, 6 or 17 */
    WB_PIECE = 13,          /* offset not 0, or MF set */
    WB_CUT = 14,            /* transport part under 20 (TCP) or 8 bytes; TCP data offset byte not 0x50; UDP length
                               not the IPv4 payload's */
    WB_BAD_SUM = 15,        /* transport checksum does not verify */
    WB_BAD_PART = 16,       /* headroom > end, end > buffer or end > 1,048,576 */
    WB_BAD_TIME = 17,       /* microseconds above 999,999 */
    WB_RESERVED = 18,       /* the reserved bit of the IPv4 header is set */
    WB_NO_CHECKSUM = 22     /* a UDP datagram is asked for without a checksum */
};

/* ---- bounds: what is above them is refused by 1, by 2 (the offset), by 16 (the end) or by 17 (the microseconds) */
enum {
    WB_MOST_TCP = 65495,   /* payload bytes of a TCP segment */
    WB_MOST_UDP = 65507,   /* .. of a UDP datagram */
    WB_MOST_ICMP = 65507,  /* .. of an echo */
    WB_MOST_IPV4 = 65515,  /* .. of an IPv4 datagram, of which a piece is cut */
    WB_MOST_BYTES = 65535, /* bytes to sum, or to put in one capture record */
    WB_MOST_OFFSET = 8191, /* a piece's offset in blocks of 8 bytes */
    WB_MOST_END = 1048576, /* the end of a packet that is dumped */
    WB_MOST_USEC = 999999  /* microseconds of a capture record */
};

/* ---- answers that several calls give */

/* How many bytes were written, from the buffer's start on, and what lies behind them keeps its contents; or, where a
 * call writes nothing, how many there would be. */
typedef struct {
    uint8_t status;
    size_t length;
} wb_length;

/* ---- the checksum (RFC 1071) */

typedef struct {
    uint8_t status;
    uint16_t sum;
} wb_sum;

/* Refuses by 1. Bytes whose own checksum is among them have the checksum 0 exactly if they verify. */
wb_sum wb_ip_csum(const uint8_t *buf, size_t buf_len);

/* ---- building a packet
 * Each writes a whole packet, IPv4 header first, to the start of out, and answers its length. It refuses by 1, 3, a
 * UDP datagram by 22, 1, 3, and a piece by 1, 2, 3. */

/* The bits of flags in a TCP header. */
enum {
    WB_FIN = 0x01,
    WB_SYN = 0x02,
    WB_RST = 0x04,
    WB_PSH = 0x08,
    WB_ACK = 0x10,
    WB_URG = 0x20,
    WB_ECE = 0x40,
    WB_CWR = 0x80
};

/* The bits of frag_off, the whole 16-bit field of the IPv4 header; the other 13 are the offset in blocks. */
enum { WB_EVIL = 0x8000, WB_DF = 0x4000, WB_MF = 0x2000 };

enum { WB_PROTOCOL_ICMP = 1, WB_PROTOCOL_TCP = 6, WB_PROTOCOL_UDP = 17 };

/* The TOS and the TTL of the IPv4 header, any numbers: a TTL of 0 is built, too. The packet of a request has the
 * request's, so who leaves them out there asks for a TTL of 0; every packet of a flow has the flow's. */
typedef struct {
    uint8_t tos;
    uint8_t ttl;
} wb_marks;

/* The marks of a new flow. */
enum { WB_TOS = 0, WB_TTL = 64 };

/* Any flags, and any frag_off. */
typedef struct {
    uint32_t saddr;
    uint32_t daddr;
    uint16_t sport;
    uint16_t dport;
    uint32_t seq;
    uint32_t ack;
    uint8_t flags;
    uint16_t frag_off;
    wb_marks marks;
} wb_tcp_segment;

/* Any frag_off. csum: whether a checksum is asked for. It must be: without one no datagram is built (22). */
typedef struct {
    uint32_t saddr;
    uint32_t daddr;
    uint16_t sport;
    uint16_t dport;
    uint16_t frag_off;
    bool csum;
    wb_marks marks;
} wb_udp_datagram;

/* reply: type 0 and not 8. The id is 0x1234. */
typedef struct {
    uint32_t saddr;
    uint32_t daddr;
    bool reply;
    uint16_t seq;
    wb_marks marks;
} wb_icmp_packet;

/* What every piece of one payload says in its header. evil is the reserved bit; protocol is any number. */
typedef struct {
    uint8_t tos;
    uint16_t id;
    bool df;
    bool evil;
    uint8_t ttl;
    uint8_t protocol;
    uint32_t saddr;
    uint32_t daddr;
} wb_template;

/* len blocks of 8 bytes of the payload, from block off on. */
typedef struct {
    wb_template template_;
    uint16_t off;
    uint16_t len;
} wb_ip_piece;

wb_length wb_build_tcp(wb_tcp_segment segment, const uint8_t *payload, size_t payload_len, uint8_t *out,
                       size_t out_len);
wb_length wb_build_udp(wb_udp_datagram datagram, const uint8_t *payload, size_t payload_len, uint8_t *out,
                       size_t out_len);
wb_length wb_build_icmp(wb_icmp_packet echo, const uint8_t *payload, size_t payload_len, uint8_t *out, size_t out_len);
wb_length wb_build_piece(wb_ip_piece piece, const uint8_t *payload, size_t payload_len, uint8_t *out, size_t out_len);

/* ---- pieces of an IPv4 payload
 * A piece carries the payload's bytes from 8·off up to, not including, 8·(off + len), as far as they are there; MF is
 * set exactly if bytes follow. A piece past the payload's end is empty and has MF clear, so it claims a longer
 * datagram: with the payload's last piece it spoils an assembly. At the offsets 8,190 and 8,191 it ends above 65,515,
 * so taking it is refused by 10, and it spoils nothing. A call for one piece writes its packet to the start of out, and
 * answers its length. */

/* The same packet as wb_build_piece writes. Refuses by 1, 2, 3. */
wb_length wb_fragment(wb_template template_, const uint8_t *payload, size_t payload_len, uint16_t off, uint16_t len,
                      uint8_t *out, size_t out_len);
/* All from block off on. Refuses by 1, 2, 3. */
wb_length wb_tail(wb_template template_, const uint8_t *payload, size_t payload_len, uint16_t off, uint8_t *out,
                  size_t out_len);
/* The whole payload, with offset 0 and MF clear. Refuses by 1, 3. */
wb_length wb_datagram(wb_template template_, const uint8_t *payload, size_t payload_len, uint8_t *out, size_t out_len);

/* One piece of a list: len blocks of 8 bytes of the payload, from block off on. */
typedef struct {
    uint16_t off;
    uint16_t len;
} wb_block_request;

/* length is how many bytes were written, from the buffer's start on. index is that of the first request with an offset
 * above 8,191, where the status is 2, and else 0. */
typedef struct {
    uint8_t status;
    size_t length;
    size_t index;
} wb_listed;

/* All pieces of a list: for each request the packet that wb_fragment writes, end to end to the start of out, and where
 * packet i ends, to ends[i]; or none of them. What lies behind, in out and in ends, keeps its contents. A request that
 * stands twice is written twice, and an empty list is accepted and writes nothing. Refuses by 1, 2, 3: by 1 also where
 * the list is empty, by 2 for an offset anywhere in it, and by 3 where out is shorter than all packets together or ends
 * than the list. */
wb_listed wb_fragments(wb_template template_, const uint8_t *payload, size_t payload_len, const wb_block_request *list,
                       size_t list_len, uint8_t *out, size_t out_len, size_t *ends, size_t ends_len);

/* ---- TCP flows
 * A flow has two ends, the next sequence number of each, which wraps at 2^32, and the marks of its packets, which only
 * wb_tcp_marked changes. A call that sends writes its packets end to end to the start of out, or none of them, and
 * answers where each ends (0: there is no such packet). A call without payload bytes refuses by 3, and one with them by
 * 1, 3. */

typedef struct {
    uint32_t ip;
    uint16_t port;
} wb_addr;

typedef struct {
    wb_addr cl;
    wb_addr sv;
    uint32_t cl_seq;
    uint32_t sv_seq;
    wb_marks marks;
} wb_tcp_flow;

typedef struct {
    uint8_t status;
    wb_tcp_flow flow;
    size_t first;
    size_t second;
    size_t third;
} wb_tcp_sent;

/* With the marks WB_TOS and WB_TTL. */
wb_tcp_flow wb_tcp_new(wb_addr cl, wb_addr sv, uint32_t cl_seq, uint32_t sv_seq);
/* The flow with other marks on every packet from now on. Never refused. */
wb_tcp_flow wb_tcp_marked(wb_tcp_flow flow, wb_marks marks);

/* Three packets, 120 bytes: SYN, SYN and ACK, ACK. */
wb_tcp_sent wb_tcp_open(wb_tcp_flow flow, uint8_t *out, size_t out_len);
/* Three packets, 120 bytes: FIN and ACK from the side named, FIN and ACK from the other, ACK. */
wb_tcp_sent wb_tcp_client_close(wb_tcp_flow flow, uint8_t *out, size_t out_len);
wb_tcp_sent wb_tcp_server_close(wb_tcp_flow flow, uint8_t *out, size_t out_len);
/* One packet: RST alone, acknowledgment number 0. */
wb_tcp_sent wb_tcp_client_reset(wb_tcp_flow flow, uint8_t *out, size_t out_len);
wb_tcp_sent wb_tcp_server_reset(wb_tcp_flow flow, uint8_t *out, size_t out_len);
/* One packet: ACK. */
wb_tcp_sent wb_tcp_client_ack(wb_tcp_flow flow, uint8_t *out, size_t out_len);
wb_tcp_sent wb_tcp_server_ack(wb_tcp_flow flow, uint8_t *out, size_t out_len);
/* One packet with the bytes, PSH and ACK. */
wb_tcp_sent wb_tcp_client_data_segment(wb_tcp_flow flow, const uint8_t *bytes, size_t bytes_len, uint8_t *out,
                                       size_t out_len);
wb_tcp_sent wb_tcp_server_data_segment(wb_tcp_flow flow, const uint8_t *bytes, size_t bytes_len, uint8_t *out,
                                       size_t out_len);
/* The same with frag_off as the IPv4 header's whole field, and behind it, where send_ack is true, the other side's ACK,
 * 40 bytes more. */
wb_tcp_sent wb_tcp_client_message(wb_tcp_flow flow, const uint8_t *bytes, size_t bytes_len, bool send_ack,
                                  uint16_t frag_off, uint8_t *out, size_t out_len);
wb_tcp_sent wb_tcp_server_message(wb_tcp_flow flow, const uint8_t *bytes, size_t bytes_len, bool send_ack,
                                  uint16_t frag_off, uint8_t *out, size_t out_len);

/* A side's number moved on by so many bytes, with no packet. Never refused. */
wb_tcp_flow wb_tcp_client_hole(wb_tcp_flow flow, uint32_t bytes);
wb_tcp_flow wb_tcp_server_hole(wb_tcp_flow flow, uint32_t bytes);

/* A TCP header alone, with PSH, ACK and the checksum given; the side's number moves on by dlen. Never refused. */
typedef struct {
    wb_tcp_flow flow;
    uint8_t bytes[20];
} wb_tcp_header;

wb_tcp_header wb_tcp_client_hdr(wb_tcp_flow flow, uint32_t dlen, uint16_t csum);
wb_tcp_header wb_tcp_server_hdr(wb_tcp_flow flow, uint32_t dlen, uint16_t csum);

/* A number for one side, or, where is_set is false, nothing for it. */
typedef struct {
    bool is_set;
    uint32_t number;
} wb_seq;

/* The flow with the numbers that are set, and the old number of each side that was set. */
typedef struct {
    wb_tcp_flow flow;
    wb_seq cl;
    wb_seq sv;
} wb_pushed;

/* Sets the numbers that are given, and leaves the marks as they are. Never refused. */
wb_pushed wb_tcp_push_state(wb_tcp_flow flow, wb_seq cl_seq, wb_seq sv_seq);
wb_tcp_flow wb_tcp_pop_state(wb_tcp_flow flow, wb_seq cl_seq, wb_seq sv_seq);

/* ---- UDP flows
 * A flow has two ends and the marks of its packets. Each call for a datagram writes one to the start of out. It refuses
 * by 22, 1, 3. */

typedef struct {
    wb_addr cl;
    wb_addr sv;
    wb_marks marks;
} wb_udp_flow;

/* The source address is srcip where other_source is true, and else the flow's. frag_off and csum are as in
 * wb_udp_datagram. */
typedef struct {
    bool other_source;
    uint32_t srcip;
    uint16_t frag_off;
    bool csum;
} wb_choices;

/* With the marks WB_TOS and WB_TTL. */
wb_udp_flow wb_udp_new(wb_addr cl, wb_addr sv);
/* The flow with other marks on every packet from now on. Never refused. */
wb_udp_flow wb_udp_marked(wb_udp_flow flow, wb_marks marks);
wb_length wb_udp_client_dgram(wb_udp_flow flow, const uint8_t *bytes, size_t bytes_len, wb_choices given, uint8_t *out,
                              size_t out_len);
wb_length wb_udp_server_dgram(wb_udp_flow flow, const uint8_t *bytes, size_t bytes_len, wb_choices given, uint8_t *out,
                              size_t out_len);

/* ---- ICMP flows
 * The numbers of echoes and of replies start at 0, count apart and wrap at 65,536. The marks are those of every packet.
 * Each call for a packet writes one to the start of out. It refuses by 1, 3. */

typedef struct {
    uint32_t cl;
    uint32_t sv;
    uint16_t ping_seq;
    uint16_t pong_seq;
    wb_marks marks;
} wb_icmp_flow;

typedef struct {
    uint8_t status;
    wb_icmp_flow flow;
    size_t length;
} wb_icmp_sent;

/* With the marks WB_TOS and WB_TTL. */
wb_icmp_flow wb_icmp_new(uint32_t cl, uint32_t sv);
/* The flow with other marks on every packet from now on. Never refused. */
wb_icmp_flow wb_icmp_marked(wb_icmp_flow flow, wb_marks marks);
wb_icmp_sent wb_icmp_echo(wb_icmp_flow flow, const uint8_t *bytes, size_t bytes_len, uint8_t *out, size_t out_len);
wb_icmp_sent wb_icmp_echo_reply(wb_icmp_flow flow, const uint8_t *bytes, size_t bytes_len, uint8_t *out,
                                size_t out_len);

/* ---- the check of a finished packet */

/* A status of 0 says that the packet is good; no_checksum, that it is UDP with a checksum field of 0. */
typedef struct {
    uint8_t status;
    bool no_checksum;
} wb_checked;

/* Refuses by 4, 5, 6, 4, 7, 18, 13, 12, 14, 15. Options of the IPv4 header, any bytes, are summed with it and passed
 * over. Bytes after the packet's total length do not count. */
wb_checked wb_check(const uint8_t *packet, size_t packet_len);

/* ---- putting pieces together
 * An assembly is a record, a payload buffer of exactly 65,515 bytes and a map of exactly 1,024. From an opened one, the
 * same accepted pieces end in the same state, in any order and with any repeats. */

enum { WB_PAYLOAD_BYTES = 65515, WB_MAP_BYTES = 1024 };

/* What the pieces of one datagram have in common: the four fields that RFC 791 names. protocol is any number. Pieces
 * that differ in it alone are of two datagrams, and the assembly of either refuses the other's by 8. */
typedef struct {
    uint32_t saddr;
    uint32_t daddr;
    uint16_t id;
    uint8_t protocol;
} wb_key;

/* total is how many bytes the datagram's IPv4 payload has. Where known is false, it does not count, and a call that is
 * carried out answers it as 0. Every record counts as it is, unless 11 refuses it. In one that calls have led to from
 * wb_assembly_open, floor is one more than the furthest end of a piece with MF set (0 where there is none), and a known
 * total is at least floor; when it is spoilt, known is false, and total and floor are 0. */
typedef struct {
    wb_key key;
    bool known;
    size_t total;
    size_t floor;
    bool spoilt;
} wb_assembly;

typedef struct {
    uint8_t status;
    wb_assembly assembly;
} wb_opened;

enum { WB_WAITING = 1, WB_COMPLETE = 2, WB_SPOILT = 3 };

/* The outcome is 0 on a refusal. */
typedef struct {
    uint8_t status;
    uint8_t outcome;
    wb_assembly assembly;
} wb_taken;

/* Zeroes both buffers. Refuses by 11, for their sizes. */
wb_opened wb_assembly_open(wb_key key, uint8_t *payload, size_t payload_len, uint8_t *map, size_t map_len);

/* Takes the piece that a packet carries: its data goes to its place in payload, and its blocks are marked in map.
 * Waiting: bytes are missing still. Complete: payload holds the datagram's IPv4 payload in its first total bytes; a
 * later piece may still spoil it. Spoilt: two pieces contradict each other. The piece that spoils zeroes both buffers.
 * Where spoilt is true already, both buffers stay, and the record comes back as it was, with total 0 where known is
 * false. The packet may have options, as for wb_check. Refuses by 11, 4, 5, 6, 4, 7, 18, 8, 9, 10. */
wb_taken wb_assembly_take(wb_assembly before, const uint8_t *packet, size_t packet_len, uint8_t *payload,
                          size_t payload_len, uint8_t *map, size_t map_len);

/* The outcome is 0 on a refusal. length is 0, unless the outcome is complete. */
typedef struct {
    uint8_t status;
    uint8_t outcome;
    size_t length;
} wb_progress;

/* How an assembly stands: after wb_assembly_open waiting, and after each piece that was taken the outcome that was
 * answered. Complete: the first length bytes of payload are the datagram's IPv4 payload. Nothing is written. Refuses by
 * 11. */
wb_progress wb_assembly_progress(wb_assembly before, const uint8_t *payload, size_t payload_len, const uint8_t *map,
                                 size_t map_len);

/* ---- captures: classic pcap, little-endian, microseconds, link type 101 (raw IP) */

/* What a file begins with, and what stands before each packet in it. */
enum { WB_PCAP_HEADER_BYTES = 24, WB_PCAP_RECORD_BYTES = 16 };

/* The 24 bytes that a file begins with. Refuses by 3. */
wb_length wb_pcap_header(uint8_t *out, size_t out_len);
/* 16 bytes and the packet. Refuses by 1, 17, 3. */
wb_length wb_pcap_record(uint32_t sec, uint32_t usec, const uint8_t *packet, size_t packet_len, uint8_t *out,
                         size_t out_len);

/* ---- the hex dump */

/* The packet is the buffer's bytes from headroom up to, not including, end. */
typedef struct {
    size_t headroom;
    size_t end;
} wb_packet;

/* How many characters the dump has. For a packet of n bytes: 14 and the decimal digits of n, 57 for each line of up to
 * 16 bytes, and one for each byte. Refuses by 16. */
wb_length wb_hex_dump_len(wb_packet packet, const uint8_t *buf, size_t buf_len);
/* Text, with no NUL behind it. Positions count from the start of buf. Refuses by 16, 3. */
wb_length wb_hex_dump(wb_packet packet, const uint8_t *buf, size_t buf_len, uint8_t *out, size_t out_len);

/* ---- the layout of each struct in the archive: its size, and where each of its fields begins */

#ifdef __cplusplus
#define WB_ASSERT static_assert
#else
#define WB_ASSERT _Static_assert
#endif
#define WB_SIZE(type, size) WB_ASSERT(sizeof(type) == (size), #type " has another size in the archive")
#define WB_AT(type, field, at) WB_ASSERT(offsetof(type, field) == (at), #type "." #field " is elsewhere in the archive")

WB_SIZE(wb_length, 16);
WB_AT(wb_length, status, 0);
WB_AT(wb_length, length, 8);

WB_SIZE(wb_sum, 4);
WB_AT(wb_sum, status, 0);
WB_AT(wb_sum, sum, 2);

WB_SIZE(wb_marks, 2);
WB_AT(wb_marks, tos, 0);
WB_AT(wb_marks, ttl, 1);

WB_SIZE(wb_tcp_segment, 28);
WB_AT(wb_tcp_segment, saddr, 0);
WB_AT(wb_tcp_segment, daddr, 4);
WB_AT(wb_tcp_segment, sport, 8);
WB_AT(wb_tcp_segment, dport, 10);
WB_AT(wb_tcp_segment, seq, 12);
WB_AT(wb_tcp_segment, ack, 16);
WB_AT(wb_tcp_segment, flags, 20);
WB_AT(wb_tcp_segment, frag_off, 22);
WB_AT(wb_tcp_segment, marks, 24);

WB_SIZE(wb_udp_datagram, 20);
WB_AT(wb_udp_datagram, saddr, 0);
WB_AT(wb_udp_datagram, daddr, 4);
WB_AT(wb_udp_datagram, sport, 8);
WB_AT(wb_udp_datagram, dport, 10);
WB_AT(wb_udp_datagram, frag_off, 12);
WB_AT(wb_udp_datagram, csum, 14);
WB_AT(wb_udp_datagram, marks, 15);

WB_SIZE(wb_icmp_packet, 16);
WB_AT(wb_icmp_packet, saddr, 0);
WB_AT(wb_icmp_packet, daddr, 4);
WB_AT(wb_icmp_packet, reply, 8);
WB_AT(wb_icmp_packet, seq, 10);
WB_AT(wb_icmp_packet, marks, 12);

WB_SIZE(wb_template, 16);
WB_AT(wb_template, tos, 0);
WB_AT(wb_template, id, 2);
WB_AT(wb_template, df, 4);
WB_AT(wb_template, evil, 5);
WB_AT(wb_template, ttl, 6);
WB_AT(wb_template, protocol, 7);
WB_AT(wb_template, saddr, 8);
WB_AT(wb_template, daddr, 12);

WB_SIZE(wb_ip_piece, 20);
WB_AT(wb_ip_piece, template_, 0);
WB_AT(wb_ip_piece, off, 16);
WB_AT(wb_ip_piece, len, 18);

WB_SIZE(wb_block_request, 4);
WB_AT(wb_block_request, off, 0);
WB_AT(wb_block_request, len, 2);

WB_SIZE(wb_listed, 24);
WB_AT(wb_listed, status, 0);
WB_AT(wb_listed, length, 8);
WB_AT(wb_listed, index, 16);

WB_SIZE(wb_addr, 8);
WB_AT(wb_addr, ip, 0);
WB_AT(wb_addr, port, 4);

WB_SIZE(wb_tcp_flow, 28);
WB_AT(wb_tcp_flow, cl, 0);
WB_AT(wb_tcp_flow, sv, 8);
WB_AT(wb_tcp_flow, cl_seq, 16);
WB_AT(wb_tcp_flow, sv_seq, 20);
WB_AT(wb_tcp_flow, marks, 24);

WB_SIZE(wb_tcp_sent, 56);
WB_AT(wb_tcp_sent, status, 0);
WB_AT(wb_tcp_sent, flow, 4);
WB_AT(wb_tcp_sent, first, 32);
WB_AT(wb_tcp_sent, second, 40);
WB_AT(wb_tcp_sent, third, 48);

WB_SIZE(wb_tcp_header, 48);
WB_AT(wb_tcp_header, flow, 0);
WB_AT(wb_tcp_header, bytes, 28);

WB_SIZE(wb_seq, 8);
WB_AT(wb_seq, is_set, 0);
WB_AT(wb_seq, number, 4);

WB_SIZE(wb_pushed, 44);
WB_AT(wb_pushed, flow, 0);
WB_AT(wb_pushed, cl, 28);
WB_AT(wb_pushed, sv, 36);

WB_SIZE(wb_udp_flow, 20);
WB_AT(wb_udp_flow, cl, 0);
WB_AT(wb_udp_flow, sv, 8);
WB_AT(wb_udp_flow, marks, 16);

WB_SIZE(wb_choices, 12);
WB_AT(wb_choices, other_source, 0);
WB_AT(wb_choices, srcip, 4);
WB_AT(wb_choices, frag_off, 8);
WB_AT(wb_choices, csum, 10);

WB_SIZE(wb_icmp_flow, 16);
WB_AT(wb_icmp_flow, cl, 0);
WB_AT(wb_icmp_flow, sv, 4);
WB_AT(wb_icmp_flow, ping_seq, 8);
WB_AT(wb_icmp_flow, pong_seq, 10);
WB_AT(wb_icmp_flow, marks, 12);

WB_SIZE(wb_icmp_sent, 32);
WB_AT(wb_icmp_sent, status, 0);
WB_AT(wb_icmp_sent, flow, 4);
WB_AT(wb_icmp_sent, length, 24);

WB_SIZE(wb_checked, 2);
WB_AT(wb_checked, status, 0);
WB_AT(wb_checked, no_checksum, 1);

WB_SIZE(wb_key, 12);
WB_AT(wb_key, saddr, 0);
WB_AT(wb_key, daddr, 4);
WB_AT(wb_key, id, 8);
WB_AT(wb_key, protocol, 10);

WB_SIZE(wb_assembly, 40);
WB_AT(wb_assembly, key, 0);
WB_AT(wb_assembly, known, 12);
WB_AT(wb_assembly, total, 16);
WB_AT(wb_assembly, floor, 24);
WB_AT(wb_assembly, spoilt, 32);

WB_SIZE(wb_opened, 48);
WB_AT(wb_opened, status, 0);
WB_AT(wb_opened, assembly, 8);

WB_SIZE(wb_taken, 48);
WB_AT(wb_taken, status, 0);
WB_AT(wb_taken, outcome, 1);
WB_AT(wb_taken, assembly, 8);

WB_SIZE(wb_progress, 16);
WB_AT(wb_progress, status, 0);
WB_AT(wb_progress, outcome, 1);
WB_AT(wb_progress, length, 8);

WB_SIZE(wb_packet, 16);
WB_AT(wb_packet, headroom, 0);
WB_AT(wb_packet, end, 8);

#undef WB_AT
#undef WB_SIZE
#undef WB_ASSERT

#ifdef __cplusplus
}
#endif

#endif
