/* Every call of wispbundle.h and every refusal. Prints each call, what it answers and every byte that it writes, on
 * document 01's own examples where it has one. calls.out has what it prints: if the header and the archive disagreed
 * on a struct, an argument or a number, it would print something else.
 *
 * cc -Iinclude examples/calls.c target/staticlib/libwispbundle.a -o calls   (on x86-64 Linux) */
#include <stdio.h>
#include <string.h>

#include "wispbundle.h"

enum { PLACES = 4 };

static const uint8_t none[1], lap[4] = {'l', 'a', 'p', '!'}, twenty[] = "twenty bytes of lap!";
static const wb_addr cl = {.ip = 0x0a000001, .port = 40000}, sv = {.ip = 0x0a000002, .port = 80};
static const wb_template template_ = {
    .tos = 3, .id = 7, .df = true, .ttl = 64, .protocol = WB_PROTOCOL_UDP, .saddr = 0x0a000001, .daddr = 0x0a000002};
static const wb_marks usual = {.tos = WB_TOS, .ttl = WB_TTL}, other = {.tos = 0xb8, .ttl = 1};
static uint8_t out[200], many[65536], payload[WB_PAYLOAD_BYTES], map[WB_MAP_BYTES];
static size_t ends[PLACES];

/* ---- what was answered, and what was written. The bytes of out are 0xaa before each call, and ends are 9. */

/* prints a call's text, makes it, and has its answer printed */
#define MAKE(answer, call) (before(#call), answer(call))

static void before(const char *call)
{
    memset(out, 0xaa, sizeof out);
    for (size_t i = 0; i < PLACES; i++) ends[i] = 9;
    printf("%s\n", call);
}

static void status(uint8_t number)
{
    static const char *const says[] = {
        [WB_ACCEPTED] = "accepted",
        [WB_TOO_LONG] = "too long",
        [WB_BAD_OFFSET] = "bad offset",
        [WB_NO_ROOM] = "no room",
        [WB_SHORT] = "short",
        [WB_NOT_IPV4] = "not IPv4",
        [WB_BAD_TOTAL] = "bad total length",
        [WB_BAD_HEADER] = "bad header checksum",
        [WB_WRONG_KEY] = "wrong key",
        [WB_NOT_BLOCKS] = "not blocks",
        [WB_TOO_FAR] = "too far",
        [WB_BAD_ASSEMBLY] = "bad assembly",
        [WB_OTHER_PROTOCOL] = "other protocol",
        [WB_PIECE] = "a piece",
        [WB_CUT] = "cut",
        [WB_BAD_SUM] = "bad checksum",
        [WB_BAD_PART] = "bad part",
        [WB_BAD_TIME] = "bad time",
        [WB_RESERVED] = "reserved bit",
        [WB_NO_CHECKSUM] = "no checksum",
    };
    printf("  %d, %s", number, number < sizeof says / sizeof *says && says[number] ? says[number] : "?");
}

/* 20 bytes to a line, so that a header has its own */
static void bytes(const uint8_t *from, size_t count)
{
    for (size_t i = 0; i < count; i++)
        printf("%s%02x", i % 20 == 0 ? "\n    " : i % 4 == 0 ? " " : "", from[i]);
    printf("\n");
}

static void written(size_t count)
{
    if (count > sizeof out) count = sizeof out;
    for (size_t i = count; i < sizeof out; i++)
        if (out[i] != 0xaa) printf(", and byte %zu", i);
    bytes(out, count);
}

static void length(wb_length r)
{
    status(r.status);
    printf(", %zu bytes", r.length);
    written(r.length);
}

/* of a call that writes nothing */
static void would_be(wb_length r)
{
    status(r.status);
    printf(", %zu bytes", r.length);
    written(0);
}

static void listed(wb_listed r)
{
    status(r.status);
    printf(", %zu bytes, index %zu, ends", r.length, r.index);
    for (size_t i = 0; i < PLACES; i++) printf(" %zu", ends[i]);
    written(r.length);
}

static void sum(wb_sum r)
{
    status(r.status);
    printf(", %04x\n", r.sum);
}

static void checked(wb_checked r)
{
    status(r.status);
    printf("%s\n", r.no_checksum ? ", without checksum" : "");
}

static void marks(wb_marks m)
{
    printf(", tos %u, ttl %u\n", m.tos, m.ttl);
}

static void tcp_flow(wb_tcp_flow f)
{
    printf("  %08x:%u at %u, %08x:%u at %u", f.cl.ip, f.cl.port, f.cl_seq, f.sv.ip, f.sv.port, f.sv_seq);
    marks(f.marks);
}

static void tcp_sent(wb_tcp_sent r)
{
    tcp_flow(r.flow);
    status(r.status);
    printf(", ends %zu %zu %zu", r.first, r.second, r.third);
    written(r.third ? r.third : r.second ? r.second : r.first);
}

static void tcp_header(wb_tcp_header r)
{
    tcp_flow(r.flow);
    printf("  the header");
    bytes(r.bytes, sizeof r.bytes);
}

static void tcp_pushed(wb_pushed r)
{
    tcp_flow(r.flow);
    printf("  old: %d %u, %d %u\n", r.cl.is_set, r.cl.number, r.sv.is_set, r.sv.number);
}

static void udp_flow(wb_udp_flow f)
{
    printf("  %08x:%u, %08x:%u", f.cl.ip, f.cl.port, f.sv.ip, f.sv.port);
    marks(f.marks);
}

static void icmp_flow(wb_icmp_flow f)
{
    printf("  %08x, %08x, ping %u, pong %u", f.cl, f.sv, f.ping_seq, f.pong_seq);
    marks(f.marks);
}

static void icmp_sent(wb_icmp_sent r)
{
    icmp_flow(r.flow);
    status(r.status);
    printf(", %zu bytes", r.length);
    written(r.length);
}

/* the record, and the first bytes of both buffers */
static void record(wb_assembly a)
{
    printf(", %08x to %08x, %u, protocol %u: ", a.key.saddr, a.key.daddr, a.key.id, a.key.protocol);
    printf("%s, total %zu, floor %zu%s", a.known ? "known" : "unknown", a.total, a.floor, a.spoilt ? ", spoilt" : "");
    bytes(payload, 20);
    printf("    map %02x\n", map[0]);
}

static wb_assembly opened(wb_opened r)
{
    status(r.status);
    record(r.assembly);
    return r.assembly;
}

static void outcome(uint8_t number)
{
    static const char *const says[] = {
        "none", [WB_WAITING] = "waiting", [WB_COMPLETE] = "complete", [WB_SPOILT] = "spoilt"};
    printf(", %s", number < sizeof says / sizeof *says ? says[number] : "?");
}

static wb_assembly taken(wb_taken r)
{
    status(r.status);
    outcome(r.outcome);
    record(r.assembly);
    return r.assembly;
}

static void progress(wb_progress r)
{
    status(r.status);
    outcome(r.outcome);
    printf(", %zu bytes\n", r.length);
}

/* ---- the calls */

static void version(void)
{
    before("wb_version()");
    printf("  %u, the header's is %u\n", wb_version(), WB_VERSION);
}

static void sums(void)
{
    static const uint8_t one[1] = {0x01};
    MAKE(sum, wb_ip_csum(none, 0));
    MAKE(sum, wb_ip_csum(one, 1));
    MAKE(sum, wb_ip_csum(many, WB_MOST_BYTES));
    MAKE(sum, wb_ip_csum(many, WB_MOST_BYTES + 1));
}

static void building(void)
{
    static const uint8_t ebd4[2] = {0xeb, 0xd4};
    wb_tcp_segment syn = {
        .saddr = cl.ip, .daddr = sv.ip, .sport = 40000, .dport = 80, .seq = 1000, .flags = WB_SYN, .marks = usual};
    MAKE(length, wb_build_tcp(syn, none, 0, out, 39));
    MAKE(length, wb_build_tcp(syn, none, 0, out, 40));
    wb_tcp_segment segment = syn;
    segment.ack = 5000;
    segment.flags = WB_PSH | WB_ACK;
    segment.frag_off = WB_DF | 1;
    MAKE(length, wb_build_tcp(segment, lap, 4, out, sizeof out));
    wb_udp_datagram udp = {.saddr = cl.ip, .daddr = sv.ip, .sport = 1, .dport = 2, .csum = true, .marks = usual};
    MAKE(length, wb_build_udp(udp, ebd4, 2, out, sizeof out));
    udp.frag_off = WB_EVIL | 2;
    MAKE(length, wb_build_udp(udp, ebd4, 2, out, sizeof out));
    wb_udp_datagram bare = udp;
    bare.csum = false;
    MAKE(length, wb_build_udp(bare, ebd4, 2, out, sizeof out));
    wb_icmp_packet echo = {.saddr = cl.ip, .daddr = sv.ip, .seq = 0x0100, .marks = usual};
    MAKE(length, wb_build_icmp(echo, lap, 4, out, sizeof out));
    echo.reply = true;
    MAKE(length, wb_build_icmp(echo, lap, 4, out, sizeof out));
}

/* What is at its bound is refused for want of room, and what is above it, as too long; a datagram without checksum, as
 * such. */
static void bounds(void)
{
    wb_tcp_segment tcp = {.flags = WB_FIN | WB_RST | WB_URG | WB_ECE | WB_CWR, .frag_off = WB_MF, .marks = usual};
    wb_udp_datagram udp = {.csum = true}, bare = {.csum = false};
    wb_icmp_packet echo = {.reply = false};
    MAKE(length, wb_build_tcp(tcp, none, 0, out, sizeof out));
    MAKE(length, wb_build_tcp(tcp, many, WB_MOST_TCP, out, sizeof out));
    MAKE(length, wb_build_tcp(tcp, many, WB_MOST_TCP + 1, out, sizeof out));
    MAKE(length, wb_build_udp(udp, many, WB_MOST_UDP, out, sizeof out));
    MAKE(length, wb_build_udp(udp, many, WB_MOST_UDP + 1, out, sizeof out));
    MAKE(length, wb_build_udp(bare, many, WB_MOST_UDP, out, sizeof out));
    MAKE(length, wb_build_udp(bare, many, WB_MOST_UDP + 1, out, sizeof out));
    MAKE(length, wb_build_icmp(echo, many, WB_MOST_ICMP, out, sizeof out));
    MAKE(length, wb_build_icmp(echo, many, WB_MOST_ICMP + 1, out, sizeof out));
    MAKE(length, wb_datagram(template_, many, WB_MOST_IPV4, out, sizeof out));
    MAKE(length, wb_datagram(template_, many, WB_MOST_IPV4 + 1, out, sizeof out));
    MAKE(length, wb_pcap_record(0, 0, many, WB_MOST_BYTES, out, sizeof out));
    MAKE(length, wb_pcap_record(0, 0, many, WB_MOST_BYTES + 1, out, sizeof out));
}

static void pieces(void)
{
    wb_ip_piece piece = {.template_ = template_, .off = 2, .len = 1};
    MAKE(length, wb_build_piece(piece, twenty, 20, out, sizeof out));
    piece.template_.df = false;
    piece.template_.evil = true;
    piece.off = 0;
    MAKE(length, wb_build_piece(piece, twenty, 20, out, sizeof out));
    MAKE(length, wb_fragment(template_, twenty, 20, 1, 0, out, sizeof out));
    MAKE(length, wb_fragment(template_, twenty, 20, WB_MOST_OFFSET, 1, out, sizeof out));
    MAKE(length, wb_fragment(template_, twenty, 20, WB_MOST_OFFSET + 1, 1, out, sizeof out));
    MAKE(length, wb_tail(template_, twenty, 20, 1, out, sizeof out));
    MAKE(length, wb_datagram(template_, twenty, 20, out, sizeof out));
}

static void lists(void)
{
    static const wb_block_request three[] = {{.off = 0, .len = 1}, {.off = 1, .len = 1}, {.off = 2, .len = 1}};
    static const wb_block_request twice[] = {{.off = 2, .len = 0}, {.off = 2, .len = 0}};
    static const wb_block_request far[] = {
        {.off = WB_MOST_OFFSET, .len = 1}, {.off = 0, .len = 1}, {.off = WB_MOST_OFFSET + 1}, {.off = 65535}};
    MAKE(listed, wb_fragments(template_, twenty, 20, three, 3, out, 80, ends, 3));
    MAKE(listed, wb_fragments(template_, twenty, 20, three, 3, out, 79, ends, 3));
    MAKE(listed, wb_fragments(template_, twenty, 20, three, 3, out, 80, ends, 2));
    MAKE(listed, wb_fragments(template_, twenty, 20, twice, 2, out, sizeof out, ends, PLACES));
    MAKE(listed, wb_fragments(template_, twenty, 20, far, 2, out, sizeof out, ends, PLACES));
    MAKE(listed, wb_fragments(template_, twenty, 20, far, 3, out, sizeof out, ends, PLACES));
    MAKE(listed, wb_fragments(template_, twenty, 20, far, 4, out, 0, ends, 0));
    MAKE(listed, wb_fragments(template_, many, WB_MOST_IPV4, three, 0, out, sizeof out, ends, PLACES));
    MAKE(listed, wb_fragments(template_, many, WB_MOST_IPV4 + 1, three, 0, out, sizeof out, ends, PLACES));
    MAKE(listed, wb_fragments(template_, many, WB_MOST_IPV4 + 1, far, 4, out, 0, ends, 0));
}

static void tcp_packets(void)
{
    before("wb_tcp_new(cl, sv, 1000, 5000)");
    wb_tcp_flow f = wb_tcp_new(cl, sv, 1000, 5000);
    tcp_flow(f);
    MAKE(tcp_sent, wb_tcp_open(f, out, 119));
    MAKE(tcp_sent, wb_tcp_open(f, out, 120));
    MAKE(tcp_sent, wb_tcp_client_close(f, out, sizeof out));
    MAKE(tcp_sent, wb_tcp_server_close(f, out, sizeof out));
    MAKE(tcp_sent, wb_tcp_client_reset(f, out, sizeof out));
    MAKE(tcp_sent, wb_tcp_server_reset(f, out, sizeof out));
    MAKE(tcp_sent, wb_tcp_client_ack(f, out, sizeof out));
    MAKE(tcp_sent, wb_tcp_server_ack(f, out, sizeof out));
    f.cl_seq = 4294967294u;
    MAKE(tcp_sent, wb_tcp_client_data_segment(f, lap, 4, out, sizeof out));
    MAKE(tcp_sent, wb_tcp_server_data_segment(f, lap, 4, out, sizeof out));
    MAKE(tcp_sent, wb_tcp_client_message(f, lap, 4, true, 0x4000, out, sizeof out));
    MAKE(tcp_sent, wb_tcp_server_message(f, lap, 4, false, 0x0001, out, sizeof out));
}

static void tcp_numbers(void)
{
    wb_tcp_flow f = wb_tcp_new(cl, sv, 1000, 5000);
    wb_seq set = {.is_set = true, .number = 77}, nothing = {.is_set = false, .number = 5};
    MAKE(tcp_flow, wb_tcp_client_hole(f, 4294967295u));
    MAKE(tcp_flow, wb_tcp_server_hole(f, 7));
    MAKE(tcp_header, wb_tcp_client_hdr(f, 9, 0x1234));
    MAKE(tcp_header, wb_tcp_server_hdr(f, 8, 0x4321));
    MAKE(tcp_pushed, wb_tcp_push_state(f, set, nothing));
    MAKE(tcp_pushed, wb_tcp_push_state(f, nothing, set));
    MAKE(tcp_flow, wb_tcp_pop_state(f, set, nothing));
    MAKE(tcp_flow, wb_tcp_pop_state(f, nothing, set));
}

static void udp(void)
{
    wb_choices choices = {.other_source = true, .srcip = 0x01020304, .frag_off = 0x4000, .csum = true};
    wb_choices own_source = {.other_source = false, .srcip = 0x01020304, .frag_off = 0x0001, .csum = true};
    wb_choices none_taken = {.other_source = false, .srcip = 0x01020304, .frag_off = 0x0001, .csum = false};
    before("wb_udp_new(cl, sv)");
    wb_udp_flow f = wb_udp_new(cl, sv);
    udp_flow(f);
    MAKE(length, wb_udp_client_dgram(f, lap, 4, choices, out, sizeof out));
    MAKE(length, wb_udp_client_dgram(f, lap, 4, none_taken, out, sizeof out));
    MAKE(length, wb_udp_server_dgram(f, lap, 4, own_source, out, sizeof out));
    MAKE(length, wb_udp_server_dgram(f, lap, 4, none_taken, out, sizeof out));
}

static void icmp(void)
{
    before("wb_icmp_new(cl.ip, sv.ip)");
    wb_icmp_flow f = wb_icmp_new(cl.ip, sv.ip);
    icmp_flow(f);
    f.pong_seq = 65535;
    MAKE(icmp_sent, wb_icmp_echo(f, lap, 4, out, 31));
    MAKE(icmp_sent, wb_icmp_echo(f, lap, 4, out, 32));
    MAKE(icmp_sent, wb_icmp_echo_reply(f, lap, 4, out, 32));
}

/* Every packet of a flow has the flow's marks, and no other call changes them. */
static void marked_flows(void)
{
    wb_tcp_flow tcp = wb_tcp_marked(wb_tcp_new(cl, sv, 1000, 5000), other);
    wb_udp_flow udp = wb_udp_marked(wb_udp_new(cl, sv), other);
    wb_icmp_flow icmp = wb_icmp_marked(wb_icmp_new(cl.ip, sv.ip), other);
    wb_choices choices = {.csum = true};
    wb_seq set = {.is_set = true, .number = 77};
    MAKE(tcp_flow, wb_tcp_marked(tcp, usual));
    MAKE(tcp_sent, wb_tcp_open(tcp, out, 119));
    MAKE(tcp_sent, wb_tcp_open(tcp, out, 120));
    MAKE(tcp_header, wb_tcp_client_hdr(tcp, 9, 0x1234));
    MAKE(tcp_pushed, wb_tcp_push_state(tcp, set, set));
    MAKE(tcp_flow, wb_tcp_pop_state(tcp, set, set));
    MAKE(udp_flow, wb_udp_marked(udp, usual));
    MAKE(length, wb_udp_server_dgram(udp, lap, 4, choices, out, sizeof out));
    MAKE(icmp_flow, wb_icmp_marked(icmp, usual));
    MAKE(icmp_sent, wb_icmp_echo(icmp, lap, 4, out, 32));
}

/* A request has its own. Where they are left out, they are 0. */
static void marked_requests(void)
{
    wb_tcp_segment segment = {.saddr = cl.ip, .daddr = sv.ip, .flags = WB_ACK, .marks = other};
    wb_udp_datagram datagram = {.saddr = cl.ip, .daddr = sv.ip, .csum = true, .marks = other};
    wb_icmp_packet echo = {.saddr = cl.ip, .daddr = sv.ip, .marks = other}, left_out = {.saddr = cl.ip, .daddr = sv.ip};
    MAKE(length, wb_build_tcp(segment, lap, 4, out, sizeof out));
    MAKE(length, wb_build_udp(datagram, lap, 4, out, sizeof out));
    MAKE(length, wb_build_icmp(echo, lap, 4, out, sizeof out));
    MAKE(length, wb_build_icmp(left_out, lap, 4, out, sizeof out));
}

/* sets the checksum of a header right */
static void mend(uint8_t *header, size_t count)
{
    header[10] = header[11] = 0;
    wb_sum right = wb_ip_csum(header, count);
    header[10] = (uint8_t)(right.sum >> 8);
    header[11] = (uint8_t)right.sum;
}

/* a good packet of 32 bytes with two bytes changed, and its header's checksum set right unless it was changed */
static const uint8_t *with(size_t at, uint8_t high, uint8_t low)
{
    static uint8_t packet[32];
    wb_udp_datagram d = {.saddr = cl.ip, .daddr = sv.ip, .sport = 1, .dport = 2, .csum = true, .marks = usual};
    wb_build_udp(d, lap, 4, packet, sizeof packet);
    packet[at] = high;
    packet[at + 1] = low;
    if (at != 10) mend(packet, 20);
    return packet;
}

/* the same packet with router alert behind its header: 36 bytes, a header of 6 words and this total length */
static const uint8_t *with_alert(uint8_t total)
{
    static const uint8_t alert[4] = {0x94, 0x04, 0x00, 0x00};
    static uint8_t packet[36];
    const uint8_t *plain = with(2, 0, total);
    memcpy(packet, plain, 20);
    memcpy(packet + 20, alert, 4);
    memcpy(packet + 24, plain + 20, 12);
    packet[0] = 0x46;
    mend(packet, 24);
    return packet;
}

static void checks(void)
{
    MAKE(checked, wb_check(with(30, 'p', '!'), 32));
    MAKE(checked, wb_check(with(26, 0, 0), 32));
    MAKE(checked, wb_check(with(30, 'p', '!'), 31));
    MAKE(checked, wb_check(with(0, 0x55, 0), 32));
    MAKE(checked, wb_check(with(0, 0x44, 0), 32));
    MAKE(checked, wb_check(with(2, 0, 19), 32));
    MAKE(checked, wb_check(with(10, 0, 0), 32));
    MAKE(checked, wb_check(with(0, 0x46, 0), 32));
    MAKE(checked, wb_check(with_alert(36), 36));
    MAKE(checked, wb_check(with_alert(23), 36));
    MAKE(checked, wb_check(with(6, 0x80, 0), 32));
    MAKE(checked, wb_check(with(6, 0x80, 1), 32));
    MAKE(checked, wb_check(with(6, 0x20, 0), 32));
    MAKE(checked, wb_check(with(8, 64, 2), 32));
    MAKE(checked, wb_check(with(24, 0, 13), 32));
    MAKE(checked, wb_check(with(30, 'p', '?'), 32));
}

static void writing(void)
{
    static const uint8_t buffer[6] = {'l', 'a', 'p', '!', 0, 0}, large[WB_MOST_END + 1];
    wb_packet part = {.headroom = 1, .end = 5}, outside = {.headroom = 1, .end = 7};
    wb_packet most = {.headroom = WB_MOST_END, .end = WB_MOST_END}, above = {.headroom = 0, .end = WB_MOST_END + 1};
    MAKE(length, wb_pcap_header(out, WB_PCAP_HEADER_BYTES - 1));
    MAKE(length, wb_pcap_header(out, WB_PCAP_HEADER_BYTES));
    MAKE(length, wb_pcap_record(1, 2, lap, 4, out, WB_PCAP_RECORD_BYTES + 3));
    MAKE(length, wb_pcap_record(1, 2, lap, 4, out, WB_PCAP_RECORD_BYTES + 4));
    MAKE(length, wb_pcap_record(1, WB_MOST_USEC, lap, 4, out, sizeof out));
    MAKE(length, wb_pcap_record(1, WB_MOST_USEC + 1, lap, 4, out, sizeof out));
    MAKE(would_be, wb_hex_dump_len(outside, buffer, 6));
    MAKE(would_be, wb_hex_dump_len(part, buffer, 6));
    MAKE(length, wb_hex_dump(outside, buffer, 6, out, sizeof out));
    MAKE(length, wb_hex_dump(part, buffer, 6, out, 75));
    MAKE(length, wb_hex_dump(part, buffer, 6, out, sizeof out));
    MAKE(length, wb_hex_dump(most, large, sizeof large, out, sizeof out));
    MAKE(length, wb_hex_dump(above, large, sizeof large, out, sizeof out));
}

static void assembling(void)
{
    wb_key key = {.saddr = cl.ip, .daddr = sv.ip, .id = 7, .protocol = WB_PROTOCOL_UDP};
    wb_template other = template_;
    other.protocol = WB_PROTOCOL_ICMP;
    uint8_t first[36], last[24], past[20], ping[24];
    wb_fragment(template_, twenty, 20, 0, 2, first, sizeof first);
    wb_tail(template_, twenty, 20, 2, last, sizeof last);
    wb_fragment(template_, twenty, 20, 3, 1, past, sizeof past);
    wb_tail(other, twenty, 20, 2, ping, sizeof ping);
    memset(payload, 1, sizeof payload);
    memset(map, 1, sizeof map);
    MAKE(opened, wb_assembly_open(key, payload, sizeof payload - 1, map, sizeof map));
    wb_assembly a = MAKE(opened, wb_assembly_open(key, payload, sizeof payload, map, sizeof map));
    a = MAKE(taken, wb_assembly_take(a, first, 36, payload, sizeof payload, map, sizeof map));
    a = MAKE(taken, wb_assembly_take(a, with(30, 'p', '!'), 32, payload, sizeof payload, map, sizeof map));
    a = MAKE(taken, wb_assembly_take(a, ping, 24, payload, sizeof payload, map, sizeof map));
    MAKE(progress, wb_assembly_progress(a, payload, sizeof payload, map, sizeof map));
    a = MAKE(taken, wb_assembly_take(a, last, 24, payload, sizeof payload, map, sizeof map));
    MAKE(progress, wb_assembly_progress(a, payload, sizeof payload, map, sizeof map));
    wb_assembly above = a, zero = a;
    above.total = 65516;
    zero.key.id = 0;
    MAKE(taken, wb_assembly_take(above, last, 24, payload, sizeof payload, map, sizeof map));
    MAKE(progress, wb_assembly_progress(above, payload, sizeof payload, map, sizeof map));
    MAKE(taken, wb_assembly_take(zero, with(6, 0xa0, 0), 32, payload, sizeof payload, map, sizeof map));
    MAKE(taken, wb_assembly_take(zero, with(6, 0x20, 0), 32, payload, sizeof payload, map, sizeof map));
    MAKE(taken, wb_assembly_take(zero, with(6, 0x1f, 0xff), 32, payload, sizeof payload, map, sizeof map));
    a = MAKE(taken, wb_assembly_take(a, past, 20, payload, sizeof payload, map, sizeof map));
    MAKE(progress, wb_assembly_progress(a, payload, sizeof payload, map, sizeof map));
    a.total = 5;
    MAKE(taken, wb_assembly_take(a, past, 19, payload, sizeof payload, map, sizeof map));
    MAKE(taken, wb_assembly_take(a, past, 20, payload, sizeof payload, map, sizeof map));
}

int main(void)
{
    version();
    sums();
    building();
    bounds();
    pieces();
    lists();
    tcp_packets();
    tcp_numbers();
    udp();
    icmp();
    marked_flows();
    marked_requests();
    checks();
    writing();
    assembling();
    return 0;
}
