/* A telemetry datagram of 3,480 payload bytes is built, cut in three, put together out of order, and checked.
 *
 * cc -Iinclude examples/telemetry.c target/staticlib/libwispbundle.a -o telemetry   (on x86-64 Linux) */
#include <stdio.h>
#include <stdlib.h>
#include <string.h>

#include "wispbundle.h"

enum { DATA = 3480, IP_PAYLOAD = 8 + DATA, BLOCKS = 185, PIECES = 3 };

static uint8_t data[DATA], packet[20 + IP_PAYLOAD], whole[20 + IP_PAYLOAD];
static uint8_t pieces[PIECES][20 + 8 * BLOCKS];
static size_t lengths[PIECES];
static uint8_t payload[WB_PAYLOAD_BYTES], map[WB_MAP_BYTES];

static const wb_template car = {
    .id = 7, .ttl = 64, .protocol = WB_PROTOCOL_UDP, .saddr = 0x0a000001, .daddr = 0x0a000002};

static void accept(const char *what, uint8_t status)
{
    if (status != WB_ACCEPTED) {
        fprintf(stderr, "%s: refused by %d\n", what, status);
        exit(1);
    }
}

static void build(void)
{
    for (int i = 0; i < DATA; i++) data[i] = (uint8_t)(i * 7 + i / 256);
    wb_udp_datagram d = {
        .saddr = car.saddr, .daddr = car.daddr, .sport = 20777, .dport = 20777, .csum = true, .marks = {.ttl = WB_TTL}};
    wb_length built = wb_build_udp(d, data, sizeof data, packet, sizeof packet);
    accept("build", built.status);
    printf("built: %zu bytes\n", built.length);
}

static void cut(void)
{
    for (uint16_t i = 0; i < PIECES; i++) {
        wb_length piece = wb_fragment(car, packet + 20, IP_PAYLOAD, i * BLOCKS, BLOCKS, pieces[i], sizeof pieces[i]);
        accept("cut", piece.status);
        lengths[i] = piece.length;
        printf("piece %d: %zu bytes\n", i, piece.length);
    }
}

static size_t put_together(void)
{
    static const int order[PIECES] = {2, 0, 1};
    static const char *const says[] = {[WB_WAITING] = "waiting", [WB_COMPLETE] = "complete", [WB_SPOILT] = "spoilt"};
    wb_key key = {.saddr = car.saddr, .daddr = car.daddr, .id = car.id, .protocol = car.protocol};
    wb_opened opened = wb_assembly_open(key, payload, sizeof payload, map, sizeof map);
    accept("open", opened.status);
    wb_assembly assembly = opened.assembly;
    for (int i = 0; i < PIECES; i++) {
        int k = order[i];
        wb_taken taken = wb_assembly_take(assembly, pieces[k], lengths[k], payload, sizeof payload, map, sizeof map);
        accept("take", taken.status);
        assembly = taken.assembly;
        printf("took piece %d: %s\n", k, says[taken.outcome]);
    }
    return assembly.known ? assembly.total : 0;
}

static void check(size_t total)
{
    if (total != IP_PAYLOAD || memcmp(payload, packet + 20, total) != 0) {
        fprintf(stderr, "another payload\n");
        exit(1);
    }
    printf("put together: %zu bytes, the same\n", total);
    wb_length built = wb_datagram(car, payload, total, whole, sizeof whole);
    accept("datagram", built.status);
    wb_checked checked = wb_check(whole, built.length);
    accept("check", checked.status);
    printf("checked: good%s\n", checked.no_checksum ? " without checksum" : "");
}

int main(void)
{
    if (wb_version() != WB_VERSION) {
        fprintf(stderr, "the header is not that of the archive\n");
        return 1;
    }
    build();
    cut();
    check(put_together());
    return 0;
}
