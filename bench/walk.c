/* walk CALL PASSES < CAPTURE: takes each packet of a capture by the library's C header, PASSES times, and prints a sum. For a classic
 * capture it is the sum of nanoseconds and stored bytes, as for `measured_calls next_packet`. For a PcapNg capture it is that of units
 * of time and stored bytes.
 *
 * CALL is take_packet or take_ng_packet for one packet in a call, and take_packets or take_ng_packets for 256. take_packet_as_is and
 * take_block_as_is take one that may break rules. put_ng_packet writes a packet of a classic capture as a block of PcapNg, and adds the
 * block's bytes instead of the packet's. For a capture in pieces, with a buffer of 256 KiB, CALL is push_next for one in a call and
 * push_packets for 256, or push_ng_next and push_ng_packets, which add nanoseconds. open_next takes one in a call of pcapfile_open.h, of
 * either format, and adds nanoseconds too; for that standard input must be a file. cut_packets and cut_blocks take no packet. They cut
 * the capture into four parts, and the sum is that of the offsets at which these begin. */
#include "pcapfile_open.h"

#include <inttypes.h>
#include <stdio.h>
#include <stdlib.h>
#include <string.h>
#include <unistd.h>

enum { BATCH = 256, ROOM = 1 << 18 };

static int32_t add_batches(pcapfile_bytes left, uint64_t *sum) {
    static pcapfile_packet packets[BATCH];
    pcapfile_header header = PCAPFILE_HEADER_INIT;
    pcapfile_error error = PCAPFILE_ERROR_INIT;
    int32_t status = pcapfile_take_header(&left, &header, &error);
    for (size_t i = 0; i < BATCH; i++) packets[i] = (pcapfile_packet)PCAPFILE_PACKET_INIT;
    while (status == PCAPFILE_OK && left.len > 0) {
        size_t taken = 0;
        status = pcapfile_take_packets(&header, &left, packets, BATCH, &taken, &error);
        for (size_t i = 0; i < taken; i++) *sum += packets[i].ts_nsec + packets[i].bytes.len;
    }
    return status;
}

static int32_t add_packets(pcapfile_bytes left, uint64_t *sum) {
    pcapfile_header header = PCAPFILE_HEADER_INIT;
    pcapfile_packet packet = PCAPFILE_PACKET_INIT;
    pcapfile_error error = PCAPFILE_ERROR_INIT;
    int32_t status = pcapfile_take_header(&left, &header, &error);
    while (status == PCAPFILE_OK && left.len > 0)
        if ((status = pcapfile_take_packet(&header, &left, &packet, &error)) == PCAPFILE_OK)
            *sum += packet.ts_nsec + packet.bytes.len;
    return status;
}

/* A capture in pieces, as many bytes at once as the buffer has space for. */
struct pieces {
    pcapfile_bytes left;
    pcapfile_push push;
    pcapfile_section section;
};

static uint8_t room[ROOM];
static pcapfile_interface interfaces[8] = { PCAPFILE_INTERFACE_INIT };

/* Adds another piece. Returns 0 at the end. */
static int come(struct pieces *walk, pcapfile_error *error) {
    if (walk->left.len == 0) return 0;
    pcapfile_push_space(&walk->push, room, ROOM, error->missing, error);
    size_t count = ROOM - walk->push.end;
    if (count > walk->left.len) count = walk->left.len;
    memcpy(room + walk->push.end, walk->left.ptr, count);
    walk->left = (pcapfile_bytes){ walk->left.ptr + count, walk->left.len - count };
    pcapfile_push_put(&walk->push, room, ROOM, count);
    return 1;
}

static int32_t ended(const struct pieces *walk, int32_t status) {
    return status == PCAPFILE_INCOMPLETE && walk->push.begin == walk->push.end ? PCAPFILE_OK : status;
}

static int32_t add_pieces(pcapfile_bytes left, uint64_t *sum) {
    struct pieces walk = { left, PCAPFILE_PUSH_INIT, PCAPFILE_SECTION_INIT };
    pcapfile_packet packet = PCAPFILE_PACKET_INIT;
    pcapfile_error error = PCAPFILE_ERROR_INIT;
    int32_t status;
    do
        while ((status = pcapfile_push_next(&walk.push, room, ROOM, &packet, &error)) == PCAPFILE_OK)
            *sum += packet.ts_nsec + packet.bytes.len;
    while (status == PCAPFILE_INCOMPLETE && come(&walk, &error));
    return ended(&walk, status);
}

static int32_t add_pushed_batches(pcapfile_bytes left, uint64_t *sum) {
    static pcapfile_packet packets[BATCH];
    struct pieces walk = { left, PCAPFILE_PUSH_INIT, PCAPFILE_SECTION_INIT };
    pcapfile_error error = PCAPFILE_ERROR_INIT;
    int32_t status;
    for (size_t i = 0; i < BATCH; i++) packets[i] = (pcapfile_packet)PCAPFILE_PACKET_INIT;
    do {
        size_t taken = 0;
        status = pcapfile_push_packets(&walk.push, room, ROOM, packets, BATCH, &taken, &error);
        for (size_t i = 0; i < taken; i++) *sum += packets[i].ts_nsec + packets[i].bytes.len;
    } while (status == PCAPFILE_OK || (status == PCAPFILE_INCOMPLETE && come(&walk, &error)));
    return ended(&walk, status);
}

static int32_t add_ng_pieces(pcapfile_bytes left, uint64_t *sum) {
    struct pieces walk = { left, PCAPFILE_PUSH_INIT, PCAPFILE_SECTION_INIT };
    pcapfile_any_packet packet = PCAPFILE_ANY_PACKET_INIT;
    pcapfile_error error = PCAPFILE_ERROR_INIT;
    int32_t status;
    do
        while ((status = pcapfile_push_ng_next(&walk.push, &walk.section, room, ROOM, interfaces, 8, &packet, &error)) == PCAPFILE_OK)
            *sum += packet.time.nanoseconds + packet.bytes.len;
    while (status == PCAPFILE_INCOMPLETE && come(&walk, &error));
    return ended(&walk, status);
}

static int32_t add_pushed_ng_batches(pcapfile_bytes left, uint64_t *sum) {
    static pcapfile_any_packet packets[BATCH];
    struct pieces walk = { left, PCAPFILE_PUSH_INIT, PCAPFILE_SECTION_INIT };
    pcapfile_error error = PCAPFILE_ERROR_INIT;
    int32_t status;
    for (size_t i = 0; i < BATCH; i++) packets[i] = (pcapfile_any_packet)PCAPFILE_ANY_PACKET_INIT;
    do {
        size_t taken = 0;
        status = pcapfile_push_ng_packets(&walk.push, &walk.section, room, ROOM, interfaces, 8, packets, BATCH, &taken, &error);
        for (size_t i = 0; i < taken; i++) *sum += packets[i].time.nanoseconds + packets[i].bytes.len;
    } while (status == PCAPFILE_OK || (status == PCAPFILE_INCOMPLETE && come(&walk, &error)));
    return ended(&walk, status);
}

static int32_t add_packets_as_is(pcapfile_bytes left, uint64_t *sum) {
    pcapfile_header header = PCAPFILE_HEADER_INIT;
    pcapfile_packet_as_is packet = PCAPFILE_PACKET_AS_IS_INIT;
    pcapfile_error error = PCAPFILE_ERROR_INIT;
    int32_t status = pcapfile_take_header(&left, &header, &error);
    while (status == PCAPFILE_OK && left.len > 0)
        if ((status = pcapfile_take_packet_as_is(&header, &left, 0, &packet, &error)) == PCAPFILE_OK)
            *sum += packet.ts_fraction + packet.bytes.len;
    return status;
}

static int32_t add_put_packets(pcapfile_bytes left, uint64_t *sum) {
    static uint8_t block[1 << 19];
    pcapfile_section section = PCAPFILE_SECTION_LITTLE_ENDIAN;
    pcapfile_interface interface = { PCAPFILE_LINK_ETHERNET, 65535, 10, 9, 0 };
    pcapfile_header header = PCAPFILE_HEADER_INIT;
    pcapfile_packet packet = PCAPFILE_PACKET_INIT;
    pcapfile_error error = PCAPFILE_ERROR_INIT;
    size_t written = 0;
    int32_t status = pcapfile_take_header(&left, &header, &error);
    if (status == PCAPFILE_OK) status = pcapfile_put_section(&section, block, sizeof block, &written, &error);
    if (status == PCAPFILE_OK) status = pcapfile_put_interface(&section, &interface, block, sizeof block, &written, &error);
    while (status == PCAPFILE_OK && left.len > 0)
        if ((status = pcapfile_take_packet(&header, &left, &packet, &error)) == PCAPFILE_OK) {
            pcapfile_ng_packet put = { PCAPFILE_BLOCK_ENHANCED_PACKET, 0, packet.orig_len, packet.ts_nsec, packet.bytes };
            status = pcapfile_put_ng_packet(&section, &put, block, sizeof block, &written, &error);
            *sum += packet.ts_nsec + written;
        }
    return status;
}

static int32_t add_ng_packets(pcapfile_bytes left, uint64_t *sum) {
    pcapfile_section section = PCAPFILE_SECTION_INIT;
    pcapfile_block block = PCAPFILE_BLOCK_INIT;
    pcapfile_ng_packet packet = PCAPFILE_NG_PACKET_INIT;
    pcapfile_error error = PCAPFILE_ERROR_INIT;
    int32_t status = PCAPFILE_OK;
    while (status == PCAPFILE_OK && left.len > 0)
        if ((status = pcapfile_take_block(&section, &left, &block, &error)) == PCAPFILE_OK &&
            pcapfile_read_packet(&section, &block, &packet, &error) == PCAPFILE_OK)
            *sum += packet.timestamp + packet.bytes.len;
    return status;
}

static int32_t add_blocks_as_is(pcapfile_bytes left, uint64_t *sum) {
    pcapfile_section section = PCAPFILE_SECTION_INIT;
    pcapfile_block_as_is block = PCAPFILE_BLOCK_AS_IS_INIT;
    pcapfile_block_flaw flaws[8];
    pcapfile_error error = PCAPFILE_ERROR_INIT;
    int32_t status = PCAPFILE_OK;
    for (size_t i = 0; i < 8; i++) flaws[i] = (pcapfile_block_flaw)PCAPFILE_BLOCK_FLAW_INIT;
    while (status == PCAPFILE_OK && left.len > 0)
        if ((status = pcapfile_take_block_as_is(&section, &left, &block, flaws, 8, &error)) == PCAPFILE_OK)
            *sum += block.packet.timestamp + block.packet.bytes.len;
    return status;
}

static int32_t add_ng_batches(pcapfile_bytes left, uint64_t *sum) {
    static pcapfile_ng_packet packets[BATCH];
    pcapfile_section section = PCAPFILE_SECTION_INIT;
    pcapfile_block block = PCAPFILE_BLOCK_INIT;
    pcapfile_error error = PCAPFILE_ERROR_INIT;
    int32_t status = PCAPFILE_OK;
    for (size_t i = 0; i < BATCH; i++) packets[i] = (pcapfile_ng_packet)PCAPFILE_NG_PACKET_INIT;
    while (status == PCAPFILE_OK && left.len > 0) {
        size_t taken = 0;
        int32_t ended = pcapfile_take_ng_packets(&section, &left, packets, BATCH, &taken, &error);
        for (size_t i = 0; i < taken; i++) *sum += packets[i].timestamp + packets[i].bytes.len;
        if (ended != PCAPFILE_OK) status = pcapfile_take_block(&section, &left, &block, &error);
    }
    return status;
}

enum { PARTS = 4 };

static int32_t add_cuts(pcapfile_bytes all, uint64_t *sum) {
    pcapfile_cut cuts[PARTS] = { PCAPFILE_CUT_INIT };
    pcapfile_error error = PCAPFILE_ERROR_INIT;
    size_t count = 0;
    int32_t status = pcapfile_cut_packets(&all, cuts, PARTS, &count, &error);
    for (size_t i = 0; i < count; i++) *sum += cuts[i].offset;
    return status;
}

static int32_t add_block_cuts(pcapfile_bytes all, uint64_t *sum) {
    pcapfile_ng_cut cuts[PARTS] = { PCAPFILE_NG_CUT_INIT };
    pcapfile_error error = PCAPFILE_ERROR_INIT;
    size_t places[8], count = 0, known = 0;
    int32_t status = pcapfile_cut_blocks(&all, cuts, PARTS, &count, places, 8, &known, &error);
    for (size_t i = 0; i < count; i++) *sum += cuts[i].at.offset;
    return status;
}

static int32_t add_opened(pcapfile_bytes left, uint64_t *sum) {
    (void)left;
    pcapfile_reader *reader = lseek(0, 0, SEEK_SET) == 0 ? pcapfile_fdopen(dup(0)) : NULL;
    pcapfile_any_packet packet = PCAPFILE_ANY_PACKET_INIT;
    pcapfile_error error = PCAPFILE_ERROR_INIT;
    int32_t status;
    if (!reader) return PCAPFILE_SYSTEM;
    while ((status = pcapfile_next(reader, &packet, &error)) == PCAPFILE_OK)
        *sum += packet.time.nanoseconds + packet.bytes.len;
    pcapfile_close(reader);
    return status == PCAPFILE_END ? PCAPFILE_OK : status;
}

static const struct {
    const char *name;
    int32_t (*add)(pcapfile_bytes, uint64_t *);
} calls[] = {
    { "take_packet", add_packets },
    { "take_packets", add_batches },
    { "push_next", add_pieces },
    { "push_packets", add_pushed_batches },
    { "push_ng_next", add_ng_pieces },
    { "push_ng_packets", add_pushed_ng_batches },
    { "open_next", add_opened },
    { "take_ng_packet", add_ng_packets },
    { "take_packet_as_is", add_packets_as_is },
    { "take_block_as_is", add_blocks_as_is },
    { "put_ng_packet", add_put_packets },
    { "take_ng_packets", add_ng_batches },
    { "cut_packets", add_cuts },
    { "cut_blocks", add_block_cuts },
};

int main(int argc, char **argv) {
    size_t len = 0, room = 1 << 20, more;
    uint8_t *bytes = malloc(room);
    uint64_t sum = 0;
    int32_t status = PCAPFILE_OK;
    int32_t (*add)(pcapfile_bytes, uint64_t *) = NULL;
    for (size_t i = 0; argc == 3 && i < sizeof calls / sizeof *calls; i++)
        if (!strcmp(argv[1], calls[i].name)) add = calls[i].add;
    if (!add) return 2;
    while (bytes && (more = fread(bytes + len, 1, room - len, stdin)) > 0)
        if ((len += more) == room) bytes = realloc(bytes, room *= 2);
    for (long passes = atol(argv[2]); bytes && passes > 0 && status == PCAPFILE_OK; passes--)
        status = add((pcapfile_bytes){ bytes, len }, &sum);
    printf("%" PRIu64 "\n", sum);
    free(bytes);
    return status == PCAPFILE_OK ? 0 : 1;
}
