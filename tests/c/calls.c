/* Checks what the calls answer at the edges against what the header says. */
#include "pcapfile.h"

#include <stdio.h>
#include <string.h>

static int failures;

#define EXPECT(what) do { if (!(what)) { failures++; printf("calls.c:%d: %s\n", __LINE__, #what); } } while (0)

/* Little-endian, microseconds, Ethernet; one packet of three bytes, five on the wire. */
static const uint8_t capture[] = {
    0xd4, 0xc3, 0xb2, 0xa1, 2, 0, 4, 0, 0xfe, 0xff, 0xff, 0xff, 0, 0, 0, 0, 0xff, 0xff, 0, 0, 1, 0, 0, 0,
    7, 0, 0, 0, 8, 0, 0, 0, 3, 0, 0, 0, 5, 0, 0, 0, 'a', 'b', 'c',
};

static void headers(void) {
    pcapfile_bytes left = { capture, sizeof capture };
    pcapfile_header header = PCAPFILE_HEADER_INIT, before = header;
    pcapfile_error error = PCAPFILE_ERROR_INIT;
    EXPECT(pcapfile_take_header(&left, &header, &error) == PCAPFILE_OK);
    EXPECT(left.ptr == capture + 24 && left.len == sizeof capture - 24);
    EXPECT(header.magic_number == 0xd4c3b2a1 && header.version_major == 2 && header.version_minor == 4);
    EXPECT(header.ts_correction == -2 && header.ts_accuracy == 0 && header.snaplen == 65535);
    EXPECT(header.link == PCAPFILE_LINK_ETHERNET);
    left = (pcapfile_bytes){ capture, 20 };
    header = before;
    EXPECT(pcapfile_take_header(&left, &header, &error) == PCAPFILE_INCOMPLETE);
    EXPECT(error.missing == 4 && error.rule == 0);
    EXPECT(left.ptr == capture && left.len == 20 && !memcmp(&header, &before, sizeof header));
    left = (pcapfile_bytes){ capture + 1, 24 };
    EXPECT(pcapfile_take_header(&left, &header, &error) == PCAPFILE_INVALID);
    EXPECT(error.missing == 0 && error.rule == PCAPFILE_RULE_CAPTURE_MAGIC);
    EXPECT(left.ptr == capture + 1 && left.len == 24 && !memcmp(&header, &before, sizeof header));
}

/* The draft: the low 16 bits are the link type. If bit 26 is set, the bits 28 to 31 count the frame check sequence in units of two
 * bytes. All other bits are reserved. */
static void links(void) {
    static const struct { uint32_t link, type; int32_t fcs_len; } rows[] = {
        { 0, 0, -1 },
        { 1, 1, -1 },
        { 0x24000001, 1, 4 },
        { 0x04000001, 1, 0 },
        { 0x14000069, 105, 2 },
        { 0x84000071, 113, 16 },
        { 0xf400007f, 127, 30 },
        { 0x20000001, 1, -1 },
        { 0xf0000000, 0, -1 },
        { 0x08000001, 1, -1 },
        { 0x02000001, 1, -1 },
        { 0x0000ffff, 65535, -1 },
        { 0x00010000, 0, -1 },
        { 0x03ff0093, 147, -1 },
        { 0x2fff0001, 1, 4 },
        { 0xfbffffff, 65535, -1 },
        { 0xffffffff, 65535, 30 },
    };
    for (size_t i = 0; i < sizeof rows / sizeof *rows; i++) {
        EXPECT(pcapfile_link_type(rows[i].link) == rows[i].type);
        EXPECT(pcapfile_fcs_len(rows[i].link) == rows[i].fcs_len);
    }
}

static void packets(void) {
    pcapfile_bytes left = { capture + 24, sizeof capture - 24 };
    pcapfile_header header = { 0xd4c3b2a1, 2, 4, 0, 0, 65535, 1 };
    pcapfile_packet packet = PCAPFILE_PACKET_INIT;
    pcapfile_error error = PCAPFILE_ERROR_INIT;
    EXPECT(pcapfile_take_packet(&header, &left, &packet, &error) == PCAPFILE_OK);
    EXPECT(packet.ts_sec == 7 && packet.ts_nsec == 8000 && packet.orig_len == 5);
    EXPECT(packet.bytes.ptr == capture + 40 && packet.bytes.len == 3 && left.len == 0);
    EXPECT(pcapfile_take_packet(&header, &left, &packet, &error) == PCAPFILE_INCOMPLETE && error.missing == 16);
    left = (pcapfile_bytes){ capture + 24, 17 };
    EXPECT(pcapfile_take_packet(&header, &left, &packet, &error) == PCAPFILE_INCOMPLETE && error.missing == 2);
    EXPECT(left.ptr == capture + 24 && left.len == 17 && packet.ts_sec == 7);
    header.magic_number = 0xa1b2c3d4;
    left = (pcapfile_bytes){ capture + 24, 19 };
    EXPECT(pcapfile_take_packet(&header, &left, &packet, &error) == PCAPFILE_INVALID);
    EXPECT(error.rule == PCAPFILE_RULE_FRACTION_TOO_LARGE && left.len == 19);
    header.magic_number = 7;
    EXPECT(pcapfile_take_packet(&header, &left, &packet, &error) == PCAPFILE_INVALID);
    EXPECT(error.rule == PCAPFILE_RULE_CAPTURE_MAGIC && left.len == 19);
}

/* Checks a head that breaks these rules, before three bytes. */
static void as_is_row(uint32_t fraction, uint32_t original, uint32_t flaws, uint32_t first, int64_t seconds, uint32_t nanoseconds) {
    uint8_t bytes[19];
    memcpy(bytes, capture + 24, sizeof bytes);
    for (int i = 0; i < 4; i++) {
        bytes[4 + i] = (uint8_t)(fraction >> 8 * i);
        bytes[12 + i] = (uint8_t)(original >> 8 * i);
    }
    pcapfile_bytes left = { bytes, sizeof bytes }, strictly = left;
    pcapfile_header header = { 0xd4c3b2a1, 2, 4, 0, 0, 65535, 1 };
    pcapfile_packet_as_is packet = PCAPFILE_PACKET_AS_IS_INIT;
    pcapfile_packet strict = PCAPFILE_PACKET_INIT;
    pcapfile_error error = PCAPFILE_ERROR_INIT;
    EXPECT(pcapfile_take_packet_as_is(&header, &left, 0, &packet, &error) == PCAPFILE_OK);
    EXPECT(left.len == 0 && packet.bytes.ptr == bytes + 16 && packet.bytes.len == 3);
    EXPECT(packet.ts_sec == 7 && packet.ts_fraction == fraction && packet.orig_len == original);
    EXPECT(packet.flaws == flaws && packet.first_flaw == first);
    EXPECT(packet.time.seconds == seconds && packet.time.nanoseconds == nanoseconds);
    EXPECT(pcapfile_take_packet(&header, &strictly, &strict, &error) == (first ? PCAPFILE_INVALID : PCAPFILE_OK));
    EXPECT(error.rule == first);
}

static void packets_as_is(void) {
    const uint32_t fraction = PCAPFILE_FLAW_FRACTION_TOO_LARGE, past = PCAPFILE_FLAW_INCLUDED_PAST_ORIGINAL;
    as_is_row(8, 5, 0, 0, 7, 8000);
    as_is_row(1999999, 3, 0, 0, 8, 999999000);
    as_is_row(4294967, 3, 0, 0, 11, 294967000);
    as_is_row(4294968, 3, fraction, PCAPFILE_RULE_FRACTION_TOO_LARGE, 11, 294968000);
    as_is_row(0xffffffff, 2, fraction | past, PCAPFILE_RULE_FRACTION_TOO_LARGE, 4301, 967295000);
    as_is_row(0, 2, past, PCAPFILE_RULE_INCLUDED_PAST_ORIGINAL, 7, 0);
    as_is_row(0, 262144, 0, 0, 7, 0);
    as_is_row(0, 262145, PCAPFILE_FLAW_ORIGINAL_TOO_LONG, PCAPFILE_RULE_ORIGINAL_TOO_LONG, 7, 0);
}

/* Checks a stored length of 262146 bytes, above and below the limit. */
static void packets_as_is_below_a_limit(void) {
    static uint8_t bytes[16 + 262146] = { 0, 0, 0, 0, 0, 0, 0, 0, 2, 0, 4, 0, 1, 0, 4, 0 };
    pcapfile_bytes left = { bytes, sizeof bytes };
    pcapfile_header header = { 0xd4c3b2a1, 2, 4, 0, 0, 65535, 1 };
    pcapfile_packet_as_is packet = PCAPFILE_PACKET_AS_IS_INIT;
    pcapfile_error error = PCAPFILE_ERROR_INIT;
    EXPECT(pcapfile_take_packet_as_is(&header, &left, 262145, &packet, &error) == PCAPFILE_INVALID);
    EXPECT(error.rule == PCAPFILE_RULE_INCLUDED_TOO_LONG && left.len == sizeof bytes && packet.flaws == 0);
    left.len = 20;
    EXPECT(pcapfile_take_packet_as_is(&header, &left, 0, &packet, &error) == PCAPFILE_INVALID);
    EXPECT(pcapfile_take_packet_as_is(&header, &left, 262146, &packet, &error) == PCAPFILE_INCOMPLETE);
    EXPECT(error.missing == 262142 && error.rule == 0 && left.len == 20);
    left.len = 7;
    EXPECT(pcapfile_take_packet_as_is(&header, &left, 0, &packet, &error) == PCAPFILE_INCOMPLETE && error.missing == 9);
    left.len = sizeof bytes;
    EXPECT(pcapfile_take_packet_as_is(&header, &left, 262146, &packet, &error) == PCAPFILE_OK);
    EXPECT(packet.bytes.len == 262146 && packet.orig_len == 262145 && left.len == 0);
    EXPECT(packet.flaws == (1 << 3 | 1 << 4 | 1 << 5) && packet.first_flaw == PCAPFILE_RULE_INCLUDED_TOO_LONG);
    header.magic_number = 7;
    left.len = 0;
    EXPECT(pcapfile_take_packet_as_is(&header, &left, 0, &packet, &error) == PCAPFILE_INVALID);
    EXPECT(error.rule == PCAPFILE_RULE_CAPTURE_MAGIC && error.missing == 0 && packet.bytes.len == 262146);
}

/* Checks a section header, an interface whose body is too short, and then one whose unit of time has two bytes. */
static void blocks_as_is(void) {
    static const uint8_t bytes[] = {
        10, 13, 13, 10, 28, 0, 0, 0, 0x4d, 0x3c, 0x2b, 0x1a, 1, 0, 0, 0, 255, 255, 255, 255, 255, 255, 255, 255, 28, 0, 0, 0,
        1, 0, 0, 0, 16, 0, 0, 0, 1, 0, 0, 0, 16, 0, 0, 0,
        1, 0, 0, 0, 28, 0, 0, 0, 113, 0, 0, 0, 60, 0, 0, 0, 9, 0, 2, 0, 9, 9, 0, 0, 28, 0, 0, 0,
    };
    pcapfile_bytes left = { bytes, sizeof bytes };
    pcapfile_section section = PCAPFILE_SECTION_INIT;
    pcapfile_block_as_is block = PCAPFILE_BLOCK_AS_IS_INIT;
    pcapfile_block_flaw flaw = PCAPFILE_BLOCK_FLAW_INIT;
    pcapfile_error error = PCAPFILE_ERROR_INIT;
    EXPECT(pcapfile_take_block_as_is(&section, &left, &block, &flaw, 1, &error) == PCAPFILE_OK && left.len == 44);
    EXPECT(block.type == PCAPFILE_BLOCK_SECTION && block.flaws == 0 && flaw.status == 0 && section.magic_number == 0x4d3c2b1a);
    EXPECT(pcapfile_take_block_as_is(&section, &left, &block, &flaw, 0, &error) == PCAPFILE_OK);
    EXPECT(block.flaws == 1 && flaw.status == 0 && !block.has_interface && block.interface.ts_base == 0 && section.interfaces == 1);
    EXPECT(pcapfile_take_block_as_is(&section, &left, &block, &flaw, 1, &error) == PCAPFILE_OK && left.len == 0);
    EXPECT(block.flaws == 1 && flaw.status == PCAPFILE_INVALID && flaw.rule == PCAPFILE_RULE_INTERFACE_RESOLUTION_LENGTH && flaw.code == 9);
    EXPECT(block.has_interface && block.interface.link == 113 && block.interface.snaplen == 60 && section.interfaces == 2);
    EXPECT(block.interface.ts_base == 10 && block.interface.ts_exponent == 6 && block.body.ptr == bytes + 52 && block.body.len == 16);
    EXPECT(!block.has_packet && block.packet.bytes.len == 0);
    EXPECT(pcapfile_take_block_as_is(&section, &left, &block, &flaw, 1, &error) == PCAPFILE_INCOMPLETE && error.missing == 12);
    section = (pcapfile_section){ 7, 1, 0, 2 };
    left = (pcapfile_bytes){ bytes, sizeof bytes };
    EXPECT(pcapfile_take_block_as_is(&section, &left, &block, &flaw, 1, &error) == PCAPFILE_INVALID);
    EXPECT(error.rule == PCAPFILE_RULE_SECTION_MAGIC && left.len == sizeof bytes && block.type == 1 && flaw.code == 9);
    section = (pcapfile_section)PCAPFILE_SECTION_INIT;
    left = (pcapfile_bytes){ bytes + 28, 16 };
    EXPECT(pcapfile_take_block_as_is(&section, &left, &block, &flaw, 1, &error) == PCAPFILE_INCOMPLETE);
}

/* Checks seven corrupt bytes before three packets, and before one that breaks a rule. */
static void resyncs(void) {
    uint8_t bytes[7 + 3 * 19];
    pcapfile_bytes all = { bytes, sizeof bytes };
    pcapfile_header header = { 0xd4c3b2a1, 2, 4, 0, 0, 65535, 1 };
    pcapfile_error error = PCAPFILE_ERROR_INIT;
    size_t place = 99;
    memset(bytes, 0xff, 7);
    for (size_t at = 7; at < sizeof bytes; at += 19) memcpy(bytes + at, capture + 24, 19);
    EXPECT(pcapfile_resync(&header, &all, 3, &place, &error) == PCAPFILE_OK && place == 7);
    EXPECT(pcapfile_resync(&header, &all, 4, &place, &error) == PCAPFILE_OK && place == 7);
    bytes[7 + 19 + 12] = 2;
    EXPECT(pcapfile_resync(&header, &all, 2, &place, &error) == PCAPFILE_OK && place == 7 + 2 * 19);
    EXPECT(pcapfile_resync(&header, &all, 1, &place, &error) == PCAPFILE_OK && place == 7);
    EXPECT(pcapfile_resync(&header, &all, 0, &place, &error) == PCAPFILE_OK && place == 0);
    all.len = 7 + 18;
    EXPECT(pcapfile_resync(&header, &all, 1, &place, &error) == PCAPFILE_NOTHING && place == 0);
    header.magic_number = 7;
    EXPECT(pcapfile_resync(&header, &all, 1, &place, &error) == PCAPFILE_INVALID && place == 0);
    EXPECT(error.rule == PCAPFILE_RULE_CAPTURE_MAGIC && error.missing == 0);
}

/* Checks wrong lengths of the first of three packets: the original one is right, or the next packets are inside. */
static void judges_lengths(const pcapfile_header *header, pcapfile_bytes *all) {
    uint8_t bytes[3 * 19];
    pcapfile_bytes changed = { bytes, sizeof bytes };
    pcapfile_error error = PCAPFILE_ERROR_INIT;
    size_t gap = 99;
    uint32_t length = 98;
    memcpy(bytes, all->ptr, sizeof bytes);
    bytes[8] = 4;
    bytes[12] = 3;
    EXPECT(pcapfile_judge_packet(header, 7, &changed, 1, &gap, &length, &error) == PCAPFILE_OK && gap == 0 && length == 3);
    memset(bytes + 8, 0xff, 4);
    EXPECT(pcapfile_judge_packet(header, 7, &changed, 1, &gap, &length, &error) == PCAPFILE_OK && gap == 0 && length == 3);
    /* Bytes of a stored length above the limit are not needed. Those behind the original length are, and the end of a piece is no end. */
    length = 98;
    changed.len = 19 + 16;
    EXPECT(pcapfile_judge_packet(header, 7, &changed, 0, &gap, &length, &error) == PCAPFILE_OK && gap == 0 && length == 3);
    gap = length = 98;
    changed.len = 19 + 15;
    EXPECT(pcapfile_judge_packet(header, 7, &changed, 0, &gap, &length, &error) == PCAPFILE_INCOMPLETE && error.missing == 1);
    changed.len = 19;
    EXPECT(pcapfile_judge_packet(header, 7, &changed, 0, &gap, &length, &error) == PCAPFILE_INCOMPLETE && error.missing == 16);
    EXPECT(gap == 98 && length == 98);
    EXPECT(pcapfile_judge_packet(header, 7, &changed, 1, &gap, &length, &error) == PCAPFILE_OK && gap == 0 && length == 3);
    /* The next packet is far in time. */
    bytes[19 + 3] = 0x7f;
    gap = length = 98;
    changed.len = sizeof bytes;
    EXPECT(pcapfile_judge_packet(header, 7, &changed, 0, &gap, &length, &error) == PCAPFILE_INCOMPLETE && gap == 98 && length == 98);
    EXPECT(error.missing == 3 + 4 * (16 + 262144) - (changed.len - 16));
    bytes[19 + 3] = 0;
    bytes[12] = 5;
    EXPECT(pcapfile_judge_packet(header, 7, &changed, 1, &gap, &length, &error) == PCAPFILE_OK && gap == 19 && length == 0);
}

/* Checks a packet above 262144 bytes that contains packets behind the snapshot length. Its stored length is right. */
static void judges_a_long_packet(void) {
    static uint8_t bytes[16 + 300000 + 19];
    pcapfile_bytes all = { bytes, sizeof bytes };
    pcapfile_header header = { 0xd4c3b2a1, 2, 4, 0, 0, 96, 1 };
    pcapfile_error error = PCAPFILE_ERROR_INIT;
    size_t gap = 99;
    uint32_t length = 98;
    const uint8_t long_length[] = { 0xe0, 0x93, 4, 0, 0xe0, 0x93, 4, 0 };
    memcpy(bytes, capture + 24, 8);
    memcpy(bytes + 8, long_length, 8);
    for (size_t at = 16 + 96; at < 16 + 96 + 5 * 19; at += 19) memcpy(bytes + at, capture + 24, 19);
    memcpy(bytes + sizeof bytes - 19, capture + 24, 19);
    EXPECT(pcapfile_judge_packet(&header, 7, &all, 1, &gap, &length, &error) == PCAPFILE_OK && gap == 0 && length == 0);
    gap = length = 99;
    all.len -= 3;
    EXPECT(pcapfile_judge_packet(&header, 7, &all, 0, &gap, &length, &error) == PCAPFILE_OK && gap == 0 && length == 0);
}

/* Checks what is at the front of three packets of a damaged capture, in pieces and as a whole. */
static void judges(void) {
    uint8_t bytes[3 * 19], zeros[40] = { 0 };
    pcapfile_bytes all = { bytes, sizeof bytes }, none = { zeros, sizeof zeros };
    pcapfile_header header = { 0xd4c3b2a1, 2, 4, 0, 0, 65535, 1 };
    pcapfile_error error = PCAPFILE_ERROR_INIT;
    size_t gap = 99;
    uint32_t length = 98;
    for (size_t at = 0; at < sizeof bytes; at += 19) memcpy(bytes + at, capture + 24, 19);
    all.len = 15;
    EXPECT(pcapfile_judge_packet(&header, 7, &all, 0, &gap, &length, &error) == PCAPFILE_INCOMPLETE && error.missing == 1);
    all.len = 19;
    EXPECT(pcapfile_judge_packet(&header, 7, &all, 0, &gap, &length, &error) == PCAPFILE_INCOMPLETE && error.missing == 16);
    EXPECT(gap == 99 && length == 98 && error.rule == 0);
    EXPECT(pcapfile_judge_packet(&header, 7, &all, 1, &gap, &length, &error) == PCAPFILE_OK && gap == 0 && length == 0);
    all.len = gap = length = 35;
    EXPECT(pcapfile_judge_packet(&header, 7, &all, 0, &gap, &length, &error) == PCAPFILE_OK && gap == 0 && length == 0);
    all.len = sizeof bytes;
    /* Behind the head of a packet at another time, the bytes of four packets are needed. */
    EXPECT(pcapfile_judge_packet(&header, 86408, &all, 0, &gap, &length, &error) == PCAPFILE_INCOMPLETE);
    EXPECT(error.missing == 3 + 4 * (16 + 262144) - (sizeof bytes - 16));
    EXPECT(pcapfile_judge_packet(&header, 86407, &all, 0, &gap, &length, &error) == PCAPFILE_OK && gap == 0 && length == 0);
    judges_lengths(&header, &all);
    EXPECT(pcapfile_judge_packet(&header, 7, &none, 1, &gap, &length, &error) == PCAPFILE_NOTHING && gap == 0 && length == 0);
    /* A packet without data, far from the next ones in time, and without them. */
    zeros[0] = 1;
    EXPECT(pcapfile_judge_packet(&header, 7, &none, 1, &gap, &length, &error) == PCAPFILE_NOTHING && gap == 0 && length == 0);
    zeros[16 + 2] = 9;
    none.len = 32;
    EXPECT(pcapfile_judge_packet(&header, 7, &none, 1, &gap, &length, &error) == PCAPFILE_OK && gap == 0 && length == 0);
    header.magic_number = 7;
    gap = length = 99;
    EXPECT(pcapfile_judge_packet(&header, 7, &all, 1, &gap, &length, &error) == PCAPFILE_INVALID && gap == 99 && length == 99);
    EXPECT(error.rule == PCAPFILE_RULE_CAPTURE_MAGIC && error.missing == 0);
}

/* Checks seven corrupt bytes before three packets near a time. */
static void skips_to_packets(void) {
    uint8_t bytes[7 + 3 * 19];
    pcapfile_bytes all = { bytes, sizeof bytes };
    pcapfile_header header = { 0xd4c3b2a1, 2, 4, 0, 0, 65535, 1 };
    pcapfile_error error = PCAPFILE_ERROR_INIT;
    size_t skipped = 99;
    uint8_t is_over = 9;
    memset(bytes, 0xff, 7);
    for (size_t at = 7; at < sizeof bytes; at += 19) memcpy(bytes + at, capture + 24, 19);
    EXPECT(pcapfile_skip_to_packets(&header, 86407, &all, 0, &skipped, &is_over, &error) == PCAPFILE_INCOMPLETE);
    EXPECT(error.rule == 0 && error.missing == 2097152 - sizeof bytes && skipped == 99 && is_over == 9);
    EXPECT(pcapfile_skip_to_packets(&header, 86407, &all, 1, &skipped, &is_over, &error) == PCAPFILE_OK);
    EXPECT(skipped == 7 && is_over == 1);
    /* Three packets that break no rule are enough at any time and of any length, but two are not. */
    EXPECT(pcapfile_skip_to_packets(&header, 86408, &all, 1, &skipped, &is_over, &error) == PCAPFILE_OK && skipped == 7);
    header.snaplen = 2;
    EXPECT(pcapfile_skip_to_packets(&header, 7, &all, 1, &skipped, &is_over, &error) == PCAPFILE_OK && skipped == 7);
    bytes[7 + 2 * 19 + 12] = 2;
    header.snaplen = 3;
    EXPECT(pcapfile_skip_to_packets(&header, 86407, &all, 1, &skipped, &is_over, &error) == PCAPFILE_OK && skipped == 7);
    EXPECT(pcapfile_skip_to_packets(&header, 86408, &all, 1, &skipped, &is_over, &error) == PCAPFILE_OK);
    EXPECT(skipped == sizeof bytes && is_over == 1);
    header.magic_number = 7;
    EXPECT(pcapfile_skip_to_packets(&header, 7, &all, 1, &skipped, &is_over, &error) == PCAPFILE_INVALID);
    EXPECT(error.rule == PCAPFILE_RULE_CAPTURE_MAGIC && error.missing == 0 && skipped == sizeof bytes && is_over == 1);
}

/* Checks as many corrupt bytes as are searched at once, and one more, before a packet at the end. */
static void skips_in_windows(void) {
    static uint8_t bytes[2097152 + 1];
    pcapfile_bytes all = { bytes, sizeof bytes };
    pcapfile_header header = { 0xd4c3b2a1, 2, 4, 0, 0, 65535, 1 };
    pcapfile_section section = PCAPFILE_SECTION_INIT;
    pcapfile_error error = PCAPFILE_ERROR_INIT;
    const size_t sure = 2097152 - 4 * (16 + 262144);
    size_t skipped = 99;
    uint8_t is_over = 9;
    memset(bytes, 0xff, sizeof bytes);
    memcpy(bytes + sizeof bytes - 19, capture + 24, 19);
    EXPECT(pcapfile_skip_to_packets(&header, 7, &all, 1, &skipped, &is_over, &error) == PCAPFILE_OK);
    EXPECT(skipped == sure && is_over == 0);
    EXPECT(pcapfile_skip_to_blocks(&section, &all, 1, &skipped, &is_over, &error) == PCAPFILE_OK);
    EXPECT(skipped == sure && is_over == 0);
    all.ptr++;
    all.len--;
    EXPECT(pcapfile_skip_to_packets(&header, 7, &all, 0, &skipped, &is_over, &error) == PCAPFILE_OK);
    EXPECT(skipped == sure && is_over == 0);
    EXPECT(pcapfile_skip_to_packets(&header, 7, &all, 1, &skipped, &is_over, &error) == PCAPFILE_OK);
    EXPECT(skipped == 2097152 - 19 && is_over == 1);
    EXPECT(pcapfile_skip_to_blocks(&section, &all, 1, &skipped, &is_over, &error) == PCAPFILE_OK);
    EXPECT(skipped == 2097152 && is_over == 1);
}

/* Checks five corrupt bytes before two blocks, before a block of an unknown type around two of a known one, and before a section. */
static void skips_to_blocks(void) {
    static const uint8_t known[] = { 4, 0, 0, 0, 12, 0, 0, 0, 12, 0, 0, 0 };
    static const uint8_t section_header[] = { 10, 13, 13, 10, 28, 0, 0, 0, 0x4d, 0x3c, 0x2b, 0x1a, 1, 0, 0, 0,
                                              255, 255, 255, 255, 255, 255, 255, 255, 28, 0, 0, 0 };
    uint8_t bytes[5 + 36] = { 255, 255, 255, 255, 255, 99, 0, 0, 0, 36 }, is_over = 9;
    pcapfile_bytes all = { bytes, sizeof bytes };
    pcapfile_section section = PCAPFILE_SECTION_INIT;
    pcapfile_error error = PCAPFILE_ERROR_INIT;
    size_t skipped = 99;
    section.magic_number = 0x4d3c2b1a;
    memcpy(bytes + 13, known, sizeof known);
    memcpy(bytes + 25, known, sizeof known);
    bytes[37] = 36;
    EXPECT(pcapfile_skip_to_blocks(&section, &all, 0, &skipped, &is_over, &error) == PCAPFILE_INCOMPLETE);
    EXPECT(error.rule == 0 && error.missing == 2097152 - sizeof bytes && skipped == 99 && is_over == 9);
    EXPECT(pcapfile_skip_to_blocks(&section, &all, 1, &skipped, &is_over, &error) == PCAPFILE_OK);
    EXPECT(skipped == 13 && is_over == 1);
    bytes[13] = bytes[25] = 98;
    EXPECT(pcapfile_skip_to_blocks(&section, &all, 1, &skipped, &is_over, &error) == PCAPFILE_OK && skipped == 5);
    memcpy(bytes + 5, known, sizeof known);
    memcpy(bytes + 17, known, sizeof known);
    all.len = 5 + 24;
    EXPECT(pcapfile_skip_to_blocks(&section, &all, 1, &skipped, &is_over, &error) == PCAPFILE_OK && skipped == 5);
    section.magic_number = 0;
    EXPECT(pcapfile_skip_to_blocks(&section, &all, 1, &skipped, &is_over, &error) == PCAPFILE_OK);
    EXPECT(skipped == 5 + 24 && is_over == 1);
    memcpy(bytes + 6, section_header, sizeof section_header);
    all.len = 6 + sizeof section_header;
    EXPECT(pcapfile_skip_to_blocks(&section, &all, 1, &skipped, &is_over, &error) == PCAPFILE_OK && skipped == 6);
    section.magic_number = 7;
    EXPECT(pcapfile_skip_to_blocks(&section, &all, 1, &skipped, &is_over, &error) == PCAPFILE_INVALID && skipped == 6);
    EXPECT(error.rule == PCAPFILE_RULE_SECTION_MAGIC && error.missing == 0);
}

static void batches(void) {
    uint8_t twice[2 * 19];
    pcapfile_packet packets[3] = { PCAPFILE_PACKET_INIT, PCAPFILE_PACKET_INIT, PCAPFILE_PACKET_INIT };
    pcapfile_header header = { 0xd4c3b2a1, 2, 4, 0, 0, 65535, 1 };
    pcapfile_error error = PCAPFILE_ERROR_INIT;
    size_t taken = 9;
    memcpy(twice, capture + 24, 19);
    memcpy(twice + 19, capture + 24, 19);
    pcapfile_bytes left = { twice, sizeof twice };
    EXPECT(pcapfile_take_packets(&header, &left, packets, 1, &taken, &error) == PCAPFILE_OK);
    EXPECT(taken == 1 && left.len == 19 && packets[1].orig_len == 0);
    left = (pcapfile_bytes){ twice, sizeof twice };
    EXPECT(pcapfile_take_packets(&header, &left, packets, 3, &taken, &error) == PCAPFILE_OK);
    EXPECT(taken == 2 && left.len == 0 && packets[1].bytes.ptr == twice + 35 && packets[2].orig_len == 0);
    left = (pcapfile_bytes){ twice, sizeof twice - 1 };
    EXPECT(pcapfile_take_packets(&header, &left, packets, 3, &taken, &error) == PCAPFILE_INCOMPLETE);
    EXPECT(taken == 1 && left.len == 18 && error.missing == 1 && left.ptr == twice + 19);
    EXPECT(pcapfile_take_packets(&header, &left, packets, 0, &taken, &error) == PCAPFILE_OK && taken == 0);
    header.magic_number = 7;
    EXPECT(pcapfile_take_packets(&header, &left, packets, 3, &taken, &error) == PCAPFILE_INVALID);
    EXPECT(taken == 0 && error.rule == PCAPFILE_RULE_CAPTURE_MAGIC && left.len == 18);
}

/* Checks two packets of 19 bytes, with places counted by hand. */
static void rows(void) {
    uint8_t twice[2 * 19];
    pcapfile_row rows[3] = { PCAPFILE_ROW_INIT, PCAPFILE_ROW_INIT, PCAPFILE_ROW_INIT };
    pcapfile_packet packet = PCAPFILE_PACKET_INIT;
    pcapfile_header header = { 0xd4c3b2a1, 2, 4, 0, 0, 65535, 113 };
    pcapfile_error error = PCAPFILE_ERROR_INIT;
    size_t taken = 9;
    memcpy(twice, capture + 24, 19);
    memcpy(twice + 19, capture + 24, 19);
    pcapfile_bytes left = { twice, sizeof twice }, one = left;
    EXPECT(pcapfile_take_packet(&header, &one, &packet, &error) == PCAPFILE_OK);
    EXPECT(pcapfile_take_rows(&header, &left, rows, 1, &taken, &error) == PCAPFILE_OK);
    EXPECT(taken == 1 && left.len == 19 && rows[0].offset == 16 && rows[1].offset == 0);
    left = (pcapfile_bytes){ twice, sizeof twice };
    EXPECT(pcapfile_take_rows(&header, &left, rows, 3, &taken, &error) == PCAPFILE_OK && taken == 2 && left.len == 0);
    EXPECT(rows[1].offset == 35 && rows[1].len == 3 && rows[1].orig_len == packet.orig_len && rows[1].interface_id == 0);
    EXPECT(rows[1].link == 113 && rows[1].time_ns == (int64_t)packet.ts_sec * 1000000000 + packet.ts_nsec && rows[2].len == 0);
    left = (pcapfile_bytes){ twice, sizeof twice - 1 };
    EXPECT(pcapfile_take_rows(&header, &left, rows, 3, &taken, &error) == PCAPFILE_INCOMPLETE && taken == 1);
    EXPECT(left.ptr == twice + 19 && error.missing == 1);
    EXPECT(pcapfile_take_rows(&header, &left, rows, 0, &taken, &error) == PCAPFILE_OK && taken == 0);
    header.magic_number = 7;
    EXPECT(pcapfile_take_rows(&header, &left, rows, 3, &taken, &error) == PCAPFILE_INVALID && taken == 0);
    EXPECT(error.rule == PCAPFILE_RULE_CAPTURE_MAGIC && left.len == 18);
}

/* Checks two packets of 19 bytes. */
static void cuts(void) {
    uint8_t two[24 + 2 * 19];
    pcapfile_cut cuts[3] = { { 9, 9 }, { 9, 9 }, { 9, 9 } };
    pcapfile_error error = PCAPFILE_ERROR_INIT;
    size_t count = 9;
    memcpy(two, capture, sizeof capture);
    memcpy(two + sizeof capture, capture + 24, 19);
    pcapfile_bytes all = { two, sizeof two };
    EXPECT(pcapfile_cut_packets(&all, cuts, 0, &count, &error) == PCAPFILE_NO_PLACE && count == 0 && cuts[0].offset == 9);
    EXPECT(pcapfile_cut_packets(&all, cuts, 1, &count, &error) == PCAPFILE_OK && count == 1);
    EXPECT(cuts[0].offset == 24 && cuts[0].before == 0 && cuts[1].offset == 9);
    EXPECT(pcapfile_cut_packets(&all, cuts, 2, &count, &error) == PCAPFILE_OK && count == 2);
    EXPECT(cuts[1].offset == 43 && cuts[1].before == 1 && cuts[2].offset == 9 && cuts[2].before == 9);
    EXPECT(pcapfile_cut_packets(&all, cuts, 3, &count, &error) == PCAPFILE_OK && count == 2 && cuts[2].offset == 9);
    all.len = 23;
    cuts[0].offset = 9;
    EXPECT(pcapfile_cut_packets(&all, cuts, 3, &count, &error) == PCAPFILE_INCOMPLETE && error.missing == 1);
    EXPECT(count == 0 && cuts[0].offset == 9);
    two[0] = 0;
    all.len = sizeof two;
    EXPECT(pcapfile_cut_packets(&all, cuts, 3, &count, &error) == PCAPFILE_INVALID && error.rule == PCAPFILE_RULE_CAPTURE_MAGIC);
}

/* Checks the same packets in parts of at least a given number of bytes. */
static void cuts_at_least(void) {
    uint8_t two[24 + 2 * 19];
    pcapfile_cut cuts[5] = { { 9, 9 }, { 9, 9 }, { 9, 9 }, { 9, 9 }, { 9, 9 } };
    pcapfile_error error = PCAPFILE_ERROR_INIT;
    size_t count = 9;
    memcpy(two, capture, sizeof capture);
    memcpy(two + sizeof capture, capture + 24, 19);
    pcapfile_bytes all = { two, sizeof two };
    EXPECT(pcapfile_cut_packets_at_least(&all, 19, cuts, 3, &count, &error) == PCAPFILE_NO_PLACE && count == 0 && cuts[0].offset == 9);
    EXPECT(pcapfile_cut_packets_at_least(&all, 0, cuts, 5, &count, &error) == PCAPFILE_NO_PLACE && count == 0);
    EXPECT(pcapfile_cut_packets_at_least(&all, SIZE_MAX, cuts, 0, &count, &error) == PCAPFILE_NO_PLACE && count == 0);
    EXPECT(pcapfile_cut_packets_at_least(&all, 19, cuts, 4, &count, &error) == PCAPFILE_OK && count == 2);
    EXPECT(cuts[0].offset == 24 && cuts[0].before == 0 && cuts[1].offset == 43 && cuts[1].before == 1 && cuts[2].offset == 9);
    EXPECT(pcapfile_cut_packets_at_least(&all, 20, cuts, 4, &count, &error) == PCAPFILE_OK && count == 1 && cuts[1].offset == 43);
    EXPECT(pcapfile_cut_packets_at_least(&all, SIZE_MAX, cuts, 1, &count, &error) == PCAPFILE_OK && count == 1 && cuts[0].offset == 24);
    all.len = 23;
    EXPECT(pcapfile_cut_packets_at_least(&all, 19, cuts, 4, &count, &error) == PCAPFILE_INCOMPLETE && error.missing == 1 && count == 0);
}

static void writes(void) {
    uint8_t room[64], before[64];
    pcapfile_header header = { 0xd4c3b2a1, 2, 4, -2, 0, 65535, PCAPFILE_LINK_ETHERNET };
    pcapfile_packet packet = { 7, 8999, 5, { (const uint8_t *)"abc", 3 } };
    pcapfile_error error = PCAPFILE_ERROR_INIT;
    size_t written = 99;
    memset(room, 0xee, sizeof room);
    memcpy(before, room, sizeof room);
    EXPECT(pcapfile_write_header(&header, room, 0, &written, &error) == PCAPFILE_INCOMPLETE && error.missing == 24);
    EXPECT(pcapfile_write_header(&header, room, 20, &written, &error) == PCAPFILE_INCOMPLETE && error.missing == 4);
    EXPECT(pcapfile_write_packet(&header, &packet, room, 18, &written, &error) == PCAPFILE_INCOMPLETE && error.missing == 1);
    EXPECT(written == 99 && !memcmp(room, before, sizeof room));
    EXPECT(pcapfile_write_header(&header, room, sizeof room, &written, &error) == PCAPFILE_OK && written == 24);
    EXPECT(pcapfile_write_packet(&header, &packet, room + 24, sizeof room - 24, &written, &error) == PCAPFILE_OK);
    EXPECT(written == 19 && !memcmp(room, capture, sizeof capture));
    EXPECT(!memcmp(room + 43, before + 43, sizeof room - 43));
    header.magic_number = 0xa1b23c4d;
    EXPECT(pcapfile_write_packet(&header, &packet, room, sizeof room, &written, &error) == PCAPFILE_OK && written == 19);
    EXPECT(!memcmp(room, "\0\0\0\7\0\0\x23\x27\0\0\0\3\0\0\0\5abc", 19));
    header.magic_number = 7;
    written = 99;
    memcpy(room, before, sizeof room);
    EXPECT(pcapfile_write_header(&header, room, sizeof room, &written, &error) == PCAPFILE_INVALID);
    EXPECT(error.rule == PCAPFILE_RULE_CAPTURE_MAGIC);
    EXPECT(pcapfile_write_packet(&header, &packet, room, sizeof room, &written, &error) == PCAPFILE_INVALID);
    EXPECT(written == 99 && !memcmp(room, before, sizeof room));
}

/* Checks the capture above in a buffer for 32 bytes: 24 come, then 16, then 3. */
static void pushes(void) {
    uint8_t room[32] = { 0 };
    pcapfile_push push = PCAPFILE_PUSH_INIT;
    pcapfile_packet packet = PCAPFILE_PACKET_INIT;
    pcapfile_error error = PCAPFILE_ERROR_INIT;
    EXPECT(pcapfile_push_next(&push, room, sizeof room, &packet, &error) == PCAPFILE_INCOMPLETE && error.missing == 24);
    EXPECT(pcapfile_push_space(&push, room, sizeof room, 24, &error) == PCAPFILE_OK && push.begin == 0 && push.end == 0);
    memcpy(room, capture, 24);
    EXPECT(pcapfile_push_put(&push, room, sizeof room, 24) == PCAPFILE_OK && push.begin == 0 && push.end == 24);
    EXPECT(push.header.magic_number == 0);
    EXPECT(pcapfile_push_next(&push, room, sizeof room, &packet, &error) == PCAPFILE_INCOMPLETE && error.missing == 16);
    EXPECT(push.header.magic_number == 0xd4c3b2a1 && push.header.ts_correction == -2 && push.header.snaplen == 65535);
    EXPECT(push.header.link == PCAPFILE_LINK_ETHERNET && push.begin == 24 && push.end == 24 && packet.ts_sec == 0);
    EXPECT(pcapfile_push_space(&push, room, sizeof room, 8, &error) == PCAPFILE_OK && push.begin == 24 && push.end == 24);
    EXPECT(pcapfile_push_space(&push, room, sizeof room, 16, &error) == PCAPFILE_OK && push.begin == 0 && push.end == 0);
    memcpy(room, capture + 24, 16);
    EXPECT(pcapfile_push_put(&push, room, sizeof room, 16) == PCAPFILE_OK && push.end == 16);
    EXPECT(pcapfile_push_next(&push, room, sizeof room, &packet, &error) == PCAPFILE_INCOMPLETE && error.missing == 3);
    EXPECT(push.begin == 0 && push.end == 16 && packet.ts_sec == 0);
    memcpy(room + 16, capture + 40, 3);
    EXPECT(pcapfile_push_put(&push, room, sizeof room, 3) == PCAPFILE_OK);
    EXPECT(pcapfile_push_next(&push, room, sizeof room, &packet, &error) == PCAPFILE_OK);
    EXPECT(packet.ts_sec == 7 && packet.ts_nsec == 8000 && packet.orig_len == 5);
    EXPECT(packet.bytes.ptr == room + 16 && packet.bytes.len == 3 && push.begin == 19 && push.end == 19);
    EXPECT(pcapfile_push_next(&push, room, sizeof room, &packet, &error) == PCAPFILE_INCOMPLETE && error.missing == 16);
    EXPECT(pcapfile_push_space(&push, room, sizeof room, 40, &error) == PCAPFILE_NO_ROOM && error.missing == 8);
    EXPECT(error.rule == 0 && push.begin == 0 && push.end == 0 && packet.ts_sec == 7);
}

/* Checks what the calls refuse, and that the held bytes remain as they were. */
static void refused_pushes(void) {
    uint8_t room[43], before[43];
    pcapfile_push push = { PCAPFILE_HEADER_INIT, 2, 43 }, other = push;
    pcapfile_packet packet = PCAPFILE_PACKET_INIT;
    pcapfile_error error = { 9, 9 };
    memcpy(room, capture, sizeof room);
    memcpy(before, room, sizeof room);
    EXPECT(pcapfile_push_next(&push, room, 42, &packet, &error) == PCAPFILE_BAD_CALL);
    EXPECT(pcapfile_push_space(&push, room, 42, 0, &error) == PCAPFILE_BAD_CALL);
    EXPECT(pcapfile_push_put(&push, room, 42, 0) == PCAPFILE_BAD_CALL);
    EXPECT(pcapfile_push_put(&push, room, sizeof room, 1) == PCAPFILE_BAD_CALL);
    EXPECT(pcapfile_push_put(&push, room, sizeof room, (size_t)-1) == PCAPFILE_BAD_CALL);
    EXPECT(!memcmp(&push, &other, sizeof push) && error.rule == 9 && error.missing == 9);
    EXPECT(pcapfile_push_next(&push, room, sizeof room, &packet, &error) == PCAPFILE_INVALID);
    EXPECT(error.rule == PCAPFILE_RULE_CAPTURE_MAGIC && error.missing == 0 && !memcmp(&push, &other, sizeof push));
    push.begin = 44;
    EXPECT(pcapfile_push_next(&push, room, sizeof room, &packet, &error) == PCAPFILE_BAD_CALL);
    EXPECT(pcapfile_push_space(&push, room, sizeof room, 0, &error) == PCAPFILE_BAD_CALL);
    EXPECT(pcapfile_push_put(&push, room, sizeof room, 0) == PCAPFILE_BAD_CALL && push.begin == 44 && push.end == 43);
    EXPECT(!memcmp(room, before, sizeof room));
    push.begin = 0;
    room[32] = 6;
    EXPECT(pcapfile_push_next(&push, room, sizeof room, &packet, &error) == PCAPFILE_INVALID);
    EXPECT(error.rule == PCAPFILE_RULE_INCLUDED_PAST_ORIGINAL && push.header.magic_number == 0xd4c3b2a1 && push.begin == 24);
    EXPECT(pcapfile_push_next(&push, room, sizeof room, &packet, &error) == PCAPFILE_INVALID && push.begin == 24);
    EXPECT(packet.orig_len == 0);
    EXPECT(pcapfile_push_space(&push, room, sizeof room, (size_t)-1, &error) == PCAPFILE_NO_ROOM);
    EXPECT(error.missing == (size_t)-1 - 24 && push.begin == 0 && push.end == 19 && room[8] == 6);
}

/* A little-endian section, an interface of link type 113 that counts nanoseconds and adds 2 seconds, and an enhanced packet of three
 * bytes, five on the wire, at 7 nanoseconds. */
static const uint8_t blocks[] = {
    0x0a, 0x0d, 0x0d, 0x0a, 28, 0, 0, 0, 0x4d, 0x3c, 0x2b, 0x1a, 1, 0, 2, 0, 0xff, 0xff, 0xff, 0xff, 0xff, 0xff, 0xff, 0xff, 28, 0, 0, 0,
    1, 0, 0, 0, 40, 0, 0, 0, 113, 0, 0, 0, 0, 1, 0, 0, 9, 0, 1, 0, 9, 0, 0, 0, 14, 0, 8, 0, 2, 0, 0, 0, 0, 0, 0, 0, 40, 0, 0, 0,
    6, 0, 0, 0, 36, 0, 0, 0, 0, 0, 0, 0, 0, 0, 0, 0, 7, 0, 0, 0, 3, 0, 0, 0, 5, 0, 0, 0, 'a', 'b', 'c', 0, 36, 0, 0, 0,
};

static void first_blocks(void) {
    pcapfile_section section = PCAPFILE_SECTION_INIT, before = section;
    pcapfile_bytes left = { blocks, 11 };
    pcapfile_block block = PCAPFILE_BLOCK_INIT;
    pcapfile_error error = PCAPFILE_ERROR_INIT;
    EXPECT(pcapfile_take_block(&section, &left, &block, &error) == PCAPFILE_INCOMPLETE && error.missing == 1);
    left.len = 12;
    EXPECT(pcapfile_take_block(&section, &left, &block, &error) == PCAPFILE_INCOMPLETE && error.missing == 16);
    left = (pcapfile_bytes){ blocks + 28, sizeof blocks - 28 };
    EXPECT(pcapfile_take_block(&section, &left, &block, &error) == PCAPFILE_INCOMPLETE);
    left = (pcapfile_bytes){ (const uint8_t *)"\0\0\0\1\0\0\0\x14\0\1\0\0\0\0\0\0\0\0\0\x14", 20 };
    EXPECT(pcapfile_take_block(&section, &left, &block, &error) == PCAPFILE_INVALID);
    EXPECT(error.rule == PCAPFILE_RULE_SECTION_MISSING && error.missing == 0);
    EXPECT(left.len == 20 && block.type == 0 && !memcmp(&section, &before, sizeof section));
    section.magic_number = 7;
    left = (pcapfile_bytes){ blocks, sizeof blocks };
    EXPECT(pcapfile_take_block(&section, &left, &block, &error) == PCAPFILE_INVALID);
    EXPECT(error.rule == PCAPFILE_RULE_SECTION_MAGIC && left.len == sizeof blocks && section.magic_number == 7);
}

static void bodies(void) {
    pcapfile_section section = PCAPFILE_SECTION_INIT;
    pcapfile_bytes left = { blocks, sizeof blocks };
    pcapfile_block block = PCAPFILE_BLOCK_INIT;
    pcapfile_interface interface = PCAPFILE_INTERFACE_INIT;
    pcapfile_ng_packet packet = PCAPFILE_NG_PACKET_INIT;
    pcapfile_error error = PCAPFILE_ERROR_INIT;
    EXPECT(pcapfile_take_block(&section, &left, &block, &error) == PCAPFILE_OK && block.type == PCAPFILE_BLOCK_SECTION);
    EXPECT(section.magic_number == 0x4d3c2b1a && section.version_major == 1 && section.version_minor == 2);
    EXPECT(section.interfaces == 0 && block.body.ptr == blocks + 8 && block.body.len == 16);
    EXPECT(pcapfile_read_interface(&section, &block, &interface, &error) == PCAPFILE_NOTHING && interface.link == 0);
    EXPECT(pcapfile_take_block(&section, &left, &block, &error) == PCAPFILE_OK && section.interfaces == 1);
    EXPECT(pcapfile_read_interface(&section, &block, &interface, &error) == PCAPFILE_OK);
    EXPECT(interface.link == PCAPFILE_LINK_LINUX_SLL && interface.snaplen == 256);
    EXPECT(interface.ts_base == 10 && interface.ts_exponent == 9 && interface.ts_offset == 2);
    EXPECT(pcapfile_read_packet(&section, &block, &packet, &error) == PCAPFILE_NOTHING);
    EXPECT(pcapfile_take_block(&section, &left, &block, &error) == PCAPFILE_OK && left.len == 0);
    EXPECT(pcapfile_read_packet(&section, &block, &packet, &error) == PCAPFILE_OK);
    EXPECT(packet.type == 6 && packet.interface_id == 0 && packet.orig_len == 5 && packet.timestamp == 7);
    EXPECT(packet.bytes.ptr == blocks + 96 && packet.bytes.len == 3);
    block.body.len = 19;
    packet.orig_len = 99;
    EXPECT(pcapfile_read_packet(&section, &block, &packet, &error) == PCAPFILE_INVALID && error.rule == 13);
    section.magic_number = 0;
    EXPECT(pcapfile_read_packet(&section, &block, &packet, &error) == PCAPFILE_INVALID);
    EXPECT(error.rule == PCAPFILE_RULE_SECTION_MAGIC && packet.orig_len == 99);
}

/* Checks the blocks above in two parts: the section's 28 bytes, then the interface's 40 and the packet's 36. */
static void block_cuts(void) {
    pcapfile_bytes all = { blocks, sizeof blocks };
    pcapfile_ng_cut cuts[3] = { { { 9, 9 }, 9, 9, 9 }, { { 9, 9 }, 9, 9, 9 }, { { 9, 9 }, 9, 9, 9 } };
    pcapfile_error error = PCAPFILE_ERROR_INIT;
    size_t places[2] = { 9, 9 }, count = 9, known = 9;
    EXPECT(pcapfile_cut_blocks(&all, cuts, 0, &count, places, 2, &known, &error) == PCAPFILE_NO_PLACE && count == 0 && known == 0);
    EXPECT(pcapfile_cut_blocks(&all, cuts, 2, &count, places, 0, &known, &error) == PCAPFILE_NO_PLACE && count == 0 && known == 1);
    EXPECT(cuts[0].at.offset == 9 && places[0] == 9);
    EXPECT(pcapfile_cut_blocks(&all, cuts, 2, &count, places, 2, &known, &error) == PCAPFILE_OK && count == 2 && known == 1);
    EXPECT(cuts[0].at.offset == 28 && cuts[0].at.before == 0 && cuts[0].header == 0 && cuts[0].interfaces == 0);
    EXPECT(cuts[1].at.offset == 68 && cuts[1].at.before == 1 && cuts[1].header == 0 && cuts[1].first == 0 && cuts[1].interfaces == 1);
    EXPECT(places[0] == 28 && places[1] == 9 && cuts[2].at.offset == 9 && cuts[2].interfaces == 9);
    all.len = 11;
    places[0] = 9;
    EXPECT(pcapfile_cut_blocks(&all, cuts, 2, &count, places, 2, &known, &error) == PCAPFILE_INCOMPLETE && error.missing == 1);
    EXPECT(count == 0 && known == 0 && cuts[1].at.offset == 68 && places[0] == 9);
    all = (pcapfile_bytes){ (const uint8_t *)"\0\0\0\1\0\0\0\x14\0\1\0\0\0\0\0\0\0\0\0\x14", 20 };
    EXPECT(pcapfile_cut_blocks(&all, cuts, 2, &count, places, 2, &known, &error) == PCAPFILE_INVALID && count == 0);
    EXPECT(error.rule == PCAPFILE_RULE_SECTION_MISSING);
}

/* Checks the interface's 40 bytes and the packet's 36 in parts of at least a given number of bytes. */
static void block_cuts_at_least(void) {
    pcapfile_bytes all = { blocks, sizeof blocks };
    pcapfile_ng_cut cuts[4] = { PCAPFILE_NG_CUT_INIT };
    pcapfile_error error = PCAPFILE_ERROR_INIT;
    size_t places[2] = { 9, 9 }, count = 9, known = 9;
    EXPECT(pcapfile_cut_blocks_at_least(&all, 40, cuts, 2, &count, places, 2, &known, &error) == PCAPFILE_NO_PLACE && known == 0);
    EXPECT(pcapfile_cut_blocks_at_least(&all, 40, cuts, 3, &count, places, 0, &known, &error) == PCAPFILE_NO_PLACE && known == 1);
    EXPECT(count == 0 && places[0] == 9 && cuts[0].at.offset == 0);
    EXPECT(pcapfile_cut_blocks_at_least(&all, 40, cuts, 3, &count, places, 2, &known, &error) == PCAPFILE_OK && count == 2);
    EXPECT(cuts[0].at.offset == 28 && cuts[1].at.offset == 68 && cuts[1].at.before == 1 && cuts[1].interfaces == 1 && known == 1);
    EXPECT(pcapfile_cut_blocks_at_least(&all, 41, cuts, 3, &count, places, 2, &known, &error) == PCAPFILE_OK && count == 1 && places[0] == 28);
}

static void ng_batches(void) {
    pcapfile_section section = PCAPFILE_SECTION_INIT;
    pcapfile_bytes left = { blocks, sizeof blocks }, before = left;
    pcapfile_block block = PCAPFILE_BLOCK_INIT;
    pcapfile_ng_packet packets[2] = { PCAPFILE_NG_PACKET_INIT, PCAPFILE_NG_PACKET_INIT };
    pcapfile_error error = PCAPFILE_ERROR_INIT;
    size_t taken = 9;
    EXPECT(pcapfile_take_ng_packets(&section, &left, packets, 2, &taken, &error) == PCAPFILE_INVALID && taken == 0);
    EXPECT(error.rule == PCAPFILE_RULE_SECTION_MAGIC && !memcmp(&left, &before, sizeof left));
    EXPECT(pcapfile_take_block(&section, &left, &block, &error) == PCAPFILE_OK);
    EXPECT(pcapfile_take_ng_packets(&section, &left, packets, 2, &taken, &error) == PCAPFILE_NOTHING && taken == 0);
    EXPECT(left.ptr == blocks + 28 && packets[0].type == 0);
    EXPECT(pcapfile_take_block(&section, &left, &block, &error) == PCAPFILE_OK && section.interfaces == 1);
    EXPECT(pcapfile_take_ng_packets(&section, &left, packets, 0, &taken, &error) == PCAPFILE_OK && left.len == 36);
    left.len = 35;
    EXPECT(pcapfile_take_ng_packets(&section, &left, packets, 2, &taken, &error) == PCAPFILE_INCOMPLETE && taken == 0);
    EXPECT(error.missing == 1 && left.ptr == blocks + 68 && left.len == 35 && packets[0].type == 0);
    left.len = 36;
    EXPECT(pcapfile_take_ng_packets(&section, &left, packets, 2, &taken, &error) == PCAPFILE_OK && taken == 1 && left.len == 0);
    EXPECT(packets[0].type == 6 && packets[0].interface_id == 0 && packets[0].orig_len == 5 && packets[0].timestamp == 7);
    EXPECT(packets[0].bytes.ptr == blocks + 96 && packets[0].bytes.len == 3 && packets[1].type == 0);
    EXPECT(pcapfile_take_ng_packets(&section, &left, packets, 2, &taken, &error) == PCAPFILE_OK && taken == 0);
    EXPECT(section.interfaces == 1 && section.magic_number == 0x4d3c2b1a);
}

static void ng_rows(void) {
    static const uint8_t simple[] = { 3, 0, 0, 0, 20, 0, 0, 0, 2, 0, 0, 0, 'a', 'b', 0, 0, 20, 0, 0, 0 };
    uint8_t bytes[36 + 20];
    pcapfile_section section = PCAPFILE_SECTION_INIT;
    pcapfile_bytes left = { blocks, sizeof blocks }, before = left;
    pcapfile_block block = PCAPFILE_BLOCK_INIT;
    pcapfile_ng_row rows[3] = { PCAPFILE_NG_ROW_INIT, PCAPFILE_NG_ROW_INIT, PCAPFILE_NG_ROW_INIT };
    pcapfile_error error = PCAPFILE_ERROR_INIT;
    size_t taken = 9;
    EXPECT(pcapfile_take_ng_rows(&section, &left, rows, 3, &taken, &error) == PCAPFILE_INVALID && taken == 0);
    EXPECT(error.rule == PCAPFILE_RULE_SECTION_MAGIC && !memcmp(&left, &before, sizeof left));
    EXPECT(pcapfile_take_block(&section, &left, &block, &error) == PCAPFILE_OK);
    EXPECT(pcapfile_take_ng_rows(&section, &left, rows, 3, &taken, &error) == PCAPFILE_NOTHING && taken == 0);
    EXPECT(pcapfile_take_block(&section, &left, &block, &error) == PCAPFILE_OK && left.len == 36);
    memcpy(bytes, left.ptr, 36);
    memcpy(bytes + 36, simple, 20);
    left = (pcapfile_bytes){ bytes, sizeof bytes };
    EXPECT(pcapfile_take_ng_rows(&section, &left, rows, 1, &taken, &error) == PCAPFILE_OK && taken == 1 && left.len == 20);
    EXPECT(rows[0].type == 6 && rows[0].interface_id == 0 && rows[0].orig_len == 5 && rows[0].timestamp == 7);
    EXPECT(rows[0].len == 3 && rows[0].offset == 28 && rows[1].type == 0);
    left = (pcapfile_bytes){ bytes, sizeof bytes };
    EXPECT(pcapfile_take_ng_rows(&section, &left, rows, 3, &taken, &error) == PCAPFILE_OK && taken == 2 && left.len == 0);
    EXPECT(rows[1].type == 3 && rows[1].timestamp == 0 && rows[1].len == 4 && rows[1].orig_len == 2 && rows[1].offset == 48);
    left.len = 19;
    left.ptr = bytes + 36;
    EXPECT(pcapfile_take_ng_rows(&section, &left, rows, 3, &taken, &error) == PCAPFILE_INCOMPLETE && taken == 0 && error.missing == 1);
}

/* Checks two enhanced packets of no bytes, with a block of an unknown type before each and after them. Then comes a packet whose body
 * states 1 byte and has none. */
static void passed_blocks(void) {
    static const uint8_t unknown[] = { 99, 0, 0, 0, 12, 0, 0, 0, 12, 0, 0, 0 };
    uint8_t packet[32] = { 6, 0, 0, 0, 32, [28] = 32 }, bytes[3 * 12 + 3 * 32];
    pcapfile_section section = { 0x4d3c2b1a, 1, 0, 1 };
    pcapfile_ng_packet packets[4] = { PCAPFILE_NG_PACKET_INIT, PCAPFILE_NG_PACKET_INIT, PCAPFILE_NG_PACKET_INIT, PCAPFILE_NG_PACKET_INIT };
    pcapfile_bytes left = { bytes, sizeof bytes };
    pcapfile_block block = PCAPFILE_BLOCK_INIT;
    pcapfile_error error = PCAPFILE_ERROR_INIT;
    size_t taken = 9;
    for (uint8_t i = 0; i < 3; i++) {
        packet[12] = i;
        packet[20] = packet[24] = i == 2;
        memcpy(bytes + 44 * i, unknown, 12);
        memcpy(bytes + 44 * i + 12, packet, 32);
    }
    EXPECT(pcapfile_take_ng_packets(&section, &left, packets, 1, &taken, &error) == PCAPFILE_OK && taken == 1);
    EXPECT(left.len == sizeof bytes - 44 && packets[0].type == 6 && packets[1].type == 0);
    left = (pcapfile_bytes){ bytes, sizeof bytes };
    EXPECT(pcapfile_take_ng_packets(&section, &left, packets, 4, &taken, &error) == PCAPFILE_INVALID && taken == 2);
    EXPECT(left.len == 32 && packets[1].type == 6 && packets[2].type == 0 && error.rule > 0);
    EXPECT(pcapfile_take_block(&section, &left, &block, &error) == PCAPFILE_OK && left.len == 0);
}

/* Checks a PcapNg capture of which the buffer holds all at first. */
static void ng_pushes(void) {
    pcapfile_push push = { PCAPFILE_HEADER_INIT, 0, sizeof blocks };
    pcapfile_section section = PCAPFILE_SECTION_INIT;
    pcapfile_block block = PCAPFILE_BLOCK_INIT;
    pcapfile_interface places[2] = { PCAPFILE_INTERFACE_INIT, PCAPFILE_INTERFACE_INIT };
    pcapfile_any_packet packet = PCAPFILE_ANY_PACKET_INIT;
    pcapfile_error error = { 9, 9 };
    EXPECT(pcapfile_push_ng_next(&push, &section, blocks, sizeof blocks, places, 0, &packet, &error) == PCAPFILE_NO_PLACE);
    EXPECT(push.begin == 28 && section.magic_number == 0x4d3c2b1a && section.interfaces == 0 && error.rule == 9);
    EXPECT(pcapfile_push_ng_next(&push, &section, blocks, sizeof blocks, places, 1, &packet, &error) == PCAPFILE_OK);
    EXPECT(push.begin == sizeof blocks && push.end == sizeof blocks && section.interfaces == 1 && error.rule == 9);
    EXPECT(packet.has_interface == 1 && packet.interface_id == 0 && packet.link == PCAPFILE_LINK_LINUX_SLL);
    EXPECT(packet.has_time == 1 && packet.time.seconds == 2 && packet.time.nanoseconds == 7 && packet.orig_len == 5);
    EXPECT(packet.bytes.ptr == blocks + sizeof blocks - 8 && packet.bytes.len == 3);
    EXPECT(pcapfile_push_ng_next(&push, &section, blocks, sizeof blocks, places, 1, &packet, &error) == PCAPFILE_INCOMPLETE);
    EXPECT(error.rule == 0 && error.missing == 12 && packet.orig_len == 5);
    EXPECT(pcapfile_push_ng_next(&push, &section, blocks, sizeof blocks, places, 0, &packet, &error) == PCAPFILE_BAD_CALL);
    EXPECT(pcapfile_push_ng_next(&push, &section, blocks, 4, places, 1, &packet, &error) == PCAPFILE_BAD_CALL);
    EXPECT(pcapfile_push_block(&push, &section, blocks, 4, &block, &error) == PCAPFILE_BAD_CALL && block.type == 0);
    EXPECT(pcapfile_push_block(&push, &section, blocks, sizeof blocks, &block, &error) == PCAPFILE_INCOMPLETE);
    push.begin = 28;
    EXPECT(pcapfile_push_block(&push, &section, blocks, sizeof blocks, &block, &error) == PCAPFILE_OK);
    EXPECT(block.type == PCAPFILE_BLOCK_INTERFACE && section.interfaces == 2 && push.begin == sizeof blocks - 36);
    section.magic_number = 7;
    EXPECT(pcapfile_push_ng_next(&push, &section, blocks, sizeof blocks, places, 2, &packet, &error) == PCAPFILE_INVALID);
    EXPECT(error.rule == PCAPFILE_RULE_SECTION_MAGIC && push.begin == sizeof blocks - 36 && section.interfaces == 2);
}

static const uint8_t option_bytes[] = { 1, 0, 3, 0, 'h', 'o', 'w', 9, 0, 0, 5, 0, 1, 0, 9, 0 };

static void options(void) {
    pcapfile_section section = PCAPFILE_SECTION_LITTLE_ENDIAN, none = PCAPFILE_SECTION_INIT;
    pcapfile_block block = { PCAPFILE_BLOCK_STATISTICS, { option_bytes, 12 } };
    pcapfile_bytes left = { option_bytes, sizeof option_bytes };
    pcapfile_option option = PCAPFILE_OPTION_INIT;
    pcapfile_error error = { 5, 6 };
    EXPECT(pcapfile_take_option(&none, &left, &option, &error) == PCAPFILE_INVALID && error.rule == PCAPFILE_RULE_SECTION_MAGIC);
    EXPECT(pcapfile_options(&none, &block, &left, &error) == PCAPFILE_INVALID && error.rule == PCAPFILE_RULE_SECTION_MAGIC);
    EXPECT(pcapfile_take_option(&section, &left, &option, &error) == PCAPFILE_OK);
    EXPECT(option.code == 1 && option.value.ptr == option_bytes + 4 && option.value.len == 3 && left.ptr == option_bytes + 8);
    /* The call finds the mark each time, whatever follows it. */
    for (int i = 0; i < 2; i++) EXPECT(pcapfile_take_option(&section, &left, &option, &error) == PCAPFILE_NOTHING);
    EXPECT(left.ptr == option_bytes + 8 && left.len == 8 && option.code == 1);
    left = (pcapfile_bytes){ option_bytes + 12, 4 };
    EXPECT(pcapfile_take_option(&section, &left, &option, &error) == PCAPFILE_INVALID && error.rule == PCAPFILE_RULE_OPTION_CUT);
    left.len = 3;
    EXPECT(pcapfile_take_option(&section, &left, &option, &error) == PCAPFILE_INVALID && error.rule == PCAPFILE_RULE_OPTION_TOO_SHORT);
    EXPECT(left.ptr == option_bytes + 12 && left.len == 3 && option.value.len == 3);
    EXPECT(pcapfile_options(&section, &block, &left, &error) == PCAPFILE_OK && left.len == 0);
    EXPECT(pcapfile_take_option(&section, &left, &option, &error) == PCAPFILE_NOTHING);
    block.body.len = 11;
    EXPECT(pcapfile_options(&section, &block, &left, &error) == PCAPFILE_INVALID && error.rule == PCAPFILE_RULE_STATISTICS_TOO_SHORT);
    block.type = PCAPFILE_BLOCK_SIMPLE_PACKET;
    error.rule = 77;
    EXPECT(pcapfile_options(&section, &block, &left, &error) == PCAPFILE_NOTHING && error.rule == 77);
}

static void names(void) {
    static const uint8_t bytes[] = { 1, 0, 7, 0, 10, 0, 0, 1, 'm', 'e', 0, 0, 0, 0, 0, 0 };
    pcapfile_section section = PCAPFILE_SECTION_LITTLE_ENDIAN, none = PCAPFILE_SECTION_INIT;
    pcapfile_block block = { PCAPFILE_BLOCK_NAMES, { bytes, sizeof bytes } };
    pcapfile_bytes left = block.body, name = PCAPFILE_NO_BYTES;
    pcapfile_record record = PCAPFILE_RECORD_INIT;
    pcapfile_error error = PCAPFILE_ERROR_INIT;
    EXPECT(pcapfile_take_record(&none, &left, &record, &error) == PCAPFILE_INVALID && error.rule == PCAPFILE_RULE_SECTION_MAGIC);
    EXPECT(pcapfile_take_record(&section, &left, &record, &error) == PCAPFILE_OK && left.len == 4);
    EXPECT(record.type == 1 && record.address.ptr == bytes + 4 && record.address.len == 4 && record.names.ptr == bytes + 8);
    for (int i = 0; i < 2; i++) EXPECT(pcapfile_take_record(&section, &left, &record, &error) == PCAPFILE_NOTHING && left.len == 4);
    EXPECT(pcapfile_take_name(&record.names, &name, &error) == PCAPFILE_OK && name.ptr == bytes + 8 && name.len == 2);
    EXPECT(pcapfile_take_name(&record.names, &name, &error) == PCAPFILE_NOTHING && name.len == 2);
    EXPECT(pcapfile_options(&section, &block, &left, &error) == PCAPFILE_OK && left.len == 0);
    left = (pcapfile_bytes){ bytes + 8, 2 };
    EXPECT(pcapfile_take_name(&left, &name, &error) == PCAPFILE_INVALID && error.rule == PCAPFILE_RULE_NAME_UNENDED && left.len == 2);
    block.body.len = 12;
    EXPECT(pcapfile_options(&section, &block, &left, &error) == PCAPFILE_BAD_VALUE && left.len == 2);
}

static void either_format(void) {
    pcapfile_capture walk = PCAPFILE_CAPTURE_INIT;
    pcapfile_bytes left = { capture, sizeof capture };
    pcapfile_interface interfaces[1] = { PCAPFILE_INTERFACE_INIT };
    pcapfile_any_packet packet = PCAPFILE_ANY_PACKET_INIT;
    pcapfile_error error = { 5, 6 };
    EXPECT(pcapfile_take_any(&walk, &left, interfaces, 1, &packet, &error) == PCAPFILE_OK && error.missing == 6);
    EXPECT(packet.link == 1 && packet.has_interface == 1 && packet.has_time == 1 && packet.time.nanoseconds == 8000);
    EXPECT(packet.bytes.ptr == capture + 40 && packet.orig_len == 5 && walk.header.snaplen == 65535);
    for (int i = 0; i < 2; i++) EXPECT(pcapfile_take_any(&walk, &left, interfaces, 1, &packet, &error) == PCAPFILE_NOTHING);
    EXPECT(error.rule == 5 && error.missing == 6 && left.len == 0);
    walk = (pcapfile_capture)PCAPFILE_CAPTURE_INIT;
    EXPECT(pcapfile_take_any(&walk, &left, interfaces, 1, &packet, &error) == PCAPFILE_INCOMPLETE && error.missing == 24);
    walk.section = (pcapfile_section)PCAPFILE_SECTION_LITTLE_ENDIAN;
    EXPECT(pcapfile_take_any(&walk, &left, interfaces, 1, &packet, &error) == PCAPFILE_NOTHING);
    walk.section.interfaces = 2;
    EXPECT(pcapfile_take_any(&walk, &left, interfaces, 1, &packet, &error) == PCAPFILE_BAD_CALL);
    walk.section = (pcapfile_section){ 7, 1, 0, 0 };
    EXPECT(pcapfile_take_any(&walk, &left, interfaces, 1, &packet, &error) == PCAPFILE_INVALID);
    EXPECT(error.rule == PCAPFILE_RULE_SECTION_MAGIC && packet.orig_len == 5);
}

static void times(void) {
    pcapfile_interface interface = { 1, 0, 10, 9, 2 };
    pcapfile_time time = PCAPFILE_TIME_INIT;
    EXPECT(pcapfile_time_of(&interface, 7, &time) == PCAPFILE_OK && time.seconds == 2 && time.nanoseconds == 7);
    interface = (pcapfile_interface){ 1, 0, 2, 1, -5 };
    EXPECT(pcapfile_time_of(&interface, 7, &time) == PCAPFILE_OK && time.seconds == -2 && time.nanoseconds == 500000000);
    interface = (pcapfile_interface){ 1, 0, 10, 0, INT64_MAX };
    EXPECT(pcapfile_time_of(&interface, 1, &time) == PCAPFILE_NOTHING && time.seconds == -2 && time.nanoseconds == 500000000);
    EXPECT(pcapfile_time_of(&interface, 0, &time) == PCAPFILE_OK && time.seconds == INT64_MAX && time.nanoseconds == 0);
}

/* Checks a section, an interface and a packet, each at its size and at a byte less. */
static void puts_blocks(void) {
    uint8_t room[160], before[160];
    pcapfile_section section = PCAPFILE_SECTION_LITTLE_ENDIAN, opened = section;
    pcapfile_interface interface = { PCAPFILE_LINK_ETHERNET, 65535, 10, 9, 0 };
    pcapfile_ng_packet packet = { 0, 0, 98, 1335958313152630000, { (const uint8_t *)"abcde", 5 } };
    pcapfile_error error = PCAPFILE_ERROR_INIT;
    size_t written = 99;
    memset(room, 0xee, sizeof room);
    memcpy(before, room, sizeof room);
    EXPECT(pcapfile_put_section(&section, room, 0, &written, &error) == PCAPFILE_NO_ROOM && error.missing == 28);
    EXPECT(pcapfile_put_section(&section, room, 27, &written, &error) == PCAPFILE_NO_ROOM && error.missing == 1 && error.rule == 0);
    EXPECT(written == 99 && !memcmp(&section, &opened, sizeof section) && !memcmp(room, before, sizeof room));
    section.interfaces = 7;
    EXPECT(pcapfile_put_section(&section, room, 28, &written, &error) == PCAPFILE_OK && written == 28);
    EXPECT(!memcmp(&section, &opened, sizeof section) && !memcmp(room + 28, before + 28, sizeof room - 28));
    EXPECT(!memcmp(room, "\x0a\x0d\x0d\x0a\x1c\0\0\0\x4d\x3c\x2b\x1a\1\0\0\0\xff\xff\xff\xff\xff\xff\xff\xff\x1c\0\0\0", 28));
    EXPECT(pcapfile_put_interface(&section, &interface, room, 31, &written, &error) == PCAPFILE_NO_ROOM && error.missing == 1);
    EXPECT(section.interfaces == 0 && written == 28);
    EXPECT(pcapfile_put_interface(&section, &interface, room + 28, 32, &written, &error) == PCAPFILE_OK && written == 32);
    EXPECT(section.interfaces == 1 && !memcmp(room + 60, before + 60, sizeof room - 60));
    EXPECT(!memcmp(room + 28, "\1\0\0\0\x20\0\0\0\1\0\0\0\xff\xff\0\0\x09\0\1\0\x09\0\0\0\0\0\0\0\x20\0\0\0", 32));
    interface.ts_offset = -1;
    EXPECT(pcapfile_put_interface(&section, &interface, room, 0, &written, &error) == PCAPFILE_NO_ROOM && error.missing == 44);
    EXPECT(pcapfile_put_ng_packet(&section, &packet, room + 60, 39, &written, &error) == PCAPFILE_NO_ROOM && error.missing == 1);
    EXPECT(written == 32 && !memcmp(room + 60, before + 60, sizeof room - 60));
    EXPECT(pcapfile_put_ng_packet(&section, &packet, room + 60, 100, &written, &error) == PCAPFILE_OK && written == 40);
    EXPECT(!memcmp(room + 100, before + 100, sizeof room - 100));
    EXPECT(!memcmp(room + 60, "\6\0\0\0\x28\0\0\0\0\0\0\0\x01\x47\x8a\x12\xf0\x4c\x31\xf2\5\0\0\0\x62\0\0\0abcde\0\0\0\x28\0\0\0", 40));
}

/* Checks that a refused call leaves room, section and count as they were. */
static void refused_puts(void) {
    uint8_t room[64], before[64];
    pcapfile_section section = { 7, 1, 0, 3 }, other = section;
    pcapfile_interface interface = PCAPFILE_INTERFACE_INIT;
    pcapfile_ng_packet packet = PCAPFILE_NG_PACKET_INIT;
    pcapfile_error error = PCAPFILE_ERROR_INIT;
    size_t written = 99;
    memset(room, 0xee, sizeof room);
    memcpy(before, room, sizeof room);
    EXPECT(pcapfile_put_section(&section, room, sizeof room, &written, &error) == PCAPFILE_INVALID);
    EXPECT(error.rule == PCAPFILE_RULE_SECTION_MAGIC && error.missing == 0);
    EXPECT(pcapfile_put_interface(&section, &interface, room, sizeof room, &written, &error) == PCAPFILE_INVALID);
    EXPECT(pcapfile_put_ng_packet(&section, &packet, room, sizeof room, &written, &error) == PCAPFILE_INVALID);
    EXPECT(error.rule == PCAPFILE_RULE_SECTION_MAGIC && !memcmp(&section, &other, sizeof section));
    section.magic_number = other.magic_number = 0x1a2b3c4d;
    packet.interface_id = 3;
    EXPECT(pcapfile_put_ng_packet(&section, &packet, room, sizeof room, &written, &error) == PCAPFILE_INVALID);
    EXPECT(error.rule == PCAPFILE_RULE_INTERFACE_MISSING);
    packet.interface_id = 2;
    packet.bytes.len = 4294967261; /* the call refuses before it reads any of them */
    EXPECT(pcapfile_put_ng_packet(&section, &packet, room, sizeof room, &written, &error) == PCAPFILE_INVALID);
    EXPECT(error.rule == PCAPFILE_RULE_BLOCK_TOO_LONG);
    interface.link = 65536;
    EXPECT(pcapfile_put_interface(&section, &interface, room, sizeof room, &written, &error) == PCAPFILE_INVALID);
    EXPECT(error.rule == PCAPFILE_RULE_LINK_TOO_LARGE);
    interface.link = 65535;
    interface.ts_exponent = 128;
    EXPECT(pcapfile_put_interface(&section, &interface, room, sizeof room, &written, &error) == PCAPFILE_INVALID);
    EXPECT(error.rule == PCAPFILE_RULE_INTERFACE_RESOLUTION_LENGTH);
    interface.ts_exponent = 127;
    section.interfaces = other.interfaces = UINT32_MAX;
    EXPECT(pcapfile_put_interface(&section, &interface, room, sizeof room, &written, &error) == PCAPFILE_INVALID);
    EXPECT(error.rule == PCAPFILE_RULE_INTERFACES_FULL);
    EXPECT(written == 99 && !memcmp(&section, &other, sizeof section) && !memcmp(room, before, sizeof room));
}

static int is_text(pcapfile_bytes bytes, const char *text) {
    return bytes.len == strlen(text) && !memcmp(bytes.ptr, text, bytes.len);
}

static void rules(void) {
    pcapfile_bytes name = PCAPFILE_NO_BYTES, text = PCAPFILE_NO_BYTES;
    int found = 0;
    for (uint32_t rule = 0; rule < 3000; rule++) {
        pcapfile_rule_name(rule, &name);
        pcapfile_rule_text(rule, &text);
        EXPECT((name.len > 0) == (text.len > 0));
        found += name.len > 0;
    }
    EXPECT(found == 44);
    pcapfile_rule_name(PCAPFILE_RULE_ORIGINAL_TOO_LONG, &name);
    pcapfile_rule_text(PCAPFILE_RULE_ORIGINAL_TOO_LONG, &text);
    EXPECT(is_text(name, "OriginalTooLong") && is_text(text, "PacketHeader orig_len > 0x40000"));
    pcapfile_rule_name(1915, &name);
    EXPECT(is_text(name, "NameIpv6Length"));
    pcapfile_rule_name(PCAPFILE_RULE_INTERFACE_MISSING, &name);
    pcapfile_rule_text(PCAPFILE_RULE_INTERFACE_MISSING, &text);
    EXPECT(is_text(name, "InterfaceMissing") && is_text(text, "Block: interface_id is not described"));
}

static void version(void) {
    pcapfile_bytes version = PCAPFILE_NO_BYTES;
    pcapfile_version(&version);
    EXPECT(is_text(version, PCAPFILE_VERSION));
}

int main(void) {
    version();
    headers();
    links();
    packets();
    packets_as_is();
    packets_as_is_below_a_limit();
    blocks_as_is();
    resyncs();
    judges();
    judges_a_long_packet();
    skips_to_packets();
    skips_in_windows();
    skips_to_blocks();
    batches();
    rows();
    cuts();
    cuts_at_least();
    writes();
    pushes();
    refused_pushes();
    first_blocks();
    bodies();
    ng_batches();
    ng_rows();
    block_cuts();
    block_cuts_at_least();
    passed_blocks();
    ng_pushes();
    options();
    names();
    either_format();
    times();
    puts_blocks();
    refused_puts();
    rules();
    return failures > 0;
}
