/* Copies a PcapNg capture block by block through the library's C header, with all options: `copies` reads it from its input, and
 * writes the copy. A section header, an interface and an enhanced packet go through their structs and their options. The options of
 * another block are written again behind its fields, and a body without options is written as it is.
 *
 * The copy has the same bytes if each interface begins with its if_tsresol, and with its if_tsoffset after it if that is not 0, and if
 * no section has a length. Each block is written into a buffer of exactly its length, which the first call says. */
#include "pcapfile.h"

#include <stdio.h>
#include <stdlib.h>
#include <string.h>

enum { LONGEST = 1 << 24, MOST_OPTIONS = 1 << 12 };

static pcapfile_option options[MOST_OPTIONS];
static size_t count;

/* Takes the options of a block into `options`, without those of an interface's clock. Returns the status at their end. */
static int32_t take_options(const pcapfile_section *section, const pcapfile_block *block, pcapfile_bytes *list) {
    pcapfile_option option = PCAPFILE_OPTION_INIT;
    pcapfile_error error = PCAPFILE_ERROR_INIT;
    int32_t status = pcapfile_options(section, block, list, &error);
    pcapfile_bytes left = *list;
    count = 0;
    while (status == PCAPFILE_OK && count < MOST_OPTIONS) {
        status = pcapfile_take_option(section, &left, &option, &error);
        int is_clock = block->type == PCAPFILE_BLOCK_INTERFACE && (option.code == 9 || option.code == 14);
        if (status == PCAPFILE_OK && !is_clock) options[count++] = option;
    }
    return status;
}

/* Writes a block of the capture, in whose section it is, into the room. */
static int32_t put(const pcapfile_section *in, pcapfile_section *out, const pcapfile_block *block, uint8_t *room, size_t room_len,
                   size_t *written, pcapfile_error *error) {
    static uint8_t body[LONGEST];
    pcapfile_interface interface = PCAPFILE_INTERFACE_INIT;
    pcapfile_ng_packet packet = PCAPFILE_NG_PACKET_INIT;
    pcapfile_bytes list = PCAPFILE_NO_BYTES;
    int32_t status = take_options(in, block, &list);
    if (status != PCAPFILE_NOTHING) return PCAPFILE_BAD_CALL;
    if (block->type == PCAPFILE_BLOCK_SECTION) {
        *out = *in;
        return pcapfile_put_section_with(out, options, count, room, room_len, written, error);
    }
    if (block->type == PCAPFILE_BLOCK_INTERFACE) {
        status = pcapfile_read_interface(in, block, &interface, error);
        if (status != PCAPFILE_OK) return status;
        return pcapfile_put_interface_with(out, &interface, options, count, room, room_len, written, error);
    }
    if (block->type == PCAPFILE_BLOCK_ENHANCED_PACKET) {
        status = pcapfile_read_packet(in, block, &packet, error);
        if (status != PCAPFILE_OK) return status;
        return pcapfile_put_ng_packet_with(out, &packet, options, count, room, room_len, written, error);
    }
    if (list.len == 0) return pcapfile_put_block(out, block, room, room_len, written, error);
    /* The fields before the options, and the options. */
    size_t fields = block->body.len - list.len, behind = 0;
    if (block->body.len > LONGEST) return PCAPFILE_BAD_CALL;
    memcpy(body, block->body.ptr, fields);
    status = pcapfile_put_options(out, options, count, body + fields, LONGEST - fields, &behind, error);
    if (status != PCAPFILE_OK) return status;
    pcapfile_block made = { block->type, { body, fields + behind } };
    return pcapfile_put_block(out, &made, room, room_len, written, error);
}

/* Writes the block to the output, in a buffer of exactly its length. */
static int32_t copy(const pcapfile_section *in, pcapfile_section *out, const pcapfile_block *block) {
    pcapfile_error error = PCAPFILE_ERROR_INIT;
    pcapfile_section before = *out;
    uint8_t none[1] = { 7 };
    size_t written = 0;
    int32_t status = put(in, out, block, none, 0, &written, &error);
    if (status != PCAPFILE_NO_ROOM || written != 0 || none[0] != 7) return status ? status : PCAPFILE_BAD_CALL;
    if (block->type != PCAPFILE_BLOCK_SECTION && memcmp(&before, out, sizeof before)) return PCAPFILE_BAD_CALL;
    size_t len = error.missing;
    uint8_t *room = malloc(len);
    if (!room) return PCAPFILE_NO_MEMORY;
    status = put(in, out, block, room, len, &written, &error);
    if (status == PCAPFILE_OK && (written != len || fwrite(room, 1, len, stdout) != len)) status = PCAPFILE_BAD_CALL;
    free(room);
    return status;
}

/* Tries what the calls refuse in this section, which has an interface. Returns whether each gives its status and writes nothing. */
static int refuses(pcapfile_section *section) {
    static const uint8_t bytes[65536];
    static const struct { pcapfile_option option; int is_of_interfaces; } wrong[] = {
        { { 0, { bytes, 0 } }, 0 }, { { 1, { bytes, 65536 } }, 0 }, { { 9, { bytes, 1 } }, 1 }, { { 14, { bytes, 8 } }, 1 },
    };
    static const uint32_t types[] = { PCAPFILE_BLOCK_SECTION, PCAPFILE_BLOCK_INTERFACE };
    static uint8_t room[1 << 18];
    pcapfile_interface interface = { PCAPFILE_LINK_ETHERNET, 0, 10, 9, 0 };
    pcapfile_ng_packet packet = PCAPFILE_NG_PACKET_INIT;
    pcapfile_error error = PCAPFILE_ERROR_INIT;
    pcapfile_section before = *section, none = PCAPFILE_SECTION_INIT;
    size_t written = 0, len = sizeof room;
    int good = 1;
    for (size_t i = 0; i < sizeof wrong / sizeof *wrong; i++) {
        pcapfile_option two[2] = { { 1, PCAPFILE_NO_BYTES }, wrong[i].option };
        int32_t other = wrong[i].is_of_interfaces ? PCAPFILE_OK : PCAPFILE_BAD_CALL;
        good &= pcapfile_put_interface_with(section, &interface, two, 2, room, len, &written, &error) == PCAPFILE_BAD_CALL;
        good &= written == 0 && room[0] == 0 && !memcmp(&before, section, sizeof before);
        good &= pcapfile_put_ng_packet_with(section, &packet, two, 2, room, len, &written, &error) == other;
        good &= pcapfile_put_options(section, two, 2, room, len, &written, &error) == other;
        memset(room, 0, sizeof room);
        written = 0;
    }
    for (size_t i = 0; i < sizeof types / sizeof *types; i++) {
        pcapfile_block block = { types[i], { bytes, 16 } };
        good &= pcapfile_put_block(section, &block, room, len, &written, &error) == PCAPFILE_BAD_CALL;
        good &= written == 0 && room[0] == 0;
    }
    good &= pcapfile_put_options(&none, options, 0, room, len, &written, &error) == PCAPFILE_INVALID && error.rule == 6;
    packet.interface_id = section->interfaces;
    good &= pcapfile_put_ng_packet_with(section, &packet, options, 0, room, len, &written, &error) == PCAPFILE_INVALID;
    good &= error.rule == PCAPFILE_RULE_INTERFACE_MISSING && written == 0;
    return good;
}

int main(void) {
    static uint8_t bytes[LONGEST];
    pcapfile_bytes left = { bytes, fread(bytes, 1, sizeof bytes, stdin) };
    pcapfile_section in = PCAPFILE_SECTION_INIT, out = PCAPFILE_SECTION_INIT;
    pcapfile_block block = PCAPFILE_BLOCK_INIT;
    pcapfile_error error = PCAPFILE_ERROR_INIT;
    int32_t status = PCAPFILE_OK;
    int has_refused = 0;
    while (status == PCAPFILE_OK && left.len > 0) {
        status = pcapfile_take_block(&in, &left, &block, &error);
        if (status == PCAPFILE_OK) status = copy(&in, &out, &block);
        if (status == PCAPFILE_OK && out.interfaces > 0 && !has_refused) {
            if (!refuses(&out)) return 3;
            has_refused = 1;
        }
    }
    return status != PCAPFILE_OK;
}
