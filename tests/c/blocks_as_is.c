/* blocks_as_is [-c PIECE ROOM] FILE: reads the blocks of a PcapNg capture leniently, in memory, or in pieces of at most PIECE bytes,
 * into a buffer that is ROOM bytes long at first. It prints a line `INDEX TYPE` for each block, and after it
 *
 *   flaw NAME CODE                                  for each flaw of its body
 *   interface LINK SNAPLEN BASE EXPONENT OFFSET     for an interface whose body has room for its head
 *   packet INTERFACE TIME STORED/ORIGINAL DATA      for an enhanced packet whose body has room for it, with its time by its interface
 *
 * and at the end `refused REASON` if bytes are left. The strict calls take each block too. They must refuse it by its first flaw, or
 * take it if it has none. In memory the capture ends where its block of memory does.
 */
#include "file.h"
#include "pieces.h"

#include <inttypes.h>
#include <string.h>

enum { USAGE = 2, NO_FILE = 4, PLACES = 3, INTERFACES = 4096 };

static void expect(int is_so, const char *what) {
    if (is_so) return;
    printf("not so: %s\n", what);
    exit(1);
}

static void print_flaw(const pcapfile_block_flaw *flaw) {
    pcapfile_bytes name = PCAPFILE_NO_BYTES;
    if (flaw->status == PCAPFILE_INVALID) pcapfile_rule_name(flaw->rule, &name);
    else name = (pcapfile_bytes){ (const uint8_t *)(flaw->status == PCAPFILE_NOT_UTF8 ? "NotUtf8" : "TooShort"), 7 + (flaw->status != PCAPFILE_NOT_UTF8) };
    printf("flaw %.*s %" PRIu32 "\n", (int)name.len, (const char *)name.ptr, flaw->code);
}

/* Returns whether a call that reads strictly answers as these flaws require. */
static int is_strict(int32_t status, const pcapfile_error *error, size_t count, const pcapfile_block_flaw *first) {
    if (count == 0) return status == PCAPFILE_OK;
    return status == first->status && (status == PCAPFILE_INVALID ? error->rule : 0) == first->rule;
}

static void compare(pcapfile_section before, pcapfile_bytes left, const pcapfile_section *after, pcapfile_bytes rest,
                    const pcapfile_block_as_is *block, const pcapfile_block_flaw *flaws) {
    pcapfile_block strict = PCAPFILE_BLOCK_INIT;
    pcapfile_ng_packet packet = PCAPFILE_NG_PACKET_INIT;
    pcapfile_error error = PCAPFILE_ERROR_INIT;
    int is_packet = block->type == PCAPFILE_BLOCK_ENHANCED_PACKET;
    int32_t status = pcapfile_take_block(&before, &left, &strict, &error);
    expect(is_strict(status, &error, is_packet ? 0 : block->flaws, flaws), "the strict call takes the block, or refuses it by its first flaw");
    if (status == PCAPFILE_OK) {
        expect(strict.type == block->type && strict.body.ptr == block->body.ptr && strict.body.len == block->body.len, "the same block");
        expect(left.len == rest.len && !memcmp(&before, after, sizeof before), "the same in force");
    }
    if (!is_packet) return;
    status = pcapfile_read_packet(after, &strict, &packet, &error);
    expect(is_strict(status, &error, block->flaws, flaws), "the strict call reads the packet, or refuses it by its first flaw");
    if (status == PCAPFILE_OK)
        expect(packet.interface_id == block->packet.interface_id && packet.timestamp == block->packet.timestamp &&
                   packet.orig_len == block->packet.orig_len && packet.bytes.ptr == block->packet.bytes.ptr &&
                   packet.bytes.len == block->packet.bytes.len, "the same packet");
}

static void print_packet(const pcapfile_ng_packet *packet, const pcapfile_interface *interface) {
    pcapfile_time time = PCAPFILE_TIME_INIT;
    printf("packet %" PRIu32 " ", packet->interface_id);
    if (interface && pcapfile_time_of(interface, packet->timestamp, &time) == PCAPFILE_OK)
        printf("%" PRId64 ".%09" PRIu32, time.seconds, time.nanoseconds);
    else printf("none");
    printf(" %zu/%" PRIu32 " ", packet->bytes.len, packet->orig_len);
    for (size_t i = 0; i < packet->bytes.len; i++) printf("%02x", packet->bytes.ptr[i]);
    printf("\n");
}

/* Returns the flaws of a block that was taken with few places, by a call that has as many as it needs. */
static pcapfile_block_flaw *all_flaws(pcapfile_section section, pcapfile_bytes left, const pcapfile_block_as_is *taken,
                                      const pcapfile_block_flaw *few) {
    pcapfile_block_as_is block = PCAPFILE_BLOCK_AS_IS_INIT;
    pcapfile_error error = PCAPFILE_ERROR_INIT;
    pcapfile_block_flaw *flaws = calloc(taken->flaws + 1, sizeof *flaws);
    if (!flaws) exit(NO_FILE);
    flaws[taken->flaws].code = 77;
    expect(pcapfile_take_block_as_is(&section, &left, &block, flaws, taken->flaws + 1, &error) == PCAPFILE_OK, "taken again");
    expect(block.flaws == taken->flaws && flaws[taken->flaws].code == 77, "as many flaws again, and no other place");
    for (size_t i = 0; i < PLACES; i++)
        expect(!memcmp(few + i, i < block.flaws ? flaws + i : &(pcapfile_block_flaw){ 9, 9, 9 }, sizeof *few), "the first flaws");
    return flaws;
}

static void print_refused(int32_t status, const pcapfile_error *error) {
    pcapfile_bytes text = PCAPFILE_NO_BYTES;
    if (status == PCAPFILE_INCOMPLETE) {
        printf("refused needs %zu\n", error->missing);
        return;
    }
    expect(status == PCAPFILE_INVALID, "a block is refused by a rule, or bytes are missing");
    pcapfile_rule_text(error->rule, &text);
    printf("refused invalid %.*s\n", (int)text.len, (const char *)text.ptr);
}

/* Returns whether more of the capture came, if this many bytes are missing. */
static int has_come(struct pieces *pieces, int32_t status, pcapfile_error error) {
    if (status != PCAPFILE_INCOMPLETE || pieces->left.len == 0) return 0;
    if (come(pieces, error.missing, &error) != PCAPFILE_OK) exit(NO_FILE);
    return 1;
}

static void print_found(const pcapfile_block_as_is *block, uint32_t count) {
    static pcapfile_interface interfaces[INTERFACES];
    static uint8_t is_known[INTERFACES];
    uint32_t id = block->packet.interface_id;
    if (block->type == PCAPFILE_BLOCK_INTERFACE && count <= INTERFACES) {
        is_known[count - 1] = block->has_interface;
        interfaces[count - 1] = block->interface;
    }
    if (block->has_interface)
        printf("interface %" PRIu32 " %" PRIu32 " %u %u %" PRId64 "\n", block->interface.link, block->interface.snaplen,
               block->interface.ts_base, block->interface.ts_exponent, block->interface.ts_offset);
    if (block->has_packet) print_packet(&block->packet, id < count && id < INTERFACES && is_known[id] ? &interfaces[id] : NULL);
}

static void print_blocks(struct pieces *pieces) {
    pcapfile_section section = PCAPFILE_SECTION_INIT;
    pcapfile_block_as_is block = PCAPFILE_BLOCK_AS_IS_INIT;
    pcapfile_error error = PCAPFILE_ERROR_INIT;
    for (uint64_t index = 1; pieces->push.begin < pieces->push.end || pieces->left.len > 0;) {
        pcapfile_section before = section;
        pcapfile_bytes left = { pieces->room + pieces->push.begin, pieces->push.end - pieces->push.begin }, all = left;
        pcapfile_block_flaw few[PLACES] = { { 9, 9, 9 }, { 9, 9, 9 }, { 9, 9, 9 } };
        int32_t status = pcapfile_take_block_as_is(&section, &left, &block, few, PLACES, &error);
        if (status != PCAPFILE_OK) {
            expect(left.len == all.len && !memcmp(&before, &section, sizeof before) && few[0].code == 9, "a refused call changes nothing");
            if (has_come(pieces, status, error)) continue;
            print_refused(status, &error);
            return;
        }
        pcapfile_block_flaw *flaws = all_flaws(before, all, &block, few);
        printf("%" PRIu64 " %" PRIu32 "\n", index++, block.type);
        for (size_t i = 0; i < block.flaws; i++) print_flaw(flaws + i);
        compare(before, all, &section, left, &block, flaws);
        free(flaws);
        print_found(&block, section.interfaces);
        pieces->push.begin = pieces->push.end - left.len;
    }
}

int main(int argc, char **argv) {
    int is_cut = argc == 5 && !strcmp(argv[1], "-c");
    if (argc != 2 && !is_cut) return USAGE;
    pcapfile_bytes all = read_file(argv[argc - 1]);
    if (!all.ptr) return NO_FILE;
    struct pieces pieces = is_cut ? pieces_of(all, strtoul(argv[2], NULL, 10), strtoul(argv[3], NULL, 10))
                                  : pieces_of(all, all.len, all.len + !all.len);
    if (!pieces.room) return NO_FILE;
    print_blocks(&pieces);
    free(pieces.room);
    free((void *)(uintptr_t)all.ptr);
    return 0;
}
