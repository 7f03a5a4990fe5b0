/* Prints the packets of a PcapNg capture in pieces, by the library's calls for them.
 *
 *   packets [-b COUNT] PIECE ROOM FILE    the file comes in pieces of at most PIECE bytes, into a buffer that is ROOM bytes long at
 *                                         first, and the program takes its packets one by one, or up to COUNT in a call: a line for
 *                                         each packet, as `open` prints it, and a line `refused` for each refusal
 */
#include "any.h"
#include "file.h"
#include "pieces.h"

enum { REFUSED = 1, USAGE = 2, ENDED_EARLY = 3, NO_MEMORY = 4, NO_FILE = 4, MOST = 8 };

static size_t count;
static pcapfile_any_packet packets[MOST];

struct walk {
    struct pieces pieces;
    pcapfile_section section;
    pcapfile_interface *interfaces;
    size_t interfaces_len;
    pcapfile_error error;
};

/* Adds one place after the interfaces so far. */
static int32_t grow_places(struct walk *walk) {
    pcapfile_interface *more = realloc(walk->interfaces, (walk->interfaces_len + 1) * sizeof *more);
    if (!more) return PCAPFILE_NO_MEMORY;
    more[walk->interfaces_len++] = (pcapfile_interface)PCAPFILE_INTERFACE_INIT;
    walk->interfaces = more;
    return PCAPFILE_OK;
}

/* Takes packets, one or as many as there are places, and prints them. Places after them must remain as they were. */
static int32_t take(struct walk *walk) {
    const pcapfile_any_packet none = PCAPFILE_ANY_PACKET_INIT;
    struct pieces *pieces = &walk->pieces;
    size_t taken = MOST;
    int32_t status;
    for (size_t i = 0; i < MOST; i++) packets[i] = none;
    if (count == 0) {
        status = pcapfile_push_ng_next(&pieces->push, &walk->section, pieces->room, pieces->room_len, walk->interfaces,
                                       walk->interfaces_len, packets, &walk->error);
        taken = status == PCAPFILE_OK;
    } else {
        status = pcapfile_push_ng_packets(&pieces->push, &walk->section, pieces->room, pieces->room_len, walk->interfaces,
                                          walk->interfaces_len, packets, count, &taken, &walk->error);
        if (taken > count || (taken == count) != (status == PCAPFILE_OK)) abort();
    }
    for (size_t i = 0; i < taken; i++) print_any(stdout, packets + i);
    for (size_t i = taken; i < MOST; i++)
        if (packets[i].bytes.len != 0 || packets[i].orig_len != 0) abort();
    return status;
}

/* Prints packets until the capture has ended, or the call refuses what follows. */
static int32_t print_more(struct walk *walk) {
    struct pieces *pieces = &walk->pieces;
    for (;;) {
        int32_t status = take(walk);
        if (status == PCAPFILE_NO_PLACE)
            status = grow_places(walk);
        else if (status == PCAPFILE_INCOMPLETE && pieces->left.len > 0)
            status = come(pieces, walk->error.missing, &walk->error);
        if (status != PCAPFILE_OK) return status;
    }
}

/* Skips a packet whose body is refused. */
static int passes(struct walk *walk, int32_t status) {
    struct pieces *pieces = &walk->pieces;
    pcapfile_block block = PCAPFILE_BLOCK_INIT;
    pcapfile_error error = walk->error;
    if (status != PCAPFILE_INVALID && status != PCAPFILE_BAD_VALUE && status != PCAPFILE_NOT_UTF8) return 0;
    return pcapfile_push_block(&pieces->push, &walk->section, pieces->room, pieces->room_len, &block, &error) == PCAPFILE_OK;
}

static int32_t list_packets(struct walk *walk) {
    for (;;) {
        int32_t status = print_more(walk);
        if (status == PCAPFILE_INCOMPLETE && walk->section.magic_number != 0 && walk->pieces.push.begin == walk->pieces.push.end)
            return PCAPFILE_OK;
        printf("refused\n");
        if (!passes(walk, status)) return status;
    }
}

static int status_of(int32_t status) {
    switch (status) {
    case PCAPFILE_OK: return 0;
    case PCAPFILE_INCOMPLETE:
    case PCAPFILE_BAD_VALUE: return ENDED_EARLY;
    case PCAPFILE_NO_MEMORY: return NO_MEMORY;
    default: return REFUSED;
    }
}

int main(int argc, char **argv) {
    if (argc > 3 && !strcmp(argv[1], "-b")) {
        count = strtoul(argv[2], NULL, 10);
        if (count == 0 || count > MOST) return USAGE;
        argc -= 2;
        argv += 2;
    }
    size_t piece = argc == 4 ? strtoul(argv[1], NULL, 10) : 0, room = argc == 4 ? strtoul(argv[2], NULL, 10) : 0;
    if (piece == 0 || room == 0) return USAGE;
    pcapfile_bytes all = read_file(argv[3]);
    if (!all.ptr) return NO_FILE;
    struct walk walk = { pieces_of(all, piece, room), PCAPFILE_SECTION_INIT, NULL, 0, PCAPFILE_ERROR_INIT };
    int status = walk.pieces.room && grow_places(&walk) == PCAPFILE_OK ? status_of(list_packets(&walk)) : NO_MEMORY;
    free(walk.interfaces);
    free(walk.pieces.room);
    free((void *)(uintptr_t)all.ptr);
    return status;
}
