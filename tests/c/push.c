/* Prints the lines of `capcopy list`, by the library's calls for a capture in pieces.
 *
 *   push [-b COUNT] PIECE ROOM FILE        the file comes in pieces of at most PIECE bytes, into a buffer that is ROOM bytes long at
 *                                          first, and the program takes its packets one by one, or up to COUNT in a call
 *   push [-b COUNT] PIECE ROOM -f FILE..   every beginning of each file in this way: its lines, and then its status
 */
#include "lines.h"
#include "pieces.h"

enum { MOST = 8 };

static size_t piece, first_room, count;
static pcapfile_packet packets[MOST];

/* Takes packets, one or as many as there are places, and gives their number. Places after them must remain as they were. */
static int32_t take(struct pieces *walk, size_t *taken, pcapfile_error *error) {
    const pcapfile_packet none = PCAPFILE_PACKET_INIT;
    int32_t status;
    for (size_t i = 0; i < MOST; i++) packets[i] = none;
    if (count == 0) {
        status = pcapfile_push_next(&walk->push, walk->room, walk->room_len, packets, error);
        *taken = status == PCAPFILE_OK;
    } else {
        *taken = MOST;
        status = pcapfile_push_packets(&walk->push, walk->room, walk->room_len, packets, count, taken, error);
        if (*taken > count || (*taken == count) != (status == PCAPFILE_OK)) abort();
    }
    for (size_t i = *taken; i < MOST; i++)
        if (packets[i].bytes.len != 0 || packets[i].orig_len != 0) abort();
    return status;
}

static int32_t list_pieces(pcapfile_bytes all, pcapfile_error *error) {
    struct pieces walk = pieces_of(all, piece, first_room);
    uint64_t index = 0;
    int32_t status = walk.room ? PCAPFILE_OK : PCAPFILE_NO_MEMORY;
    while (status == PCAPFILE_OK) {
        size_t taken;
        status = take(&walk, &taken, error);
        for (size_t i = 0; i < taken; i++) print_packet(++index, packets + i);
        if (status == PCAPFILE_INCOMPLETE && walk.left.len > 0) status = come(&walk, error->missing, error);
    }
    if (status == PCAPFILE_INCOMPLETE && walk.push.header.magic_number != 0 && walk.push.begin == walk.push.end)
        status = PCAPFILE_OK;
    free(walk.room);
    return status;
}

int main(int argc, char **argv) {
    pcapfile_error error = PCAPFILE_ERROR_INIT;
    if (argc > 3 && !strcmp(argv[1], "-b")) {
        count = strtoul(argv[2], NULL, 10);
        if (count == 0 || count > MOST) return USAGE;
        argc -= 2;
        argv += 2;
    }
    if (argc < 4) return USAGE;
    piece = strtoul(argv[1], NULL, 10);
    first_room = strtoul(argv[2], NULL, 10);
    if (piece == 0 || first_room == 0) return USAGE;
    if (argc > 4) return strcmp(argv[3], "-f") ? USAGE : list_fronts(list_pieces, argv + 4);
    pcapfile_bytes all = read_file(argv[3]);
    if (!all.ptr) return NO_FILE;
    int status = tell(list_pieces(all, &error), &error);
    free((void *)(uintptr_t)all.ptr);
    return status;
}
