/* Counts how often received bytes move to the front of the buffer.
 *
 *   moves PIECE ROOM FILE       a classic capture comes in pieces of at most PIECE bytes, into a buffer that is ROOM bytes long at first
 *                               and grows by what is missing: how many of the calls for space moved bytes, and how many bytes
 */
#include "file.h"
#include "pieces.h"

int main(int argc, char **argv) {
    pcapfile_packet packet = PCAPFILE_PACKET_INIT;
    pcapfile_error error = PCAPFILE_ERROR_INIT;
    if (argc != 4) return 2;
    pcapfile_bytes all = read_file(argv[3]);
    struct pieces walk = pieces_of(all, strtoul(argv[1], NULL, 10), strtoul(argv[2], NULL, 10));
    size_t moves = 0, moved = 0;
    int32_t status = all.ptr && walk.room ? PCAPFILE_OK : PCAPFILE_NO_MEMORY;
    while (status == PCAPFILE_OK) {
        status = pcapfile_push_next(&walk.push, walk.room, walk.room_len, &packet, &error);
        if (status != PCAPFILE_INCOMPLETE || walk.left.len == 0) continue;
        const pcapfile_push before = walk.push;
        const size_t left = walk.left.len;
        status = come(&walk, error.missing, &error);
        /* The buffer holds the bytes of before, wherever they are now, and those that came. */
        if (walk.push.end - walk.push.begin != before.end - before.begin + (left - walk.left.len)) abort();
        if (walk.push.begin != before.begin && before.begin != before.end) {
            moves++;
            moved += before.end - before.begin;
        }
    }
    printf("%zu %zu\n", moves, moved);
    free(walk.room);
    free((void *)(uintptr_t)all.ptr);
    return status != PCAPFILE_INCOMPLETE;
}
