/* both FILE: prints the packets of a capture of either format in memory by one call, as `open` does, and a line `refused` for each
 * refusal. Its array of interfaces grows by one place if one is missing. */
#include "any.h"
#include "file.h"

enum { REFUSED = 1, USAGE = 2, ENDED_EARLY = 3, NO_MEMORY = 4, NO_FILE = 4 };

struct walk {
    pcapfile_capture capture;
    pcapfile_bytes left;
    pcapfile_interface *interfaces;
    size_t interfaces_len;
};

static int32_t grow_places(struct walk *walk) {
    pcapfile_interface *more = realloc(walk->interfaces, (walk->interfaces_len + 1) * sizeof *more);
    if (!more) return PCAPFILE_NO_MEMORY;
    more[walk->interfaces_len++] = (pcapfile_interface)PCAPFILE_INTERFACE_INIT;
    walk->interfaces = more;
    return PCAPFILE_OK;
}

/* Prints packets until none follows. Checks that the call sets the error only if it refuses. */
static int32_t print_packets(struct walk *walk) {
    const pcapfile_error unwritten = { 77, 77 };
    pcapfile_any_packet packet = PCAPFILE_ANY_PACKET_INIT;
    for (;;) {
        pcapfile_error error = unwritten;
        int32_t status = pcapfile_take_any(&walk->capture, &walk->left, walk->interfaces, walk->interfaces_len, &packet, &error);
        int is_written = error.rule != unwritten.rule || error.missing != unwritten.missing;
        if (is_written != (status > PCAPFILE_OK && status < PCAPFILE_NOTHING)) abort();
        if (status == PCAPFILE_OK) print_any(stdout, &packet);
        if (status == PCAPFILE_NO_PLACE) status = grow_places(walk);
        if (status != PCAPFILE_OK) return status;
    }
}

/* Skips a packet whose body is refused. */
static int passes(struct walk *walk, int32_t status) {
    pcapfile_block block = PCAPFILE_BLOCK_INIT;
    pcapfile_error error = PCAPFILE_ERROR_INIT;
    if (walk->capture.section.magic_number == 0) return 0;
    if (status != PCAPFILE_INVALID && status != PCAPFILE_BAD_VALUE && status != PCAPFILE_NOT_UTF8) return 0;
    return pcapfile_take_block(&walk->capture.section, &walk->left, &block, &error) == PCAPFILE_OK;
}

static int list(struct walk *walk) {
    for (;;) {
        int32_t status = print_packets(walk);
        if (status == PCAPFILE_NOTHING) return 0;
        printf("refused\n");
        if (passes(walk, status)) continue;
        if (status == PCAPFILE_NO_MEMORY) return NO_MEMORY;
        return status == PCAPFILE_INCOMPLETE || status == PCAPFILE_BAD_VALUE ? ENDED_EARLY : REFUSED;
    }
}

int main(int argc, char **argv) {
    if (argc != 2) return USAGE;
    pcapfile_bytes all = read_file(argv[1]);
    if (!all.ptr) return NO_FILE;
    struct walk walk = { PCAPFILE_CAPTURE_INIT, all, NULL, 0 };
    int status = grow_places(&walk) == PCAPFILE_OK ? list(&walk) : NO_MEMORY;
    free(walk.interfaces);
    free((void *)(uintptr_t)all.ptr);
    return status;
}
