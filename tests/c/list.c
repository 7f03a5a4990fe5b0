/* Prints the lines of `capcopy list`, by the library's C header.
 *
 *   list FILE            packet by packet
 *   list -b FILE         in batches
 *   list -f FILE..       for every beginning of each file its lines, and then its status
 *   list -t FILE         counts in batches, and prints packets and nanoseconds per packet, the best of ten rounds
 *
 * With `-k PARTS` before these words the program cuts the capture into this many parts, and lists each by itself, packet by packet.
 */
#include "lines.h"

#include <time.h>

enum { BATCH = 256, MOST_PARTS = 9 };

static size_t parts;

/* Lists the packets of `left`, which come after this many. */
static int32_t list_behind(uint64_t index, const pcapfile_header *header, pcapfile_bytes left, pcapfile_error *error) {
    pcapfile_packet packet = PCAPFILE_PACKET_INIT;
    int32_t status = PCAPFILE_OK;
    while (status == PCAPFILE_OK && left.len > 0) {
        status = pcapfile_take_packet(header, &left, &packet, error);
        if (status == PCAPFILE_OK) print_packet(++index, &packet);
    }
    return status;
}

static int32_t list_parts(const pcapfile_header *header, pcapfile_bytes all, pcapfile_error *error) {
    pcapfile_cut cuts[MOST_PARTS + 1] = { PCAPFILE_CUT_INIT };
    size_t count = 0;
    int32_t status = pcapfile_cut_packets(&all, cuts, parts, &count, error);
    cuts[count].offset = all.len;
    for (size_t i = 0; status == PCAPFILE_OK && i < count; i++) {
        pcapfile_bytes part = { all.ptr + cuts[i].offset, cuts[i + 1].offset - cuts[i].offset };
        status = list_behind(cuts[i].before, header, part, error);
    }
    return status;
}

static int32_t list_one_by_one(pcapfile_bytes left, pcapfile_error *error) {
    pcapfile_header header = PCAPFILE_HEADER_INIT;
    pcapfile_bytes all = left;
    int32_t status = pcapfile_take_header(&left, &header, error);
    if (parts > 0) return list_parts(&header, all, error);
    return status == PCAPFILE_OK ? list_behind(0, &header, left, error) : status;
}

static int32_t list_in_batches(pcapfile_bytes left, pcapfile_error *error) {
    static pcapfile_packet packets[BATCH];
    pcapfile_header header = PCAPFILE_HEADER_INIT;
    uint64_t index = 0;
    int32_t status = pcapfile_take_header(&left, &header, error);
    for (size_t i = 0; i < BATCH; i++) packets[i] = (pcapfile_packet)PCAPFILE_PACKET_INIT;
    while (status == PCAPFILE_OK && left.len > 0) {
        size_t taken = 0;
        status = pcapfile_take_packets(&header, &left, packets, BATCH, &taken, error);
        for (size_t i = 0; i < taken; i++) print_packet(++index, &packets[i]);
    }
    return status;
}

static int count(pcapfile_bytes all, pcapfile_error *error) {
    static pcapfile_packet packets[BATCH];
    double best = 0;
    uint64_t index = 0;
    for (size_t i = 0; i < BATCH; i++) packets[i] = (pcapfile_packet)PCAPFILE_PACKET_INIT;
    for (int round = 0; round < 10; round++) {
        struct timespec start, end;
        pcapfile_bytes left = all;
        pcapfile_header header = PCAPFILE_HEADER_INIT;
        size_t taken = 0;
        index = 0;
        clock_gettime(CLOCK_MONOTONIC, &start);
        int32_t status = pcapfile_take_header(&left, &header, error);
        while (status == PCAPFILE_OK && left.len > 0) {
            status = pcapfile_take_packets(&header, &left, packets, BATCH, &taken, error);
            index += taken;
        }
        clock_gettime(CLOCK_MONOTONIC, &end);
        if (status != PCAPFILE_OK) return tell(status, error);
        double spent = 1e9 * (double)(end.tv_sec - start.tv_sec) + (double)(end.tv_nsec - start.tv_nsec);
        if (round == 0 || spent < best) best = spent;
    }
    printf("%" PRIu64 " packets, %.2f ns each\n", index, index > 0 ? best / (double)index : 0);
    return 0;
}

int main(int argc, char **argv) {
    if (argc > 3 && !strcmp(argv[1], "-k")) {
        parts = strtoul(argv[2], NULL, 10);
        argc -= 2;
        argv += 2;
    }
    const char *way = argc == 3 ? argv[1] : "-p";
    pcapfile_error error = PCAPFILE_ERROR_INIT;
    if (parts > MOST_PARTS) return USAGE;
    if (argc > 2 && !strcmp(argv[1], "-f")) return list_fronts(list_one_by_one, argv + 2);
    if (argc < 2 || argc > 3) return USAGE;
    pcapfile_bytes all = read_file(argv[argc - 1]);
    if (!all.ptr) return NO_FILE;
    int status = USAGE;
    if (!strcmp(way, "-p")) status = tell(list_one_by_one(all, &error), &error);
    if (!strcmp(way, "-b")) status = tell(list_in_batches(all, &error), &error);
    if (!strcmp(way, "-t")) status = count(all, &error);
    free((void *)(uintptr_t)all.ptr);
    return status;
}
