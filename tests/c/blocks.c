/* Prints the lines of `capcopy blocks`, and the packets of a PcapNg capture, by the library's C header.
 *
 *   blocks FILE          a line for the first section, and one for each block after it
 *   blocks -p FILE       a line for each packet: block, interface, ticks, seconds, link type, stored and original length, bytes
 *   blocks -n FILE       the same by batches, without the blocks' numbers
 *   blocks -f FILE..     for every beginning of each file its blocks, and then the status
 *   blocks -t FILE       counts, and prints packets and nanoseconds per packet, the best of ten rounds
 *
 * With `-c PIECE ROOM` before these words the program takes the blocks by the calls for a capture in pieces. A piece has at most PIECE
 * bytes, and the buffer is ROOM bytes long at first. Batches are always of a capture in memory. With `-k PARTS` it cuts the capture into
 * this many parts, and lists the blocks of each by itself.
 */
#include "file.h"
#include "pieces.h"

#include <inttypes.h>
#include <stdio.h>
#include <stdlib.h>
#include <string.h>
#include <time.h>

enum { INTERFACES = 64, BATCH = 3, MOST_PARTS = 40, REFUSED = 1, USAGE = 2, ENDED_EARLY = 3, NO_MEMORY = 4, NO_FILE = 4 };

/* A walk, and what it needs to know about the interfaces of its section. */
struct walk {
    struct pieces pieces; /* or all bytes are in `left`, if there is no buffer */
    pcapfile_section section;
    pcapfile_block block;
    pcapfile_interface interfaces[INTERFACES];
    pcapfile_error error;
    uint64_t index;
};

static size_t piece, first_room, parts;

static struct walk walk_of(pcapfile_bytes all) {
    struct pieces pieces = { all, PCAPFILE_PUSH_INIT, NULL, 0, 0 };
    if (piece > 0) pieces = pieces_of(all, piece, first_room);
    return (struct walk){ pieces, PCAPFILE_SECTION_INIT, PCAPFILE_BLOCK_INIT, { PCAPFILE_INTERFACE_INIT }, PCAPFILE_ERROR_INIT, 0 };
}

static int has_more(const struct walk *walk) {
    return walk->pieces.left.len > 0 || walk->pieces.push.begin < walk->pieces.push.end;
}

static int32_t take_block(struct walk *walk) {
    struct pieces *pieces = &walk->pieces;
    int32_t status = PCAPFILE_OK;
    if (!pieces->room) return pcapfile_take_block(&walk->section, &pieces->left, &walk->block, &walk->error);
    while (status == PCAPFILE_OK) {
        status = pcapfile_push_block(&pieces->push, &walk->section, pieces->room, pieces->room_len, &walk->block, &walk->error);
        if (status != PCAPFILE_INCOMPLETE || pieces->left.len == 0) break;
        status = come(pieces, walk->error.missing, &walk->error);
    }
    return status;
}

static int status_of(int32_t status) {
    switch (status) {
    case PCAPFILE_OK: return 0;
    case PCAPFILE_INCOMPLETE:
    case PCAPFILE_BAD_VALUE: return ENDED_EARLY;
    case PCAPFILE_NO_MEMORY: return NO_MEMORY;
    default: return REFUSED;
    }
}

/* Takes the next block, and reads an interface's description. */
static int32_t next_block(struct walk *walk) {
    uint32_t before = walk->section.interfaces;
    int32_t status = take_block(walk);
    if (status == PCAPFILE_OK && walk->block.type == PCAPFILE_BLOCK_INTERFACE && before < INTERFACES)
        status = pcapfile_read_interface(&walk->section, &walk->block, &walk->interfaces[before], &walk->error);
    return status;
}

static const char *kind_of(uint32_t type) {
    switch (type) {
    case PCAPFILE_BLOCK_SECTION: return "section";
    case PCAPFILE_BLOCK_INTERFACE: return "interface";
    case PCAPFILE_BLOCK_PACKET: return "packet";
    case PCAPFILE_BLOCK_SIMPLE_PACKET: return "simple";
    case PCAPFILE_BLOCK_NAMES: return "names";
    case PCAPFILE_BLOCK_STATISTICS: return "statistics";
    case PCAPFILE_BLOCK_ENHANCED_PACKET: return "enhanced";
    case PCAPFILE_BLOCK_JOURNAL: return "journal";
    default: return NULL;
    }
}

static void print_block(struct walk *walk) {
    pcapfile_ng_packet packet = PCAPFILE_NG_PACKET_INIT;
    int32_t read = pcapfile_read_packet(&walk->section, &walk->block, &packet, &walk->error);
    const char *kind = kind_of(walk->block.type), *word = read == PCAPFILE_OK || read == PCAPFILE_NOTHING ? "ok" : "refused";
    if (kind)
        printf("%" PRIu64 " %s %zu %s\n", walk->index, kind, walk->block.body.len + 12, word);
    else
        printf("%" PRIu64 " unknown:%" PRIu32 " %zu %s\n", walk->index, walk->block.type, walk->block.body.len + 12, word);
}

static void print_section(const struct walk *walk) {
    printf("section %s %u.%u\n", walk->section.magic_number == 0x1a2b3c4d ? "big" : "little",
           (unsigned)walk->section.version_major, (unsigned)walk->section.version_minor);
}

/* Prints the blocks of a capture or of a part. */
static int32_t list_rest(struct walk *walk) {
    int32_t status = PCAPFILE_OK;
    while (status == PCAPFILE_OK && has_more(walk)) {
        status = next_block(walk);
        walk->index++;
        if (status == PCAPFILE_OK) print_block(walk);
    }
    return status;
}

/* Begins a walk at a cut: over the section header in force there, its interfaces, and then `left`. */
static int32_t walk_from(struct walk *walk, pcapfile_bytes all, const pcapfile_ng_cut *cut, const size_t *places, size_t len) {
    *walk = walk_of((pcapfile_bytes){ all.ptr + cut->header, all.len - cut->header });
    int32_t status = next_block(walk);
    for (size_t i = cut->first; status == PCAPFILE_OK && i < cut->first + cut->interfaces; i++) {
        walk->pieces.left = (pcapfile_bytes){ all.ptr + places[i], all.len - places[i] };
        status = next_block(walk);
    }
    walk->pieces.left = (pcapfile_bytes){ all.ptr + cut->at.offset, len };
    walk->index = cut->at.before;
    return status;
}

static int32_t list_parts(struct walk *walk, pcapfile_bytes all) {
    pcapfile_ng_cut cuts[MOST_PARTS + 1] = { PCAPFILE_NG_CUT_INIT };
    size_t places[INTERFACES] = { 0 }, count = 0, known = 0;
    int32_t status = pcapfile_cut_blocks(&all, cuts, parts, &count, places, INTERFACES, &known, &walk->error);
    cuts[count].at.offset = all.len;
    for (size_t i = 0; status == PCAPFILE_OK && i < count; i++) {
        status = walk_from(walk, all, &cuts[i], places, cuts[i + 1].at.offset - cuts[i].at.offset);
        if (i == 0) print_section(walk);
        if (status == PCAPFILE_OK) status = list_rest(walk);
    }
    return status;
}

static int32_t list_blocks(struct walk *walk) {
    if (parts > 0) return list_parts(walk, walk->pieces.left);
    int32_t status = next_block(walk);
    if (status == PCAPFILE_OK) print_section(walk);
    return status == PCAPFILE_OK ? list_rest(walk) : status;
}

static void print_time(const struct walk *walk, const pcapfile_ng_packet *packet) {
    pcapfile_time time = PCAPFILE_TIME_INIT;
    if (packet->interface_id >= walk->section.interfaces || packet->interface_id >= INTERFACES) {
        printf("none none ");
        return;
    }
    const pcapfile_interface *interface = &walk->interfaces[packet->interface_id];
    int has_time = packet->type != PCAPFILE_BLOCK_SIMPLE_PACKET;
    if (has_time && pcapfile_time_of(interface, packet->timestamp, &time) == PCAPFILE_OK)
        printf("%" PRId64 ".%09" PRIu32 " %" PRIu32 " ", time.seconds, time.nanoseconds, interface->link);
    else
        printf("none %" PRIu32 " ", interface->link);
}

static size_t least(size_t a, size_t b) {
    return a < b ? a : b;
}

/* Returns how many bytes of a packet are stored. Padding follows those of a simple packet. */
static size_t stored_of(const struct walk *walk, const pcapfile_ng_packet *packet) {
    size_t len = packet->bytes.len;
    if (packet->type != PCAPFILE_BLOCK_SIMPLE_PACKET) return len;
    if (walk->section.interfaces > 0 && walk->interfaces[0].snaplen > 0) len = least(len, walk->interfaces[0].snaplen);
    return least(len, packet->orig_len);
}

static void print_fields(const struct walk *walk, const pcapfile_ng_packet *packet) {
    size_t stored = stored_of(walk, packet);
    printf("%" PRIu32 " %" PRIu64 " ", packet->interface_id, packet->timestamp);
    print_time(walk, packet);
    printf("%zu/%" PRIu32 " ", stored, packet->orig_len);
    for (size_t i = 0; i < stored; i++) printf("%02x", packet->bytes.ptr[i]);
    printf("\n");
}

static void print_packet(struct walk *walk) {
    pcapfile_ng_packet packet = PCAPFILE_NG_PACKET_INIT;
    if (pcapfile_read_packet(&walk->section, &walk->block, &packet, &walk->error) != PCAPFILE_OK) return;
    printf("%" PRIu64 " ", walk->index);
    print_fields(walk, &packet);
}

static int32_t list_packets(struct walk *walk) {
    int32_t status = PCAPFILE_OK;
    while (status == PCAPFILE_OK && has_more(walk)) {
        status = next_block(walk);
        if (status == PCAPFILE_OK) print_packet(walk);
        walk->index++;
    }
    return status;
}

/* Takes what stops a batch as a block: a section, an interface, a packet that can't be read, or a refusal. */
static int32_t list_batches(struct walk *walk) {
    pcapfile_ng_packet packets[BATCH] = { PCAPFILE_NG_PACKET_INIT, PCAPFILE_NG_PACKET_INIT, PCAPFILE_NG_PACKET_INIT };
    int32_t status = PCAPFILE_OK;
    while (status == PCAPFILE_OK && has_more(walk)) {
        size_t taken = 0;
        int32_t ended = pcapfile_take_ng_packets(&walk->section, &walk->pieces.left, packets, BATCH, &taken, &walk->error);
        for (size_t i = 0; i < taken; i++) print_fields(walk, &packets[i]);
        if (ended == PCAPFILE_NO_MEMORY) return ended;
        if (ended != PCAPFILE_OK) status = next_block(walk);
    }
    return status;
}

static int tell(int32_t status, const pcapfile_error *error) {
    pcapfile_bytes name = PCAPFILE_NO_BYTES, text = PCAPFILE_NO_BYTES;
    if (status == PCAPFILE_INCOMPLETE) fprintf(stderr, "blocks: %zu bytes are missing\n", error->missing);
    if (status == PCAPFILE_INVALID) {
        pcapfile_rule_name(error->rule, &name);
        pcapfile_rule_text(error->rule, &text);
        fprintf(stderr, "blocks: rule %" PRIu32 ", %.*s: %.*s\n", error->rule, (int)name.len, (const char *)name.ptr,
                (int)text.len, (const char *)text.ptr);
    }
    return status_of(status);
}

/* Puts each beginning into a buffer of its own, so that a read past its end is seen. */
static int list_fronts_of(pcapfile_bytes all) {
    for (size_t len = 0; len <= all.len; len++) {
        uint8_t *front = malloc(len > 0 ? len : 1);
        if (!front) return NO_FILE;
        memcpy(front, all.ptr, len);
        struct walk walk = walk_of((pcapfile_bytes){ front, len });
        printf("status %d\n", status_of(list_blocks(&walk)));
        free(walk.pieces.room);
        free(front);
    }
    return 0;
}

/* Does this for each of these files. */
static int list_fronts(char **files) {
    int status = 0;
    for (; *files && status == 0; files++) {
        pcapfile_bytes all = read_file(*files);
        status = all.ptr ? list_fronts_of(all) : NO_FILE;
        free((void *)(uintptr_t)all.ptr);
    }
    return status;
}

static uint64_t packets_in(struct walk *walk, int32_t *status) {
    pcapfile_ng_packet packet = PCAPFILE_NG_PACKET_INIT;
    uint64_t count = 0;
    *status = PCAPFILE_OK;
    while (*status == PCAPFILE_OK && has_more(walk))
        if ((*status = next_block(walk)) == PCAPFILE_OK)
            count += pcapfile_read_packet(&walk->section, &walk->block, &packet, &walk->error) == PCAPFILE_OK;
    return count;
}

static int count(pcapfile_bytes all) {
    double best = 0;
    uint64_t packets = 0;
    for (int round = 0; round < 10; round++) {
        struct timespec start, end;
        struct walk walk = walk_of(all);
        int32_t status;
        clock_gettime(CLOCK_MONOTONIC, &start);
        packets = packets_in(&walk, &status);
        clock_gettime(CLOCK_MONOTONIC, &end);
        free(walk.pieces.room);
        if (status != PCAPFILE_OK) return tell(status, &walk.error);
        double spent = 1e9 * (double)(end.tv_sec - start.tv_sec) + (double)(end.tv_nsec - start.tv_nsec);
        if (round == 0 || spent < best) best = spent;
    }
    printf("%" PRIu64 " packets, %.2f ns each\n", packets, packets > 0 ? best / (double)packets : 0);
    return 0;
}

int main(int argc, char **argv) {
    if (argc > 4 && !strcmp(argv[1], "-c")) {
        piece = strtoul(argv[2], NULL, 10);
        first_room = strtoul(argv[3], NULL, 10);
        argc -= 3;
        argv += 3;
    }
    if (argc > 3 && !strcmp(argv[1], "-k")) {
        parts = strtoul(argv[2], NULL, 10);
        argc -= 2;
        argv += 2;
    }
    const char *way = argc == 3 ? argv[1] : "-b";
    if (parts > MOST_PARTS) return USAGE;
    if (argc > 2 && !strcmp(argv[1], "-f")) return list_fronts(argv + 2);
    if (argc < 2 || argc > 3) return USAGE;
    pcapfile_bytes all = read_file(argv[argc - 1]);
    if (!all.ptr) return NO_FILE;
    struct walk walk = walk_of(all);
    int status = USAGE;
    if (!strcmp(way, "-b")) status = tell(list_blocks(&walk), &walk.error);
    if (!strcmp(way, "-p")) status = tell(list_packets(&walk), &walk.error);
    if (!strcmp(way, "-n")) status = tell(list_batches(&walk), &walk.error);
    if (!strcmp(way, "-t")) status = count(all);
    free(walk.pieces.room);
    free((void *)(uintptr_t)all.ptr);
    return status;
}
