/* Lists captures of either format by c/open.c. The test makes its system calls and allocations fail on request.
 *
 *   open FILE              a line for each packet: interface, seconds, link type, stored and original length, bytes; a line
 *                          `refused` for a refused one, after which the list goes on if it can
 *   open -b BATCH FILE     the same by batches
 *   open -r BYTES FILE     the same with reads of at most BYTES bytes
 *   open -p FILE           the same for standard input
 *   open -q                counts the packets of standard input, and prints how many KiB were resident at most
 *   open -m LEN FILE       checks that a limit one byte below the first packet's LEN is reported, and that the list goes on under LEN
 *   open -h [BYTES] FILE   before the packets what pcapfile_head gives: `pcap` and the fields of the header, or `pcapng`, the fields of the
 *                          section, and a line for each interface; or `no head STATUS`
 *   open -k [BYTES] FILE   the blocks: type, magic number, version and interfaces of the section, and bytes; after an interface its line
 *   open -l [BYTES] FILE   the packets and gaps of lenient reading: `packet STATUS RULE` and then as above, or
 *                          `gap OFFSET LENGTH STATUS RULE MISSING`. Bytes that are in neither must be blocks of another kind.
 *   open -a FILE           the packets; a refused one as lenient reading gives it
 *   open -g                counts the packets and gaps of standard input by lenient reading, and prints the KiB too
 *   open -t STATUS         the text of this status
 *   open -s FILE           the status after the last packet
 *   open -x FILE           each read and each allocation fails in turn, and is repeated: the lines of packets, of the head and of blocks
 *                          remain the same
 *
 * If PCAPFILE_ZLIB or PCAPFILE_ZSTD is defined, FILE may be compressed.
 */
#include "any.h"

#include <errno.h>
#include <fcntl.h>
#include <inttypes.h>
#include <stdio.h>
#include <stdlib.h>
#include <string.h>
#include <unistd.h>
#ifdef PCAPFILE_ZLIB
#include <zlib.h>
#endif
#ifdef PCAPFILE_ZSTD
#include <zstd.h>
#endif

enum { NEVER = -1 };
static long allocations, reads, failing_allocation = NEVER, failing_read = NEVER;
static int read_error;
static size_t most_read = SIZE_MAX;

static void *refused_or(void *memory) {
    if (allocations++ != failing_allocation) return memory;
    free(memory);
    return NULL;
}
static void *test_malloc(size_t len) { return refused_or(malloc(len)); }
static void *test_realloc(void *memory, size_t len) {
    return allocations++ == failing_allocation ? NULL : realloc(memory, len);
}
static ssize_t test_read(int descriptor, void *room, size_t len) {
    if (reads++ == failing_read) {
        errno = read_error;
        return -1;
    }
    return read(descriptor, room, len < most_read ? len : most_read);
}

#define malloc test_malloc
#define realloc test_realloc
#define read test_read
#include OPEN_C /* the path of c/open.c, by -DOPEN_C */
#undef malloc
#undef realloc
#undef read

enum { MOST_BATCH = 16, REFUSED = 1, USAGE = 2, ENDED_EARLY = 3, NO_MEMORY = 4, DIFFERS = 5 };
static size_t batch;
static enum { PACKETS, HEAD, BLOCKS, AS_IS, MIXED } what;

static int status_of(int32_t status) {
    switch (status) {
    case PCAPFILE_END: return 0;
    case PCAPFILE_NOTHING: return what == BLOCKS ? 0 : REFUSED;
    case PCAPFILE_INCOMPLETE:
    case PCAPFILE_BAD_VALUE: return ENDED_EARLY;
    case PCAPFILE_NO_MEMORY: return NO_MEMORY;
    default: return REFUSED;
    }
}

/* Prints the next packets, one by one or by batches. */
static int32_t next(FILE *out, pcapfile_reader *reader, pcapfile_error *error) {
    pcapfile_any_packet packets[MOST_BATCH];
    size_t taken = 1;
    int32_t status = batch > 0 ? pcapfile_next_batch(reader, packets, batch, &taken, error)
                               : pcapfile_next(reader, packets, error);
    for (size_t i = 0; status == PCAPFILE_OK && i < taken; i++) print_any(out, &packets[i]);
    return status;
}

/* Checks that an item begins where it may: in a classic capture where the item before it ends. */
static void check_place(const pcapfile_reader *reader, const pcapfile_found *found, uint64_t *end) {
    if (found->offset < *end || (found->offset > *end && !reader->is_blocks)) abort();
    *end = found->offset + found->len;
    if (*end != pcapfile_offset(reader)) abort();
}

/* Prints the next packet or gap of lenient reading. */
static int32_t print_found(FILE *out, pcapfile_reader *reader, uint64_t *end, pcapfile_error *error) {
    pcapfile_found found = PCAPFILE_FOUND_INIT;
    int32_t status = pcapfile_next_as_is(reader, &found, error);
    if (status != PCAPFILE_OK) {
        if (found.kind != 0 || found.len != 0) abort();
        return status;
    }
    if (*end == 0) *end = reader->is_blocks ? 0 : 24;
    check_place(reader, &found, end);
    if (found.kind == PCAPFILE_FOUND_GAP) {
        fprintf(out, "gap %" PRIu64 " %" PRIu64 " %" PRId32 " %" PRIu32 " %zu\n", found.offset, found.len, found.status, found.error.rule,
                found.error.missing);
        if (found.packet.bytes.len != 0 || found.packet.has_time) abort();
        return status;
    }
    fprintf(out, "packet %" PRId32 " %" PRIu32 " ", found.status, found.error.rule);
    print_any(out, &found.packet);
    return status;
}

/* Prints the next packet. If it is refused, lenient reading gives it. */
static int32_t print_either(FILE *out, pcapfile_reader *reader, pcapfile_error *error) {
    int32_t status = next(out, reader, error);
    uint64_t end = pcapfile_offset(reader);
    return status == PCAPFILE_INVALID ? print_found(out, reader, &end, error) : status;
}

static void print_interface(FILE *out, const pcapfile_interface *it) {
    fprintf(out, "interface %" PRIu32 " %" PRIu32 " %u %u %" PRId64 "\n", it->link, it->snaplen, it->ts_base, it->ts_exponent,
            it->ts_offset);
}

static void print_section(FILE *out, const pcapfile_section *it) {
    fprintf(out, "%08" PRIx32 " %u %u %" PRIu32, it->magic_number, it->version_major, it->version_minor, it->interfaces);
}

/* Prints the head. Whatever fails leaves it unchanged. */
static int32_t print_head(FILE *out, pcapfile_reader *reader, pcapfile_error *error) {
    pcapfile_capture head = PCAPFILE_CAPTURE_INIT;
    const pcapfile_interface *interfaces = NULL;
    int32_t status = pcapfile_head(reader, &head, &interfaces, error);
    const pcapfile_header *it = &head.header;
    if (status != PCAPFILE_OK) {
        if (interfaces || it->magic_number != 0 || head.section.magic_number != 0) abort();
        return status;
    }
    if (head.section.magic_number == 0) {
        fprintf(out, "pcap %08" PRIx32 " %u %u %" PRId32 " %" PRIu32 " %" PRIu32 " %" PRIu32 "\n", it->magic_number, it->version_major,
                it->version_minor, it->ts_correction, it->ts_accuracy, it->snaplen, it->link);
        return status;
    }
    if (it->magic_number != 0) abort();
    fprintf(out, "pcapng ");
    print_section(out, &head.section);
    fprintf(out, "\n");
    for (uint32_t i = 0; i < head.section.interfaces; i++) print_interface(out, &interfaces[i]);
    return status;
}

/* Prints the next block. The interface that it may describe must also be the last one of the section. */
static int32_t print_block(FILE *out, pcapfile_reader *reader, pcapfile_error *error) {
    pcapfile_section section = PCAPFILE_SECTION_INIT;
    pcapfile_block block = PCAPFILE_BLOCK_INIT;
    pcapfile_capture head = PCAPFILE_CAPTURE_INIT;
    pcapfile_interface interface = PCAPFILE_INTERFACE_INIT;
    const pcapfile_interface *interfaces = NULL, *last;
    int32_t status = pcapfile_next_block(reader, &section, &block, error);
    if (status != PCAPFILE_OK) {
        if (section.magic_number != 0 || block.type != 0 || block.body.len != 0) abort();
        return status;
    }
    fprintf(out, "block %" PRIu32 " ", block.type);
    print_section(out, &section);
    fprintf(out, " ");
    for (size_t i = 0; i < block.body.len; i++) fprintf(out, "%02x", block.body.ptr[i]);
    fprintf(out, "\n");
    if (block.type != PCAPFILE_BLOCK_INTERFACE) return status;
    if (pcapfile_read_interface(&section, &block, &interface, error) != PCAPFILE_OK) abort();
    if (pcapfile_head(reader, &head, &interfaces, error) != PCAPFILE_OK) abort();
    last = &interfaces[head.section.interfaces - 1];
    if (head.section.interfaces != section.interfaces || head.section.magic_number != section.magic_number) abort();
    if (last->link != interface.link || last->snaplen != interface.snaplen || last->ts_offset != interface.ts_offset) abort();
    if (last->ts_base != interface.ts_base || last->ts_exponent != interface.ts_exponent) abort();
    print_interface(out, &interface);
    return status;
}

/* Prints what comes next: the head once, and then packets; or a block; or what lenient reading finds, whose end is `*end`. */
static int32_t print_next(FILE *out, pcapfile_reader *reader, int *has_head, uint64_t *end, pcapfile_error *error) {
    if (what == AS_IS) return print_found(out, reader, end, error);
    if (what == MIXED) return print_either(out, reader, error);
    if (what == BLOCKS) return print_block(out, reader, error);
    if (what == PACKETS || *has_head) return next(out, reader, error);
    int32_t status = print_head(out, reader, error);
    *has_head = status != PCAPFILE_NO_MEMORY && status != PCAPFILE_SYSTEM;
    if (!*has_head || status == PCAPFILE_OK) return status;
    fprintf(out, "no head %" PRId32 "\n", status);
    return PCAPFILE_OK;
}

/* Prints all packets. Repeats a call that failed, and counts the failures. Repeats a call that refused a packet too: if it refuses at
 * the same place again, nothing follows. */
static int list(FILE *out, pcapfile_reader *reader, int *failed) {
    pcapfile_error error = PCAPFILE_ERROR_INIT;
    uint64_t refused = UINT64_MAX, end = 0;
    int has_head = 0;
    for (;;) {
        int32_t status = print_next(out, reader, &has_head, &end, &error);
        if (status == PCAPFILE_NO_MEMORY || status == PCAPFILE_SYSTEM) {
            if (status == PCAPFILE_SYSTEM && errno != read_error) return DIFFERS;
            if (++*failed > 1) return DIFFERS;
        } else if (status != PCAPFILE_OK) {
            if (status == PCAPFILE_END || status == PCAPFILE_NOTHING || pcapfile_offset(reader) == refused) return status_of(status);
            refused = pcapfile_offset(reader);
            fprintf(out, "refused\n");
        }
    }
}

/* Returns the lines of a file and then its status, as a text that the caller frees. NULL if the file was not opened. */
static char *told(const char *path, int *failed) {
    char *text = NULL;
    size_t len = 0;
    pcapfile_reader *reader = pcapfile_open(path);
    if (!reader) return NULL;
    FILE *out = open_memstream(&text, &len);
    int status = list(out, reader, failed);
    fprintf(out, "status %d\n", status);
    fclose(out);
    pcapfile_close(reader);
    return text;
}

/* Returns whether a file's lines are these although a call fails. `*came` says whether the call that should fail was made at all. */
static int same(const char *path, const char *wanted, int is_seen, int *came) {
    int failed = 0, is_same;
    allocations = reads = 0;
    char *got = told(path, &failed);
    *came = allocations > failing_allocation && failing_allocation != NEVER;
    *came |= reads > failing_read && failing_read != NEVER;
    if (!got) return *came && errno == ENOMEM && failing_allocation != NEVER;
    is_same = !strcmp(got, wanted) && failed == (*came && is_seen);
    free(got);
    return is_same;
}

/* Fails each call in turn, by the counter that selects it, until no more calls come. */
static int fails(const char *path, const char *wanted, long *failing, int error, int is_seen) {
    int came = 1, is_same = 1;
    read_error = error;
    for (*failing = 0; came && is_same; ++*failing) is_same = same(path, wanted, is_seen, &came);
    *failing = NEVER;
    return is_same;
}

static int fail_each_of(const char *path) {
    int failed = 0;
    char *wanted = told(path, &failed);
    if (!wanted) return NO_MEMORY;
    int is_same = fails(path, wanted, &failing_allocation, 0, 1) && fails(path, wanted, &failing_read, EIO, 1) &&
                  fails(path, wanted, &failing_read, EAGAIN, 1) && fails(path, wanted, &failing_read, EINTR, 0);
    if (!is_same) fprintf(stderr, "open: %s: another list where a call fails\n", path);
    free(wanted);
    return is_same ? 0 : DIFFERS;
}

/* Fails each call of each way to read the capture. */
static int fail_each(const char *path) {
    int status = 0;
    for (what = PACKETS; status == 0 && what <= AS_IS; what++) status = fail_each_of(path);
    return status;
}

/* Checks that a limit below the next packet is reported, with what is missing, and that a higher limit goes on. */
static int stops_at_the_limit(const char *path, size_t len) {
    pcapfile_reader *reader = pcapfile_open(path);
    pcapfile_any_packet packet = PCAPFILE_ANY_PACKET_INIT;
    pcapfile_error error = PCAPFILE_ERROR_INIT;
    if (!reader) return NO_MEMORY;
    most_read = 1;
    pcapfile_limit(reader, len - 1);
    int is_told = pcapfile_next(reader, &packet, &error) == PCAPFILE_TOO_LONG && error.missing > 0;
    pcapfile_limit(reader, len);
    is_told = is_told && pcapfile_next(reader, &packet, &error) == PCAPFILE_OK;
    pcapfile_close(reader);
    return is_told ? 0 : DIFFERS;
}

static int list_reader(pcapfile_reader *reader) {
    int failed = 0;
    if (!reader) return NO_MEMORY;
    int status = list(stdout, reader, &failed);
    pcapfile_close(reader);
    return status;
}

/* Returns the most KiB that were resident, as the system reports it. */
static unsigned long resident(void) {
    char line[256];
    unsigned long most = 0;
    FILE *in = fopen("/proc/self/status", "r");
    while (in && fgets(line, sizeof line, in))
        if (!strncmp(line, "VmHWM:", 6)) most = strtoul(line + 6, NULL, 10);
    if (in) fclose(in);
    return most;
}

static int count_packets(pcapfile_reader *reader) {
    pcapfile_any_packet packet = PCAPFILE_ANY_PACKET_INIT;
    pcapfile_error error = PCAPFILE_ERROR_INIT;
    unsigned long count = 0;
    int32_t status;
    if (!reader) return NO_MEMORY;
    while ((status = pcapfile_next(reader, &packet, &error)) == PCAPFILE_OK) count++;
    pcapfile_close(reader);
    printf("%lu %lu\n", count, resident());
    return status_of(status);
}

/* Counts the packets and the gaps of lenient reading. */
static int count_found(pcapfile_reader *reader) {
    pcapfile_found found = PCAPFILE_FOUND_INIT;
    pcapfile_error error = PCAPFILE_ERROR_INIT;
    unsigned long packets = 0, gaps = 0;
    int32_t status;
    if (!reader) return NO_MEMORY;
    while ((status = pcapfile_next_as_is(reader, &found, &error)) == PCAPFILE_OK)
        found.kind == PCAPFILE_FOUND_GAP ? gaps++ : packets++;
    pcapfile_close(reader);
    printf("%lu %lu %lu\n", packets, gaps, resident());
    return status_of(status);
}

/* Prints the status after the last packet. Each further call must return it too. */
static int print_status(const char *path) {
    pcapfile_reader *reader = pcapfile_open(path);
    pcapfile_any_packet packet = PCAPFILE_ANY_PACKET_INIT;
    pcapfile_error error = PCAPFILE_ERROR_INIT;
    int32_t status;
    if (!reader) return NO_MEMORY;
    while ((status = pcapfile_next(reader, &packet, &error)) == PCAPFILE_OK) continue;
    if (pcapfile_next(reader, &packet, &error) != status || pcapfile_next(reader, &packet, &error) != status) return DIFFERS;
    printf("%" PRId32 " %" PRIu32 "\n", status, error.rule);
    pcapfile_close(reader);
    return 0;
}

int main(int argc, char **argv) {
    const char *way = argc > 1 && argv[1][0] == '-' ? argv[1] : "", *file = argv[argc - 1];
    if (argc < 2) return USAGE;
    if (!strcmp(way, "-p")) return list_reader(pcapfile_fdopen(0));
    if (!strcmp(way, "-q")) return count_packets(pcapfile_fdopen(0));
    if (!strcmp(way, "-g")) return count_found(pcapfile_fdopen(0));
    if (!strcmp(way, "-x")) return fail_each(file);
    if (!strcmp(way, "-s")) return print_status(file);
    if (!strcmp(way, "-t")) return printf("%s\n", pcapfile_status_text((int32_t)strtol(file, NULL, 10))) < 0;
    if (!strcmp(way, "-m") && argc == 4) return stops_at_the_limit(file, strtoul(argv[2], NULL, 10));
    if (!strcmp(way, "-b") && argc == 4) batch = strtoul(argv[2], NULL, 10);
    if (!strcmp(way, "-r") && argc == 4) most_read = strtoul(argv[2], NULL, 10);
    if (!strcmp(way, "-h")) what = HEAD;
    if (!strcmp(way, "-k")) what = BLOCKS;
    if (!strcmp(way, "-l")) what = AS_IS;
    if (!strcmp(way, "-a")) what = MIXED;
    if ((!strcmp(way, "-h") || !strcmp(way, "-k") || !strcmp(way, "-l")) && argc == 4) most_read = strtoul(argv[2], NULL, 10);
    return batch > MOST_BATCH ? USAGE : list_reader(pcapfile_open(file));
}
