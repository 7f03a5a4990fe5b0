/* calls SEED SECONDS CAPTURE..: makes every call of pcapfile.h on damaged captures, and refuses allocations. Their bytes, and all rooms
 * that a call may write, end at a page that can't be touched. Prints how many captures it tried, or what was wrong and how to see it
 * again.
 *
 * Linked with --wrap=malloc and --wrap=realloc. */
#include "pcapfile.h"

#include <inttypes.h>
#include <stdbool.h>
#include <stdio.h>
#include <stdlib.h>
#include <string.h>
#include <sys/mman.h>
#include <time.h>
#include <unistd.h>

enum { MOST = 1 << 17, MANY = 64, NEVER = -1, EDGES = 24 };

static uint64_t state, begun;
static long allocations, failing = NEVER;

void *__real_malloc(size_t len);
void *__real_realloc(void *memory, size_t len);
void *__wrap_malloc(size_t len) { return allocations++ == failing ? NULL : __real_malloc(len); }
void *__wrap_realloc(void *memory, size_t len) { return allocations++ == failing ? NULL : __real_realloc(memory, len); }

/* Returns the next number of the sequence that the seed begins. */
static uint64_t next_number(void) {
    state ^= state << 13;
    state ^= state >> 7;
    state ^= state << 17;
    return state;
}
static size_t below(size_t end) { return end == 0 ? 0 : next_number() % end; }

static void expect(bool holds, int line, const char *what) {
    if (holds) return;
    printf("calls.c:%d: %s\nseen again by: calls %" PRIu64 " 0 ..\n", line, what, begun);
    exit(1);
}
#define EXPECT(what) expect(what, __LINE__, #what)

/* Returns room of this length, suitable for `alignment`, that ends at a page that can't be touched. */
typedef struct room { uint8_t *pages; size_t len; } room;
static size_t page;
static room make_room(size_t len) {
    size_t pages = (len + page - 1) / page * page;
    uint8_t *memory = mmap(NULL, pages + page, PROT_READ | PROT_WRITE, MAP_PRIVATE | MAP_ANONYMOUS, -1, 0);
    EXPECT(memory != MAP_FAILED && mprotect(memory + pages, page, PROT_NONE) == 0);
    return (room){ memory, pages };
}
static void *last(const room *of, size_t len) { return of->pages + of->len - len; }

static room capture_room, written_room, array_room;

static const uint32_t edges[EDGES] = { 0, 1, 3, 4, 7, 8, 11, 12, 13, 16, 20, 28, 32, 255, 65535, 65536, 4294967, 4294968, 262143, 262144, 262145,
                                       0x7fffffff, 0xfffffffc, 0xffffffff };

/* Damages the capture in place, and returns its new length. */
static size_t damage(uint8_t *bytes, size_t len) {
    for (size_t times = below(5); times > 0 && len > 8; times--) {
        size_t at = below(len - 4);
        switch (below(6)) {
        case 0: bytes[at] ^= (uint8_t)(1u << below(8)); break;
        case 1: memcpy(bytes + (at & ~(size_t)3), &edges[below(EDGES)], 4); break;
        case 2: bytes[at] = (uint8_t)next_number(); break;
        case 3: len = at + 4; break;
        case 4: memmove(bytes + at, bytes + at + 4, len - at - 4); len -= 4; break;
        default: memcpy(bytes + at, bytes + below(len - 4), 4); break;
        }
    }
    return len;
}

static bool lies_in(const pcapfile_bytes *inner, const pcapfile_bytes *outer) {
    return inner->len == 0 || (inner->ptr >= outer->ptr && inner->len <= outer->len && inner->ptr - outer->ptr <= (ptrdiff_t)(outer->len - inner->len));
}

/* Checks that a call's error agrees with its status. */
static void told(int32_t status, const pcapfile_error *error, const pcapfile_error *before) {
    switch (status) {
    case PCAPFILE_OK: case PCAPFILE_NOTHING: case PCAPFILE_BAD_CALL: case PCAPFILE_NO_PLACE:
        EXPECT(error->rule == before->rule && error->missing == before->missing);
        break;
    case PCAPFILE_INCOMPLETE: case PCAPFILE_NO_ROOM: EXPECT(error->rule == 0 && error->missing > 0); break;
    case PCAPFILE_INVALID: EXPECT(error->rule > 0 && error->missing == 0); break;
    case PCAPFILE_BAD_VALUE: case PCAPFILE_NOT_UTF8: case PCAPFILE_NO_MEMORY: EXPECT(error->rule == 0 && error->missing == 0); break;
    default: EXPECT(!"a documented status");
    }
}

/* Checks that the bytes that are left are an end of those before, and all of them if the call took nothing. */
static void leaves(int32_t status, const pcapfile_bytes *left, const pcapfile_bytes *was) {
    EXPECT(left->len <= was->len && left->ptr + left->len == was->ptr + was->len);
    if (status != PCAPFILE_OK) EXPECT(left->ptr == was->ptr);
}

#define CALL(status, call) do { before = error; status = (call); told(status, &error, &before); } while (0)

/* Checks the answer of a call that skips corrupt bytes: the number and the flag are set or unchanged. */
static void skips(int32_t status, const pcapfile_bytes *left, size_t skipped, uint8_t is_over) {
    if (status == PCAPFILE_OK) EXPECT(skipped <= left->len && is_over <= 1);
    else EXPECT(status == PCAPFILE_INCOMPLETE && skipped == SIZE_MAX && is_over == 9);
}

/* Reads the packets of a classic capture one by one, many at once, as rows and leniently. */
static void classic(pcapfile_bytes capture) {
    pcapfile_error error = { 77, 77 }, before;
    pcapfile_header header = PCAPFILE_HEADER_INIT;
    pcapfile_bytes left = capture, was = left;
    int32_t status, refused = PCAPFILE_OK;
    CALL(status, pcapfile_take_header(&left, &header, &error));
    leaves(status, &left, &was);
    if (status != PCAPFILE_OK) return;
    pcapfile_bytes many = left, rows_left = left, start = left;
    size_t count = 0, taken = 0;
    pcapfile_packet *packets = last(&array_room, MANY * sizeof *packets), packet = PCAPFILE_PACKET_INIT;
    pcapfile_row *rows = (pcapfile_row *)written_room.pages;
    while (refused == PCAPFILE_OK) {
        CALL(status, pcapfile_take_packets(&header, &many, packets, MANY, &taken, &error));
        EXPECT(taken <= MANY && (taken == MANY || status != PCAPFILE_OK || many.len == 0));
        for (size_t i = 0; i < taken; i++, count++) {
            was = left;
            CALL(refused, pcapfile_take_packet(&header, &left, &packet, &error));
            EXPECT(refused == PCAPFILE_OK && lies_in(&packet.bytes, &was));
            leaves(refused, &left, &was);
            EXPECT(packet.bytes.ptr == packets[i].bytes.ptr && packet.bytes.len == packets[i].bytes.len);
        }
        EXPECT(left.ptr == many.ptr);
        if (status == PCAPFILE_OK && many.len > 0) continue;
        was = left;
        CALL(refused, pcapfile_take_packet(&header, &left, &packet, &error));
        leaves(refused, &left, &was);
        EXPECT(refused != PCAPFILE_OK && (status == PCAPFILE_OK || status == refused));
    }
    for (taken = MANY; taken == MANY; count -= taken) {
        CALL(status, pcapfile_take_rows(&header, &rows_left, rows, MANY, &taken, &error));
        EXPECT(taken <= MANY);
    }
    EXPECT(count == 0 && rows_left.ptr == left.ptr);
    pcapfile_packet_as_is standing = PCAPFILE_PACKET_AS_IS_INIT;
    for (left = start, status = PCAPFILE_OK; status == PCAPFILE_OK;) {
        was = left;
        CALL(status, pcapfile_take_packet_as_is(&header, &left, (uint32_t)below(1 << 20), &standing, &error));
        leaves(status, &left, &was);
        if (status == PCAPFILE_OK) EXPECT(lies_in(&standing.bytes, &was) && (standing.flaws == 0) == (standing.first_flaw == 0));
    }
    size_t place = SIZE_MAX;
    CALL(status, pcapfile_resync(&header, &left, below(4), &place, &error));
    EXPECT(status == PCAPFILE_OK ? place <= left.len : place == SIZE_MAX);
    size_t gap = SIZE_MAX, skipped = SIZE_MAX;
    uint32_t time = below(2) ? standing.ts_sec : (uint32_t)below(1 << 30);
    uint8_t is_all = (uint8_t)below(3), is_over = 9;
    CALL(status, pcapfile_skip_to_packets(&header, time, &left, is_all, &skipped, &is_over, &error));
    skips(status, &left, skipped, is_over);
    uint32_t right = UINT32_MAX;
    CALL(status, pcapfile_judge_packet(&header, time, &left, is_all, &gap, &right, &error));
    EXPECT(status == PCAPFILE_OK ? gap <= left.len : gap == SIZE_MAX && right == UINT32_MAX);
    EXPECT(status != PCAPFILE_OK || right == 0 || (gap == 0 && right <= left.len && left.len - right >= 16));
    EXPECT(status != PCAPFILE_INCOMPLETE || (is_all == 0 && error.missing > 0));
}

/* Checks the parts of a capture of either format: their bounds rise, and are in the capture. */
static void cuts(pcapfile_bytes capture) {
    pcapfile_error error = { 77, 77 }, before;
    size_t parts = below(MANY), count = 0, known = 0, at_least = below(capture.len + 2);
    pcapfile_cut *cut = last(&array_room, parts * sizeof *cut);
    int32_t status;
    CALL(status, below(2) ? pcapfile_cut_packets(&capture, cut, parts, &count, &error)
                          : pcapfile_cut_packets_at_least(&capture, at_least, cut, parts, &count, &error));
    EXPECT(count <= parts && (status == PCAPFILE_OK || count == 0));
    for (size_t i = 0; i < count; i++) EXPECT(cut[i].offset <= capture.len && (i == 0 || cut[i].offset > cut[i - 1].offset));
    pcapfile_ng_cut *places = last(&array_room, parts * sizeof *places);
    size_t interfaces_len = below(MANY), *interfaces = last(&written_room, interfaces_len * sizeof *interfaces);
    CALL(status, below(2) ? pcapfile_cut_blocks(&capture, places, parts, &count, interfaces, interfaces_len, &known, &error)
                          : pcapfile_cut_blocks_at_least(&capture, at_least, places, parts, &count, interfaces, interfaces_len, &known, &error));
    EXPECT(count <= parts && (status == PCAPFILE_OK || count == 0));
    for (size_t i = 0; i < count; i++)
        EXPECT(places[i].at.offset <= capture.len && places[i].header <= places[i].at.offset && places[i].first + places[i].interfaces <= known);
}

/* Reads everything that the calls give of one block. */
static void read_block(const pcapfile_section *section, const pcapfile_block *block, pcapfile_bytes capture) {
    pcapfile_error error = { 77, 77 }, before;
    pcapfile_interface interface = PCAPFILE_INTERFACE_INIT;
    pcapfile_ng_packet packet = PCAPFILE_NG_PACKET_INIT;
    pcapfile_option option = PCAPFILE_OPTION_INIT;
    pcapfile_record record = PCAPFILE_RECORD_INIT;
    pcapfile_time time = PCAPFILE_TIME_INIT;
    pcapfile_bytes options = PCAPFILE_NO_BYTES, name = PCAPFILE_NO_BYTES, was, records = block->body;
    int32_t status;
    EXPECT(lies_in(&block->body, &capture));
    CALL(status, pcapfile_read_interface(section, block, &interface, &error));
    EXPECT((status = pcapfile_time_of(&interface, next_number(), &time)) == PCAPFILE_OK || status == PCAPFILE_NOTHING);
    CALL(status, pcapfile_read_packet(section, block, &packet, &error));
    if (status == PCAPFILE_OK) EXPECT(lies_in(&packet.bytes, &block->body));
    CALL(status, pcapfile_options(section, block, &options, &error));
    if (status == PCAPFILE_OK) EXPECT(lies_in(&options, &block->body));
    for (status = options.len > 0 ? PCAPFILE_OK : PCAPFILE_NOTHING; status == PCAPFILE_OK;) {
        was = options;
        CALL(status, pcapfile_take_option(section, &options, &option, &error));
        leaves(status, &options, &was);
        if (status == PCAPFILE_OK) EXPECT(option.code > 0 && lies_in(&option.value, &was));
    }
    for (status = PCAPFILE_OK; status == PCAPFILE_OK;) {
        was = records;
        CALL(status, pcapfile_take_record(section, &records, &record, &error));
        leaves(status, &records, &was);
        if (status != PCAPFILE_OK) break;
        EXPECT(lies_in(&record.address, &was) && lies_in(&record.names, &was));
        while (pcapfile_take_name(&record.names, &name, &error) == PCAPFILE_OK) EXPECT(name.ptr[name.len] == 0);
        EXPECT(record.names.len == 0);
    }
}

/* Reads the blocks of a capture one by one, strictly and leniently, and refuses an allocation now and then. */
static void walk_blocks(pcapfile_bytes capture) {
    pcapfile_error error = { 77, 77 }, before;
    pcapfile_section section = PCAPFILE_SECTION_INIT, lenient = section, old;
    pcapfile_bytes left = capture, was;
    pcapfile_block block = PCAPFILE_BLOCK_INIT;
    int32_t status = PCAPFILE_OK;
    while (status == PCAPFILE_OK) {
        was = left, old = section;
        if (below(4) == 0) failing = allocations + (long)below(4);
        CALL(status, pcapfile_take_block(&section, &left, &block, &error));
        failing = NEVER;
        leaves(status, &left, &was);
        if (status != PCAPFILE_OK) EXPECT(memcmp(&old, &section, sizeof old) == 0);
        if (status == PCAPFILE_NO_MEMORY) CALL(status, pcapfile_take_block(&section, &left, &block, &error));
        if (status == PCAPFILE_OK) read_block(&section, &block, capture);
    }
    pcapfile_block_as_is standing = PCAPFILE_BLOCK_AS_IS_INIT;
    size_t places = below(MANY);
    pcapfile_block_flaw *flaws = last(&array_room, places * sizeof *flaws);
    for (left = capture, status = PCAPFILE_OK; status == PCAPFILE_OK;) {
        was = left;
        CALL(status, pcapfile_take_block_as_is(&lenient, &left, &standing, flaws, places, &error));
        leaves(status, &left, &was);
        if (status == PCAPFILE_OK) EXPECT(lies_in(&standing.body, &was));
    }
    size_t skipped = SIZE_MAX;
    uint8_t is_over = 9;
    CALL(status, pcapfile_skip_to_blocks(&lenient, &left, (uint8_t)below(3), &skipped, &is_over, &error));
    skips(status, &left, skipped, is_over);
}

/* Reads the packets of a capture of either format in memory, many at once, and in pieces. All ways must give the same number. */
static size_t walk_any(pcapfile_bytes capture) {
    pcapfile_error error = { 77, 77 }, before;
    pcapfile_capture kept = PCAPFILE_CAPTURE_INIT;
    pcapfile_interface interfaces[MANY];
    pcapfile_any_packet packet = PCAPFILE_ANY_PACKET_INIT;
    pcapfile_bytes left = capture;
    size_t count = 0;
    int32_t status = PCAPFILE_OK;
    while (status == PCAPFILE_OK) {
        CALL(status, pcapfile_take_any(&kept, &left, interfaces, MANY, &packet, &error));
        if (status == PCAPFILE_OK) EXPECT(++count && lies_in(&packet.bytes, &capture));
    }
    return count;
}

static size_t walk_pieces(pcapfile_bytes capture) {
    pcapfile_error error = { 77, 77 }, before;
    pcapfile_push push = PCAPFILE_PUSH_INIT;
    pcapfile_section section = PCAPFILE_SECTION_INIT;
    pcapfile_interface interfaces[MANY];
    pcapfile_any_packet found = PCAPFILE_ANY_PACKET_INIT;
    pcapfile_packet packet = PCAPFILE_PACKET_INIT;
    size_t given = 0, count = 0, room_len = MOST;
    uint8_t *room = last(&written_room, room_len);
    bool is_blocks = capture.len >= 4 && memcmp(capture.ptr, "\n\r\r\n", 4) == 0;
    int32_t status = PCAPFILE_INCOMPLETE;
    while (status == PCAPFILE_INCOMPLETE || status == PCAPFILE_OK) {
        CALL(status, is_blocks ? pcapfile_push_ng_next(&push, &section, room, room_len, interfaces, MANY, &found, &error)
                               : pcapfile_push_next(&push, room, room_len, &packet, &error));
        count += status == PCAPFILE_OK;
        if (status != PCAPFILE_INCOMPLETE) continue;
        size_t piece = 1 + below(1 << below(14));
        if (piece > capture.len - given) piece = capture.len - given;
        if (piece == 0) return count;
        CALL(status, pcapfile_push_space(&push, room, room_len, piece, &error));
        if (status == PCAPFILE_NO_ROOM) return SIZE_MAX;
        EXPECT(status == PCAPFILE_OK);
        memcpy(room + push.end, capture.ptr + given, piece);
        given += piece;
        EXPECT(pcapfile_push_put(&push, room, room_len, piece) == PCAPFILE_OK);
        status = PCAPFILE_INCOMPLETE;
    }
    return count;
}

/* Writes a packet and its blocks into room that is just long enough. It must fail if a byte of room is missing. */
static void writes(void) {
    pcapfile_error error = { 77, 77 }, before;
    pcapfile_header header = { 0xd4c3b2a1, 2, 4, 0, 0, 65535, 1 };
    pcapfile_section section = PCAPFILE_SECTION_LITTLE_ENDIAN;
    pcapfile_bytes data = { capture_room.pages, below(2000) };
    pcapfile_packet packet = { (uint32_t)next_number(), (uint32_t)below(1000000000), (uint32_t)next_number(), data };
    pcapfile_ng_packet enhanced = { 6, 0, (uint32_t)next_number(), next_number(), data };
    pcapfile_interface interface = { (uint32_t)below(65536), 0, below(2) ? 10 : 2, (uint8_t)below(128), (int64_t)below(2) };
    size_t written = 0;
    int32_t status;
    for (int kind = 0; kind < 5; kind++) {
        for (size_t len = 0, missing = 1; missing > 0; len += missing) {
            uint8_t *room = last(&written_room, len);
            CALL(status, kind == 0 ? pcapfile_write_header(&header, room, len, &written, &error)
                       : kind == 1 ? pcapfile_write_packet(&header, &packet, room, len, &written, &error)
                       : kind == 2 ? pcapfile_put_section(&section, room, len, &written, &error)
                       : kind == 3 ? pcapfile_put_interface(&section, &interface, room, len, &written, &error)
                                   : pcapfile_put_ng_packet(&section, &enhanced, room, len, &written, &error));
            EXPECT(status == PCAPFILE_OK || status == PCAPFILE_INCOMPLETE || status == PCAPFILE_NO_ROOM);
            missing = status == PCAPFILE_OK ? 0 : error.missing;
            if (missing == 0) EXPECT(written == len);
        }
    }
}

/* Writes a block with these options, or only the options, into room that is just long enough. Returns its status, and what it wrote. */
static int32_t put_with(int kind, pcapfile_section *section, const pcapfile_interface *interface, const pcapfile_ng_packet *packet,
                        const pcapfile_option *options, size_t count, pcapfile_bytes *block) {
    pcapfile_error error = { 77, 77 }, before;
    size_t written = 0, len = 0;
    int32_t status;
    for (;;) {
        uint8_t *room = last(&written_room, len);
        CALL(status, kind == 0 ? pcapfile_put_section_with(section, options, count, room, len, &written, &error)
                   : kind == 1 ? pcapfile_put_interface_with(section, interface, options, count, room, len, &written, &error)
                   : kind == 2 ? pcapfile_put_ng_packet_with(section, packet, options, count, room, len, &written, &error)
                               : pcapfile_put_options(section, options, count, room, len, &written, &error));
        if (status != PCAPFILE_INCOMPLETE && status != PCAPFILE_NO_ROOM) {
            EXPECT(status != PCAPFILE_OK || written == len);
            *block = (pcapfile_bytes){ room, len };
            return status;
        }
        len += error.missing;
    }
}

/* Checks that this list has exactly these options, besides those of an interface's clock. */
static void lists(const pcapfile_section *section, pcapfile_bytes list, const pcapfile_option *options, size_t count) {
    pcapfile_error error = PCAPFILE_ERROR_INIT;
    pcapfile_option option = PCAPFILE_OPTION_INIT;
    size_t found = 0;
    while (pcapfile_take_option(section, &list, &option, &error) == PCAPFILE_OK) {
        if (option.code == 9 || option.code == 14) continue;
        EXPECT(found < count && option.code == options[found].code && option.value.len == options[found].value.len);
        EXPECT(memcmp(option.value.ptr, options[found].value.ptr, option.value.len) == 0);
        found++;
    }
    EXPECT(found == count);
}

/* Checks that a reader takes this block with these options. */
static void reads_back(pcapfile_section *section, pcapfile_bytes left, const pcapfile_option *options, size_t count) {
    pcapfile_error error = PCAPFILE_ERROR_INIT;
    pcapfile_block block = PCAPFILE_BLOCK_INIT;
    pcapfile_bytes list = PCAPFILE_NO_BYTES;
    EXPECT(pcapfile_take_block(section, &left, &block, &error) == PCAPFILE_OK && left.len == 0);
    EXPECT(pcapfile_options(section, &block, &list, &error) == PCAPFILE_OK);
    lists(section, list, options, count);
}

/* Writes blocks with custom options, and one with an option that no call writes. Reads the blocks back. */
static void writes_options(void) {
    enum { CUSTOM = 2989, MOST_OPTIONS = 5 };
    pcapfile_section section = PCAPFILE_SECTION_LITTLE_ENDIAN, read = PCAPFILE_SECTION_INIT;
    if (below(2)) section.magic_number = 0x1a2b3c4d;
    pcapfile_interface interface = { (uint32_t)below(65536), 0, below(2) ? 10 : 2, (uint8_t)below(128), (int64_t)below(2) };
    pcapfile_bytes data = { capture_room.pages, below(2000) }, block;
    pcapfile_ng_packet packet = { 6, 0, (uint32_t)next_number(), next_number(), data };
    pcapfile_option options[MOST_OPTIONS];
    size_t count = below(MOST_OPTIONS);
    for (size_t k = 0; k < count; k++) options[k] = (pcapfile_option){ CUSTOM, { capture_room.pages + below(64), 4 + below(300) } };
    for (int kind = 0; kind < 3; kind++) {
        EXPECT(put_with(kind, &section, &interface, &packet, options, count, &block) == PCAPFILE_OK);
        reads_back(&read, block, options, count);
        EXPECT(read.interfaces == section.interfaces && read.magic_number == section.magic_number);
    }
    EXPECT(put_with(3, &section, &interface, &packet, options, count, &block) == PCAPFILE_OK);
    lists(&section, block, options, count);
    pcapfile_section was = section;
    options[count] = (pcapfile_option){ below(2) ? 0 : CUSTOM, { capture_room.pages, 65536 } };
    for (int kind = 0; kind < 4; kind++) {
        EXPECT(put_with(kind, &section, &interface, &packet, options, count + 1, &block) == PCAPFILE_BAD_CALL);
        EXPECT(memcmp(&section, &was, sizeof was) == 0);
    }
}

static void try_one(const uint8_t *bytes, size_t len) {
    uint8_t *copy = capture_room.pages;
    memcpy(copy, bytes, len);
    len = damage(copy, len);
    pcapfile_bytes capture = { memmove(last(&capture_room, len), copy, len), len };
    classic(capture);
    walk_blocks(capture);
    cuts(capture);
    size_t in_pieces = walk_pieces(capture);
    EXPECT(in_pieces == SIZE_MAX || in_pieces == walk_any(capture));
    writes();
    writes_options();
}

int main(int count, char **words) {
    if (count < 4) return 2;
    page = (size_t)sysconf(_SC_PAGESIZE);
    capture_room = make_room(MOST), written_room = make_room(2 * MOST), array_room = make_room(MANY * 128);
    uint64_t seed = strtoull(words[1], NULL, 10), tried = 0;
    time_t end = time(NULL) + atol(words[2]);
    static uint8_t bytes[MOST];
    do {
        begun = seed + tried;
        state = begun * 0x9e3779b97f4a7c15u + 1;
        FILE *file = fopen(words[3 + below((size_t)count - 3)], "rb");
        size_t len = file == NULL ? 0 : fread(bytes, 1, sizeof bytes, file);
        if (file != NULL) fclose(file);
        try_one(bytes, len);
        tried++;
    } while (time(NULL) < end);
    printf("calls: %" PRIu64 " captures from seed %" PRIu64 " on\n", tried, seed);
    return 0;
}
