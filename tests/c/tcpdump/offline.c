/* Answers libpcap's calls on captures in files by the proved parser.
 *
 * Loaded before libpcap (LD_PRELOAD), it gives an unchanged program, such as tcpdump -r, its packets. Everything else remains libpcap's.
 * Each capture has a handle of libpcap that has seen the header and no packet, so that filters compile and captures are written as
 * before. Calls on other handles, such as those of interfaces, go on to libpcap.
 *
 * If the parser refuses what libpcap would take, the program gets the error of any bad file.
 */
#define _GNU_SOURCE
#include <dlfcn.h>
#include <pcap/pcap.h>
#include <stdio.h>
#include <stdlib.h>
#include <string.h>
#include <sys/mman.h>
#include <sys/stat.h>

#include "pcapfile.h"

/* The number of packets that one call of the library takes. */
enum { BATCH = 256 };

struct capture {
    pcap_t *handle;
    uint8_t *bytes;
    size_t mapped; /* how many of the bytes are those of a mapped file, 0 if they were read */
    pcapfile_bytes left;
    union {
        pcapfile_packet classic[BATCH];
        pcapfile_ng_packet ng[BATCH];
    } packets;
    size_t taken, given; /* how many of these packets there are, and how many the program already has */
    pcapfile_header header; /* for a PcapNg capture a header made from its first interface */
    pcapfile_section section;
    pcapfile_interface *interfaces; /* those of the section */
    int is_ng;
    uint8_t head[24];
    u_int precision;
    uint32_t snaplen;
    struct bpf_program filter;
    struct pcap_pkthdr last;
    int is_broken;
    char error[PCAP_ERRBUF_SIZE];
    struct capture *next;
};

static struct capture *captures;

static struct capture *capture_of(const pcap_t *handle) {
    struct capture *capture = captures;
    while (capture && capture->handle != handle) capture = capture->next;
    return capture;
}

/* libpcap's own function of this name. */
#define ORIGINAL(name) ((__typeof__(&name))(uintptr_t)dlsym(RTLD_NEXT, #name))

static void say(char *said, int32_t status, const pcapfile_error *error) {
    pcapfile_bytes name = PCAPFILE_NO_BYTES, text = PCAPFILE_NO_BYTES;
    pcapfile_rule_name(error->rule, &name);
    pcapfile_rule_text(error->rule, &text);
    if (status == PCAPFILE_INCOMPLETE)
        snprintf(said, PCAP_ERRBUF_SIZE, "pcapfile: %zu bytes are missing", error->missing);
    else if (status != PCAPFILE_INVALID)
        snprintf(said, PCAP_ERRBUF_SIZE, "pcapfile: status %d", (int)status);
    else
        snprintf(said, PCAP_ERRBUF_SIZE, "pcapfile: %.*s: %.*s", (int)name.len, (const char *)name.ptr, (int)text.len,
                 (const char *)text.ptr);
}

/* Maps a file from its position on. The file must not change while it is open. */
static int map_file(FILE *file, struct capture *capture) {
    struct stat status;
    off_t at = ftello(file);
    if (at < 0 || fstat(fileno(file), &status) != 0 || !S_ISREG(status.st_mode) || status.st_size <= at) return 0;
    size_t len = (size_t)status.st_size;
    void *bytes = mmap(NULL, len, PROT_READ, MAP_PRIVATE, fileno(file), 0);
    if (bytes == MAP_FAILED) return 0;
    capture->bytes = bytes;
    capture->mapped = len;
    capture->left = (pcapfile_bytes){ capture->bytes + at, len - (size_t)at };
    return 1;
}

static int read_all(FILE *file, struct capture *capture) {
    size_t len = 0, room = 1 << 16, more;
    while ((capture->bytes = realloc(capture->bytes, room)) && (more = fread(capture->bytes + len, 1, room - len, file)) > 0)
        if ((len += more) == room) room *= 2;
    capture->left = (pcapfile_bytes){ capture->bytes, len };
    return capture->bytes && !ferror(file);
}

static void let_go(struct capture *capture) {
    if (capture->mapped)
        munmap(capture->bytes, capture->mapped);
    else
        free(capture->bytes);
    free(capture->interfaces);
    free(capture->filter.bf_insns);
    free(capture);
}

static int take_header(struct capture *capture, char *said) {
    pcapfile_error error = PCAPFILE_ERROR_INIT;
    int32_t status = pcapfile_take_header(&capture->left, &capture->header, &error);
    if (status != PCAPFILE_OK) say(said, status, &error);
    return status == PCAPFILE_OK;
}

/* Before version 2.3 a packet's lengths were in the other order. */
static int has_old_lengths(const pcapfile_header *header, char *said) {
    unsigned major = header->version_major, minor = header->version_minor;
    snprintf(said, PCAP_ERRBUF_SIZE, "pcapfile: version %u.%u", major, minor);
    return (major == 2 && minor < 3) || major == 543;
}

/* Returns a handle of libpcap that knows only the header, as the proved writer writes it. */
static pcap_t *open_handle(struct capture *capture, char *said) {
    pcapfile_error error = PCAPFILE_ERROR_INIT;
    size_t written = 0;
    int32_t status = pcapfile_write_header(&capture->header, capture->head, sizeof capture->head, &written, &error);
    FILE *head = status == PCAPFILE_OK ? fmemopen(capture->head, written, "rb") : NULL;
    return head ? ORIGINAL(pcap_fopen_offline_with_tstamp_precision)(head, capture->precision, said) : NULL;
}

/* Keeps the interface that a block describes. libpcap requires all to be like the first one. */
static int keep_interface(struct capture *capture, const pcapfile_block *block, char *said) {
    uint32_t count = capture->section.interfaces;
    pcapfile_error error = PCAPFILE_ERROR_INIT;
    pcapfile_interface interface = PCAPFILE_INTERFACE_INIT;
    int32_t status = pcapfile_read_interface(&capture->section, block, &interface, &error);
    pcapfile_interface *kept = realloc(capture->interfaces, count * sizeof interface);
    if (kept) capture->interfaces = kept;
    if (status != PCAPFILE_OK || !kept) {
        say(said, kept ? status : PCAPFILE_NO_MEMORY, &error);
        return 0;
    }
    kept[count - 1] = interface;
    if (!capture->handle) {
        capture->header.link = interface.link;
        capture->header.snaplen = interface.snaplen;
    } else if (interface.link != capture->header.link) {
        snprintf(said, PCAP_ERRBUF_SIZE, "an interface has a type %u different from the type of the first interface",
                 (unsigned)interface.link);
        return 0;
    } else if (interface.snaplen != capture->header.snaplen) {
        snprintf(said, PCAP_ERRBUF_SIZE,
                 "an interface has a snapshot length %u different from the snapshot length of the first interface",
                 (unsigned)interface.snaplen);
        return 0;
    }
    return 1;
}

/* Takes the next block. Returns 1 if there is one, 0 at the end of the capture, and -1 if what is left is refused. */
static int take_block(struct capture *capture, pcapfile_block *block, char *said) {
    pcapfile_error error = PCAPFILE_ERROR_INIT;
    uint32_t magic = capture->section.magic_number, before = capture->section.interfaces;
    if (capture->left.len == 0) return 0;
    int32_t status = pcapfile_take_block(&capture->section, &capture->left, block, &error);
    if (status != PCAPFILE_OK) {
        say(said, status, &error);
        return -1;
    }
    if (magic != 0 && magic != capture->section.magic_number) {
        snprintf(said, PCAP_ERRBUF_SIZE, "the file has sections with different byte orders");
        return -1;
    }
    return capture->section.interfaces <= before || keep_interface(capture, block, said) ? 1 : -1;
}

static int is_packet(const pcapfile_block *block) {
    return block->type == PCAPFILE_BLOCK_ENHANCED_PACKET || block->type == PCAPFILE_BLOCK_SIMPLE_PACKET ||
           block->type == PCAPFILE_BLOCK_PACKET;
}

/* Takes the blocks up to the first interface, and makes a header from it. */
static int take_first_interface(struct capture *capture, char *said) {
    pcapfile_block block = PCAPFILE_BLOCK_INIT;
    int taken = 1;
    while (capture->section.interfaces == 0 && (taken = take_block(capture, &block, said)) == 1)
        if (is_packet(&block)) {
            snprintf(said, PCAP_ERRBUF_SIZE, "the capture file has a packet block before any Interface Description Blocks");
            return 0;
        }
    if (taken == 0) snprintf(said, PCAP_ERRBUF_SIZE, "the capture file has no Interface Description Blocks");
    capture->header.magic_number = capture->section.magic_number == 0x1a2b3c4d ? 0xa1b2c3d4 : 0xd4c3b2a1;
    capture->header.version_major = 2;
    capture->header.version_minor = 4;
    return taken == 1;
}

static int is_ng(pcapfile_bytes bytes) {
    return bytes.len >= 4 && !memcmp(bytes.ptr, "\x0a\x0d\x0d\x0a", 4);
}

/* Gives packets a value, which the library then replaces. */
static void make_packets(struct capture *capture) {
    for (size_t at = 0; at < BATCH; at++) {
        if (capture->is_ng)
            capture->packets.ng[at] = (pcapfile_ng_packet)PCAPFILE_NG_PACKET_INIT;
        else
            capture->packets.classic[at] = (pcapfile_packet)PCAPFILE_PACKET_INIT;
    }
}

static int take_front(struct capture *capture, char *said) {
    capture->is_ng = is_ng(capture->left);
    make_packets(capture);
    if (capture->is_ng) return take_first_interface(capture, said);
    return take_header(capture, said) && !has_old_lengths(&capture->header, said);
}

static pcap_t *open_capture(struct capture *capture, char *said) {
    if (!take_front(capture, said)) return NULL;
    capture->handle = open_handle(capture, said);
    if (capture->handle) capture->snaplen = (uint32_t)pcap_snapshot(capture->handle);
    return capture->handle;
}

pcap_t *pcap_fopen_offline_with_tstamp_precision(FILE *file, u_int precision, char *said) {
    struct capture *capture = calloc(1, sizeof *capture);
    pcap_t *handle = NULL;
    if (!capture) return NULL;
    capture->precision = precision;
    if (map_file(file, capture) || read_all(file, capture))
        handle = open_capture(capture, said);
    else
        snprintf(said, PCAP_ERRBUF_SIZE, "pcapfile: the file can't be read");
    if (!handle) {
        let_go(capture);
        return NULL;
    }
    if (file != stdin) fclose(file);
    capture->next = captures;
    captures = capture;
    return handle;
}

pcap_t *pcap_open_offline_with_tstamp_precision(const char *name, u_int precision, char *said) {
    FILE *file = strcmp(name, "-") ? fopen(name, "rb") : stdin;
    if (!file) {
        snprintf(said, PCAP_ERRBUF_SIZE, "%s: No such file or directory", name);
        return NULL;
    }
    pcap_t *handle = pcap_fopen_offline_with_tstamp_precision(file, precision, said);
    if (!handle && file != stdin) fclose(file);
    return handle;
}

pcap_t *pcap_open_offline(const char *name, char *said) {
    return pcap_open_offline_with_tstamp_precision(name, PCAP_TSTAMP_PRECISION_MICRO, said);
}

pcap_t *pcap_fopen_offline(FILE *file, char *said) {
    return pcap_fopen_offline_with_tstamp_precision(file, PCAP_TSTAMP_PRECISION_MICRO, said);
}

static int is_native(const pcapfile_header *header) {
    const uint8_t *order = (const uint8_t *)&(uint16_t){ 1 };
    int is_big = header->magic_number == 0xa1b2c3d4 || header->magic_number == 0xa1b23c4d;
    return is_big != order[0];
}

/* Gives a packet of a PcapNg capture as libpcap shows it. */
static int show_ng_packet(struct capture *capture, const pcapfile_ng_packet *packet, struct pcap_pkthdr *header) {
    pcapfile_time time = PCAPFILE_TIME_INIT;
    if (packet->interface_id >= capture->section.interfaces) {
        snprintf(capture->error, PCAP_ERRBUF_SIZE,
                 "a packet arrived on interface %u, but there's no Interface Description Block for that interface",
                 (unsigned)packet->interface_id);
        return -1;
    }
    uint32_t stored = (uint32_t)packet->bytes.len;
    int is_simple = packet->type == PCAPFILE_BLOCK_SIMPLE_PACKET;
    if (is_simple && packet->orig_len < stored) stored = packet->orig_len;
    if (is_simple && capture->snaplen < stored) stored = capture->snaplen;
    if (stored > capture->snaplen) {
        snprintf(capture->error, PCAP_ERRBUF_SIZE, "invalid packet capture length %u, bigger than snaplen of %d",
                 (unsigned)stored, (int)capture->snaplen);
        return -1;
    }
    pcapfile_time_of(&capture->interfaces[packet->interface_id], packet->timestamp, &time);
    int is_nano = capture->precision == PCAP_TSTAMP_PRECISION_NANO;
    header->ts.tv_sec = (time_t)time.seconds;
    header->ts.tv_usec = (suseconds_t)(is_nano ? time.nanoseconds : time.nanoseconds / 1000);
    header->len = packet->orig_len;
    header->caplen = stored;
    return 1;
}

/* Gives a packet of a classic capture as libpcap shows it. */
static void show_packet(const struct capture *capture, const pcapfile_packet *packet, struct pcap_pkthdr *header) {
    int is_nano = capture->precision == PCAP_TSTAMP_PRECISION_NANO;
    /* In the order of this machine libpcap takes seconds for a signed number. */
    header->ts.tv_sec = is_native(&capture->header) ? (int32_t)packet->ts_sec : (time_t)packet->ts_sec;
    header->ts.tv_usec = (suseconds_t)(is_nano ? packet->ts_nsec : packet->ts_nsec / 1000);
    header->len = packet->orig_len;
    header->caplen = packet->bytes.len < capture->snaplen ? (uint32_t)packet->bytes.len : capture->snaplen;
}

/* Takes the next packets, as many as there is room for. Returns 1 if there are any, 0 at the end of the capture, and -1 if what is left
 * is refused. */
static int take_packets(struct capture *capture) {
    pcapfile_block block = PCAPFILE_BLOCK_INIT;
    capture->given = capture->taken = 0;
    while (capture->left.len > 0) {
        pcapfile_error error = PCAPFILE_ERROR_INIT;
        int32_t status = capture->is_ng ? pcapfile_take_ng_packets(&capture->section, &capture->left, capture->packets.ng, BATCH,
                                                                   &capture->taken, &error)
                                        : pcapfile_take_packets(&capture->header, &capture->left, capture->packets.classic, BATCH,
                                                                &capture->taken, &error);
        if (capture->taken > 0) return 1;
        if (status == PCAPFILE_NOTHING) {
            if (take_block(capture, &block, capture->error) != 1) return -1;
        } else if (status != PCAPFILE_OK) {
            say(capture->error, status, &error);
            return -1;
        }
    }
    return 0;
}

/* Takes the next packet. Returns 1 if there is one, 0 at the end of the capture, and -1 if what is left is refused. */
static int take(struct capture *capture, struct pcap_pkthdr *header, const u_char **data) {
    int taken = capture->given < capture->taken ? 1 : take_packets(capture);
    if (taken != 1) return taken;
    size_t at = capture->given++;
    if (capture->is_ng) {
        *data = capture->packets.ng[at].bytes.ptr;
        return show_ng_packet(capture, &capture->packets.ng[at], header);
    }
    *data = capture->packets.classic[at].bytes.ptr;
    show_packet(capture, &capture->packets.classic[at], header);
    return 1;
}

/* Takes the next packet that the filter accepts. */
static int take_matching(struct capture *capture, struct pcap_pkthdr *header, const u_char **data) {
    int taken = take(capture, header, data);
    while (taken == 1 && capture->filter.bf_insns && !pcap_offline_filter(&capture->filter, header, *data))
        taken = take(capture, header, data);
    return taken;
}

static int give_packets(struct capture *capture, int most, pcap_handler give, u_char *user) {
    const u_char *data;
    int given = 0, taken = 1;
    while ((most <= 0 || given < most) && !capture->is_broken && (taken = take_matching(capture, &capture->last, &data)) == 1) {
        give(user, &capture->last, data);
        given++;
    }
    if (taken < 0) return PCAP_ERROR;
    if (capture->is_broken) {
        capture->is_broken = 0;
        return PCAP_ERROR_BREAK;
    }
    return given;
}

int pcap_loop(pcap_t *handle, int most, pcap_handler give, u_char *user) {
    struct capture *capture = capture_of(handle);
    if (!capture) return ORIGINAL(pcap_loop)(handle, most, give, user);
    int given = give_packets(capture, most, give, user);
    return given < 0 ? given : 0;
}

int pcap_dispatch(pcap_t *handle, int most, pcap_handler give, u_char *user) {
    struct capture *capture = capture_of(handle);
    return capture ? give_packets(capture, most, give, user) : ORIGINAL(pcap_dispatch)(handle, most, give, user);
}

int pcap_next_ex(pcap_t *handle, struct pcap_pkthdr **header, const u_char **data) {
    struct capture *capture = capture_of(handle);
    if (!capture) return ORIGINAL(pcap_next_ex)(handle, header, data);
    *header = &capture->last;
    int taken = take_matching(capture, *header, data);
    return taken == 0 ? PCAP_ERROR_BREAK : taken;
}

const u_char *pcap_next(pcap_t *handle, struct pcap_pkthdr *header) {
    struct capture *capture = capture_of(handle);
    const u_char *data;
    if (!capture) return ORIGINAL(pcap_next)(handle, header);
    return take_matching(capture, header, &data) == 1 ? data : NULL;
}

int pcap_setfilter(pcap_t *handle, struct bpf_program *program) {
    struct capture *capture = capture_of(handle);
    if (!capture) return ORIGINAL(pcap_setfilter)(handle, program);
    size_t len = program->bf_len * sizeof *program->bf_insns;
    struct bpf_insn *copied = malloc(len);
    if (!copied) return PCAP_ERROR;
    memcpy(copied, program->bf_insns, len);
    free(capture->filter.bf_insns);
    capture->filter = (struct bpf_program){ program->bf_len, copied };
    return 0;
}

void pcap_breakloop(pcap_t *handle) {
    struct capture *capture = capture_of(handle);
    if (capture)
        capture->is_broken = 1;
    else
        ORIGINAL(pcap_breakloop)(handle);
}

char *pcap_geterr(pcap_t *handle) {
    struct capture *capture = capture_of(handle);
    return capture && capture->error[0] ? capture->error : ORIGINAL(pcap_geterr)(handle);
}

void pcap_close(pcap_t *handle) {
    struct capture *capture = capture_of(handle), **at = &captures;
    ORIGINAL(pcap_close)(handle);
    while (*at && *at != capture) at = &(*at)->next;
    if (!capture) return;
    *at = capture->next;
    let_go(capture);
}
