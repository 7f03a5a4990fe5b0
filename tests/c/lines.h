/* The common part of the programs that print the lines of `capcopy list`. */
#ifndef LINES_H
#define LINES_H

#include "file.h"

#include <inttypes.h>
#include <stdio.h>
#include <stdlib.h>
#include <string.h>

enum { REFUSED = 1, USAGE = 2, ENDED_EARLY = 3, NO_FILE = 4 };

static int status_of(int32_t status) {
    return status == PCAPFILE_OK ? 0 : status == PCAPFILE_INCOMPLETE ? ENDED_EARLY : REFUSED;
}

static void print_packet(uint64_t index, const pcapfile_packet *packet) {
    printf("%" PRIu64 " %" PRIu32 ".%09" PRIu32 " %zu/%" PRIu32 "\n", index, packet->ts_sec, packet->ts_nsec,
           packet->bytes.len, packet->orig_len);
}

static int tell(int32_t status, const pcapfile_error *error) {
    pcapfile_bytes name = PCAPFILE_NO_BYTES, text = PCAPFILE_NO_BYTES;
    if (status == PCAPFILE_INCOMPLETE) fprintf(stderr, "%zu bytes are missing\n", error->missing);
    if (status == PCAPFILE_INVALID) {
        pcapfile_rule_name(error->rule, &name);
        pcapfile_rule_text(error->rule, &text);
        fprintf(stderr, "rule %" PRIu32 ", %.*s: %.*s\n", error->rule, (int)name.len, (const char *)name.ptr,
                (int)text.len, (const char *)text.ptr);
    }
    return status_of(status);
}

/* Lists every beginning, each in a block of memory of its own, so that a read past its end is seen. */
static int list_fronts_of(int32_t (*list)(pcapfile_bytes, pcapfile_error *), pcapfile_bytes all) {
    pcapfile_error error = PCAPFILE_ERROR_INIT;
    for (size_t len = 0; len <= all.len; len++) {
        uint8_t *front = malloc(len > 0 ? len : 1);
        if (!front) return NO_FILE;
        memcpy(front, all.ptr, len);
        int32_t status = list((pcapfile_bytes){ front, len }, &error);
        printf("status %d\n", status_of(status));
        free(front);
    }
    return 0;
}

/* Does this for each of these files. */
static int list_fronts(int32_t (*list)(pcapfile_bytes, pcapfile_error *), char **files) {
    int status = 0;
    for (; *files && status == 0; files++) {
        pcapfile_bytes all = read_file(*files);
        status = all.ptr ? list_fronts_of(list, all) : NO_FILE;
        free((void *)(uintptr_t)all.ptr);
    }
    return status;
}

#endif
