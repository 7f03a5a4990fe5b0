/* Prints a packet of either format, for the programs that read such packets. */
#ifndef ANY_H
#define ANY_H

#include "pcapfile.h"

#include <inttypes.h>
#include <stdio.h>

static void print_any(FILE *out, const pcapfile_any_packet *packet) {
    fprintf(out, "%" PRIu32 " ", packet->interface_id);
    if (packet->has_time)
        fprintf(out, "%" PRId64 ".%09" PRIu32 " ", packet->time.seconds, packet->time.nanoseconds);
    else
        fprintf(out, "none ");
    if (packet->has_interface)
        fprintf(out, "%" PRIu32 " ", packet->link);
    else
        fprintf(out, "none ");
    fprintf(out, "%zu/%" PRIu32 " ", packet->bytes.len, packet->orig_len);
    for (size_t i = 0; i < packet->bytes.len; i++) fprintf(out, "%02x", packet->bytes.ptr[i]);
    fprintf(out, "\n");
}

#endif
