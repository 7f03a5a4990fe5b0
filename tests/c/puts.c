/* Writes blocks by the library's C header. `puts` reads a row for each block from its input, and writes the blocks one after another, in
 * a buffer that grows by what is missing.
 *
 *   s MAGIC MAJOR MINOR                             a section header, the magic number in hexadecimal digits
 *   i LINK SNAPLEN BASE EXPONENT OFFSET             an interface
 *   p INTERFACE TIMESTAMP ORIGINAL LENGTH BYTE      a packet of LENGTH times BYTE
 *
 * For a refused row it writes no block, and `refused RULE` to the error output. */
#include "pcapfile.h"

#include <inttypes.h>
#include <stdio.h>
#include <stdlib.h>
#include <string.h>

enum { LONGEST = 1 << 17 };

/* Writes what a row asks for. Returns a bad call's status if there is no such row. */
static int32_t put(const char *row, pcapfile_section *section, uint8_t *room, size_t room_len, size_t *written,
                   pcapfile_error *error) {
    static uint8_t data[LONGEST];
    pcapfile_interface interface = PCAPFILE_INTERFACE_INIT;
    pcapfile_ng_packet packet = PCAPFILE_NG_PACKET_INIT;
    size_t length;
    unsigned byte;
    if (sscanf(row, "s %" SCNx32 " %" SCNu16 " %" SCNu16, &section->magic_number, &section->version_major,
               &section->version_minor) == 3)
        return pcapfile_put_section(section, room, room_len, written, error);
    if (sscanf(row, "i %" SCNu32 " %" SCNu32 " %" SCNu8 " %" SCNu8 " %" SCNd64, &interface.link, &interface.snaplen,
               &interface.ts_base, &interface.ts_exponent, &interface.ts_offset) == 5)
        return pcapfile_put_interface(section, &interface, room, room_len, written, error);
    if (sscanf(row, "p %" SCNu32 " %" SCNu64 " %" SCNu32 " %zu %u", &packet.interface_id, &packet.timestamp, &packet.orig_len,
               &length, &byte) == 5 && length <= LONGEST) {
        memset(data, (int)byte, length);
        packet.bytes = (pcapfile_bytes){ data, length };
        return pcapfile_put_ng_packet(section, &packet, room, room_len, written, error);
    }
    return PCAPFILE_BAD_CALL;
}

int main(void) {
    pcapfile_section section = PCAPFILE_SECTION_INIT;
    pcapfile_error error = PCAPFILE_ERROR_INIT;
    uint8_t *room = malloc(1);
    size_t room_len = 0, written = 0;
    char row[128];
    while (room && fgets(row, sizeof row, stdin)) {
        int32_t status = put(row, &section, room, room_len, &written, &error);
        if (status == PCAPFILE_NO_ROOM) {
            room = realloc(room, room_len += error.missing);
            status = room ? put(row, &section, room, room_len, &written, &error) : PCAPFILE_NO_MEMORY;
        }
        if (status == PCAPFILE_OK)
            fwrite(room, 1, written, stdout);
        else if (status == PCAPFILE_INVALID)
            fprintf(stderr, "refused %u\n", (unsigned)error.rule);
        else
            return 1;
    }
    free(room);
    return room == NULL;
}
