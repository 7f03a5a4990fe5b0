/* Examples that read a PcapNg capture that comes in pieces. */
#include <pcapfile.h>
#include <stdio.h>
#include <stdlib.h>

/* Prints the time and the stored length of each packet. The buffer grows when a block does not fit. */
int32_t print_ng_pieces(FILE *in) {
    size_t len = 4096;
    uint8_t *room = malloc(len);
    pcapfile_push push = PCAPFILE_PUSH_INIT;
    pcapfile_section section = PCAPFILE_SECTION_INIT;
    pcapfile_interface interfaces[64] = { PCAPFILE_INTERFACE_INIT };
    pcapfile_any_packet packet = PCAPFILE_ANY_PACKET_INIT;
    pcapfile_error error = PCAPFILE_ERROR_INIT;
    int32_t status = room ? PCAPFILE_OK : PCAPFILE_NO_MEMORY;
    for (size_t count = 1; status == PCAPFILE_OK && count > 0; pcapfile_push_put(&push, room, len, count)) {
        while ((status = pcapfile_push_ng_next(&push, &section, room, len, interfaces, 64, &packet,
                                               &error)) == PCAPFILE_OK)
            printf("%lld.%09u %zu\n", (long long)packet.time.seconds,
                   (unsigned)packet.time.nanoseconds, packet.bytes.len);
        if (status != PCAPFILE_INCOMPLETE)
            break;
        if (pcapfile_push_space(&push, room, len, error.missing, &error) == PCAPFILE_NO_ROOM) {
            /* set a limit of your own here */
            uint8_t *larger = realloc(room, len += error.missing);
            if (!larger)
                break;
            room = larger;
        }
        count = fread(room + push.end, 1, len - push.end, in);
        if (count > 0 || (section.magic_number != 0 && push.begin == push.end))
            status = PCAPFILE_OK;
    }
    free(room);
    return status;
}

/* Takes the next block of the held bytes leniently, as pcapfile_push_block does strictly. */
int32_t push_block_as_is(pcapfile_push *push, pcapfile_section *section, const uint8_t *room, pcapfile_block_as_is *block,
                         pcapfile_block_flaw *flaws, size_t flaws_len, pcapfile_error *error) {
    pcapfile_bytes held = { room + push->begin, push->end - push->begin };
    int32_t status = pcapfile_take_block_as_is(section, &held, block, flaws, flaws_len, error);
    push->begin = push->end - held.len;
    return status;
}
