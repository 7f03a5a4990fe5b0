/* Examples that read a capture of either format from a file. */
#include <pcapfile_open.h>
#include <stdio.h>

/* Prints what a capture says before its first packet: its format, and its link type or those of its interfaces. */
int32_t print_head(const char *path) {
    pcapfile_reader *reader = pcapfile_open(path);
    pcapfile_capture head = PCAPFILE_CAPTURE_INIT;
    const pcapfile_interface *interfaces = NULL;
    pcapfile_error error = PCAPFILE_ERROR_INIT;
    int32_t status;
    if (!reader)
        return PCAPFILE_SYSTEM; /* errno says why */
    status = pcapfile_head(reader, &head, &interfaces, &error);
    if (status != PCAPFILE_OK)
        fprintf(stderr, "%s: %s\n", path, pcapfile_status_text(status));
    else if (head.section.magic_number == 0)
        printf("pcap, link type %u\n", (unsigned)pcapfile_link_type(head.header.link));
    else
        printf("PcapNg\n");
    for (uint32_t i = 0; i < head.section.interfaces; i++)
        printf("interface %u, link type %u\n", (unsigned)i, (unsigned)interfaces[i].link);
    pcapfile_close(reader); /* or go on by pcapfile_next, which gives every packet */
    return status;
}

/* Prints the comments in a PcapNg capture, each with the type of its block. A comment is an option with the code 1. */
int32_t print_comments(const char *path) {
    pcapfile_reader *reader = pcapfile_open(path);
    pcapfile_section section = PCAPFILE_SECTION_INIT;
    pcapfile_block block = PCAPFILE_BLOCK_INIT;
    pcapfile_bytes left = PCAPFILE_NO_BYTES;
    pcapfile_option option = PCAPFILE_OPTION_INIT;
    pcapfile_error error = PCAPFILE_ERROR_INIT;
    int32_t status;
    if (!reader)
        return PCAPFILE_SYSTEM; /* errno says why */
    while ((status = pcapfile_next_block(reader, &section, &block, &error)) == PCAPFILE_OK)
        if (pcapfile_options(&section, &block, &left, &error) == PCAPFILE_OK)
            while (pcapfile_take_option(&section, &left, &option, &error) == PCAPFILE_OK)
                if (option.code == 1)
                    printf("block type %u: %.*s\n", (unsigned)block.type, (int)option.value.len,
                           (const char *)option.value.ptr);
    pcapfile_close(reader);
    return status == PCAPFILE_END ? PCAPFILE_OK : status; /* PCAPFILE_NOTHING for a classic capture */
}

/* Prints the packets of a damaged capture with the rule that each breaks, and the gaps where bytes are corrupt. */
int32_t print_gaps(const char *path) {
    pcapfile_reader *reader = pcapfile_open(path);
    pcapfile_found found = PCAPFILE_FOUND_INIT;
    pcapfile_error error = PCAPFILE_ERROR_INIT;
    int32_t status;
    if (!reader)
        return PCAPFILE_SYSTEM; /* errno says why */
    while ((status = pcapfile_next_as_is(reader, &found, &error)) == PCAPFILE_OK)
        if (found.kind == PCAPFILE_FOUND_GAP)
            printf("no packets in %llu bytes from %llu on: %s, rule %u\n", (unsigned long long)found.len,
                   (unsigned long long)found.offset, pcapfile_status_text(found.status), (unsigned)found.error.rule);
        else
            printf("%zu bytes, rule %u\n", found.packet.bytes.len, (unsigned)found.error.rule);
    pcapfile_close(reader);
    return status == PCAPFILE_END ? PCAPFILE_OK : status;
}
