/* Examples that read a PcapNg capture in memory. */
#include <pcapfile.h>
#include <stdio.h>

/* Prints the time and the stored length of each packet, block by block. It keeps the first 16 interfaces of a section. */
int32_t print_ng_packets(const uint8_t *bytes, size_t len) {
    pcapfile_bytes left = { bytes, len };
    pcapfile_section section = PCAPFILE_SECTION_INIT;
    pcapfile_block block = PCAPFILE_BLOCK_INIT;
    pcapfile_interface interfaces[16] = { PCAPFILE_INTERFACE_INIT }, interface = PCAPFILE_INTERFACE_INIT;
    pcapfile_ng_packet packet = PCAPFILE_NG_PACKET_INIT;
    pcapfile_time time = PCAPFILE_TIME_INIT;
    pcapfile_error error = PCAPFILE_ERROR_INIT;
    int32_t status = PCAPFILE_OK;
    while (left.len > 0 && (status = pcapfile_take_block(&section, &left, &block, &error)) == PCAPFILE_OK) {
        if (pcapfile_read_interface(&section, &block, &interface, &error) == PCAPFILE_OK &&
            section.interfaces <= 16)
            interfaces[section.interfaces - 1] = interface;
        if (pcapfile_read_packet(&section, &block, &packet, &error) == PCAPFILE_OK &&
            packet.interface_id < 16 && packet.interface_id < section.interfaces &&
            pcapfile_time_of(&interfaces[packet.interface_id], packet.timestamp, &time) == PCAPFILE_OK)
            printf("%lld.%09u %zu\n", (long long)time.seconds, (unsigned)time.nanoseconds, packet.bytes.len);
    }
    return status;
}

/* Adds the number of packets to `*count`. It takes packets in batches of two. */
int32_t count_ng_packets(const uint8_t *bytes, size_t len, size_t *count) {
    pcapfile_bytes left = { bytes, len };
    pcapfile_section section = PCAPFILE_SECTION_INIT;
    pcapfile_block block = PCAPFILE_BLOCK_INIT;
    pcapfile_ng_packet packets[2] = { PCAPFILE_NG_PACKET_INIT, PCAPFILE_NG_PACKET_INIT };
    pcapfile_error error = PCAPFILE_ERROR_INIT;
    int32_t status = PCAPFILE_OK;
    while (left.len > 0 && status == PCAPFILE_OK) {
        size_t taken = 0;
        int32_t ended = pcapfile_take_ng_packets(&section, &left, packets, 2, &taken, &error);
        *count += taken; /* packets[0] to packets[taken - 1] belong to the interfaces read so far */
        if (ended == PCAPFILE_NO_MEMORY)
            status = ended;
        else if (ended != PCAPFILE_OK) /* if this block is an interface, keep it here */
            status = pcapfile_take_block(&section, &left, &block, &error);
    }
    return status;
}

/* Prints the code and the length of each option of a block. */
int32_t print_options(const pcapfile_section *section, const pcapfile_block *block) {
    pcapfile_bytes left = PCAPFILE_NO_BYTES;
    pcapfile_option option = PCAPFILE_OPTION_INIT;
    pcapfile_error error = PCAPFILE_ERROR_INIT;
    int32_t status = pcapfile_options(section, block, &left, &error);
    while (status == PCAPFILE_OK &&
           (status = pcapfile_take_option(section, &left, &option, &error)) == PCAPFILE_OK)
        printf("%u: %zu bytes\n", option.code, option.value.len);
    return status == PCAPFILE_NOTHING ? PCAPFILE_OK : status;
}

/* Prints the names in a name resolution block. Other blocks have none. */
int32_t print_names(const pcapfile_section *section, const pcapfile_block *block) {
    pcapfile_bytes left = block->body, name = PCAPFILE_NO_BYTES;
    pcapfile_record record = PCAPFILE_RECORD_INIT;
    pcapfile_error error = PCAPFILE_ERROR_INIT;
    int32_t status;
    if (block->type != PCAPFILE_BLOCK_NAMES)
        return PCAPFILE_OK;
    while ((status = pcapfile_take_record(section, &left, &record, &error)) == PCAPFILE_OK)
        while (pcapfile_take_name(&record.names, &name, &error) == PCAPFILE_OK)
            printf("%s\n", (const char *)name.ptr);
    return status == PCAPFILE_NOTHING ? PCAPFILE_OK : status;
}

/* Prints the enhanced packets and the first eight flaws of each block, and goes on after flaws. */
int32_t print_blocks_leniently(const uint8_t *bytes, size_t len) {
    pcapfile_bytes left = { bytes, len };
    pcapfile_section section = PCAPFILE_SECTION_INIT;
    pcapfile_block_as_is block = PCAPFILE_BLOCK_AS_IS_INIT;
    pcapfile_block_flaw flaws[8] = { PCAPFILE_BLOCK_FLAW_INIT };
    pcapfile_error error = PCAPFILE_ERROR_INIT;
    int32_t status = PCAPFILE_OK;
    while (left.len > 0 && (status = pcapfile_take_block_as_is(&section, &left, &block, flaws, 8, &error)) == PCAPFILE_OK) {
        if (block.has_packet)
            printf("interface %u: %zu bytes\n", (unsigned)block.packet.interface_id, block.packet.bytes.len);
        for (size_t i = 0; i < block.flaws && i < 8; i++)
            printf("option %u: status %d, rule %u\n", (unsigned)flaws[i].code, (int)flaws[i].status, (unsigned)flaws[i].rule);
    }
    return status;
}
