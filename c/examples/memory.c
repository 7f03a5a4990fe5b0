/* Examples that read a classic capture in memory. */
#include <pcapfile.h>
#include <stdio.h>

/* Prints the time and the stored length of each packet, up to the first error. */
int32_t print_packets(const uint8_t *bytes, size_t len) {
    pcapfile_bytes left = { bytes, len };
    pcapfile_header header = PCAPFILE_HEADER_INIT;
    pcapfile_packet packet = PCAPFILE_PACKET_INIT;
    pcapfile_error error = PCAPFILE_ERROR_INIT;
    int32_t status = pcapfile_take_header(&left, &header, &error);
    while (status == PCAPFILE_OK && left.len > 0)
        if ((status = pcapfile_take_packet(&header, &left, &packet, &error)) == PCAPFILE_OK)
            printf("%u.%09u %zu\n", (unsigned)packet.ts_sec, (unsigned)packet.ts_nsec, packet.bytes.len);
    return status;
}

/* The same leniently: it prints packets that break a rule too, and marks those that store more bytes than they had. A
 * packet may store 1 MiB. */
int32_t print_packets_leniently(const uint8_t *bytes, size_t len) {
    pcapfile_bytes left = { bytes, len };
    pcapfile_header header = PCAPFILE_HEADER_INIT;
    pcapfile_packet_as_is packet = PCAPFILE_PACKET_AS_IS_INIT;
    pcapfile_error error = PCAPFILE_ERROR_INIT;
    int32_t status = pcapfile_take_header(&left, &header, &error);
    while (status == PCAPFILE_OK && left.len > 0)
        if ((status = pcapfile_take_packet_as_is(&header, &left, 1 << 20, &packet, &error)) == PCAPFILE_OK)
            printf("%lld.%09u %zu%s\n", (long long)packet.time.seconds, (unsigned)packet.time.nanoseconds,
                   packet.bytes.len, packet.flaws & PCAPFILE_FLAW_INCLUDED_PAST_ORIGINAL ? " longer than on the wire" : "");
    return status;
}
