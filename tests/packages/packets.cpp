// packets CAPTURE: prints a line for each packet, from C++.
#include <pcapfile_open.h>

#include <cstdio>

int main(int argc, char **argv) {
    pcapfile_reader *reader = argc == 2 ? pcapfile_open(argv[1]) : nullptr;
    pcapfile_any_packet packet = PCAPFILE_ANY_PACKET_INIT;
    pcapfile_error error = PCAPFILE_ERROR_INIT;
    int32_t status = PCAPFILE_SYSTEM;
    while (reader && (status = pcapfile_next(reader, &packet, &error)) == PCAPFILE_OK)
        std::printf("%lld.%09u %zu\n", static_cast<long long>(packet.time.seconds), packet.time.nanoseconds, packet.bytes.len);
    pcapfile_close(reader);
    return status == PCAPFILE_END ? 0 : 1;
}
