// Reads the header as C++.
#include "pcapfile.h"

int main() {
    pcapfile_bytes left = PCAPFILE_NO_BYTES;
    pcapfile_header header = PCAPFILE_HEADER_INIT;
    pcapfile_error error = PCAPFILE_ERROR_INIT;
    return pcapfile_take_header(&left, &header, &error) == PCAPFILE_INCOMPLETE && error.missing == 24 ? 0 : 1;
}
