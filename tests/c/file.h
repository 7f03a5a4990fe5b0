/* Reads a file whole into memory. */
#ifndef FILE_H
#define FILE_H

#include "pcapfile.h"

#include <stdio.h>
#include <stdlib.h>

static pcapfile_bytes read_file(const char *name) {
    size_t len = 0, room = 1 << 16, more;
    uint8_t *bytes = malloc(room);
    FILE *in = fopen(name, "rb");
    if (!in) return (pcapfile_bytes){ NULL, 0 };
    while (bytes && (more = fread(bytes + len, 1, room - len, in)) > 0)
        if ((len += more) == room) bytes = realloc(bytes, room *= 2);
    fclose(in);
    return (pcapfile_bytes){ bytes, len };
}

#endif
