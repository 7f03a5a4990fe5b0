/* A capture in pieces, for the programs that try the calls for one. */
#ifndef PIECES_H
#define PIECES_H

#include "pcapfile.h"

#include <stdlib.h>
#include <string.h>

struct pieces {
    pcapfile_bytes left; /* what has not come yet */
    pcapfile_push push;
    uint8_t *room;
    size_t room_len;
    size_t piece; /* at most this many bytes come at once */
};

static struct pieces pieces_of(pcapfile_bytes all, size_t piece, size_t room_len) {
    return (struct pieces){ all, PCAPFILE_PUSH_INIT, malloc(room_len), room_len, piece };
}

/* Puts the held bytes into another buffer that is this many bytes longer. */
static void grow(struct pieces *pieces, size_t missing) {
    uint8_t *larger = malloc(pieces->room_len + missing);
    if (larger) memcpy(larger, pieces->room, pieces->push.end);
    free(pieces->room);
    pieces->room = larger;
    pieces->room_len += missing;
}

/* Adds one more piece. The buffer must have space for at least `wanted` bytes. */
static int32_t come(struct pieces *pieces, size_t wanted, pcapfile_error *error) {
    int32_t status = pcapfile_push_space(&pieces->push, pieces->room, pieces->room_len, wanted, error);
    if (status == PCAPFILE_NO_ROOM) {
        grow(pieces, error->missing);
        if (!pieces->room) return PCAPFILE_NO_MEMORY;
        status = pcapfile_push_space(&pieces->push, pieces->room, pieces->room_len, wanted, error);
    }
    if (status != PCAPFILE_OK) return status;
    size_t count = pieces->room_len - pieces->push.end;
    if (count > pieces->piece) count = pieces->piece;
    if (count > pieces->left.len) count = pieces->left.len;
    memcpy(pieces->room + pieces->push.end, pieces->left.ptr, count);
    pieces->left = (pcapfile_bytes){ pieces->left.ptr + count, pieces->left.len - count };
    return pcapfile_push_put(&pieces->push, pieces->room, pieces->room_len, count);
}

#endif
