/* numbers CALL PASSES < CAPTURE: measures the least time to return a number for each piece of one byte, with no parser and no packet. It
 * makes a list of pieces of one byte, and then goes PASSES times over a list with a number for each. CALL `list` only writes the
 * numbers. CALL `walk` also reads each piece and copies its byte. Prints a sum. */
#include <stdint.h>
#include <stdio.h>
#include <stdlib.h>
#include <string.h>

enum { MOST = 16 << 20, HELD = 4096 };

typedef struct {
    const unsigned char *bytes;
    size_t len;
} piece;

static uint64_t write_numbers(const piece *pieces, size_t count, size_t *numbers) {
    for (size_t i = 0; i < count; i++) numbers[i] = i;
    return count == 0 ? 0 : numbers[count - 1] + pieces[count - 1].len;
}

static uint64_t walk_pieces(const piece *pieces, size_t count, size_t *numbers) {
    static unsigned char held[HELD];
    for (size_t i = 0; i < count && pieces[i].len == 1; i++) {
        held[i % HELD] = pieces[i].bytes[0];
        numbers[i] = i / HELD;
    }
    return count == 0 ? 0 : numbers[count - 1] + held[0];
}

int main(int words, char **word) {
    unsigned char *bytes = malloc(MOST);
    size_t count = bytes == NULL ? 0 : fread(bytes, 1, MOST, stdin);
    piece *pieces = calloc(count + 1, sizeof *pieces);
    if (words != 3 || pieces == NULL) return 2;
    uint64_t (*pass)(const piece *, size_t, size_t *) = strcmp(word[1], "walk") == 0 ? walk_pieces : write_numbers;
    uint64_t sum = 0;
    for (size_t i = 0; i < count; i++) pieces[i] = (piece){bytes + i, 1};
    for (int left = atoi(word[2]); left > 0; left--) {
        size_t *numbers = malloc((count + 1) * sizeof *numbers);
        if (numbers == NULL) return 2;
        sum += pass(pieces, count, numbers);
        free(numbers);
    }
    printf("%llu\n", (unsigned long long)sum);
    return 0;
}
