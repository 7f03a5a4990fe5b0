/* The heap, which ../../wasm_support.c has. */
#include <stddef.h>

void *malloc(size_t length);
void *realloc(void *it, size_t length);
void free(void *it);
