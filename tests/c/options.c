/* options FILE: prints the options and names of each block of a PcapNg capture, unjudged, by the library's calls for them. A line `INDEX
 * TYPE` for each block, and after it
 *
 *   name TYPE ADDRESS NAME     for each name of a record, and for a record without names
 *   option CODE VALUE          for each option
 *   refused REASON             if a record, an option or what comes before the options is refused
 *
 * with addresses, names and values as hexadecimal digits. The program copies what it reads to the end of a block of memory, so that a
 * read past its end is seen. If OPEN_C is the path of c/open.c, the blocks are those that pcapfile_next_block gives.
 */
#ifdef OPEN_C
#include OPEN_C
#include <stdio.h>
#else
#include "file.h"
#endif

#include <inttypes.h>
#include <string.h>

enum { REFUSED = 1, USAGE = 2, NO_FILE = 4 };

static void print_hex(pcapfile_bytes bytes) {
    putchar(' ');
    for (size_t i = 0; i < bytes.len; i++) printf("%02x", bytes.ptr[i]);
}

static void print_refused(int32_t status, const pcapfile_error *error) {
    pcapfile_bytes text = PCAPFILE_NO_BYTES;
    switch (status) {
    case PCAPFILE_BAD_VALUE: printf("refused io\n"); break;
    case PCAPFILE_NOT_UTF8: printf("refused utf8\n"); break;
    case PCAPFILE_INVALID:
        pcapfile_rule_text(error->rule, &text);
        printf("refused invalid %.*s\n", (int)text.len, (const char *)text.ptr);
        break;
    default: abort();
    }
}

/* Prints the names of a record. The record is already taken, so no name is refused, and each is a string of C. */
static void print_names(const pcapfile_record *record) {
    pcapfile_bytes left = record->names, name = PCAPFILE_NO_BYTES;
    pcapfile_error error = PCAPFILE_ERROR_INIT;
    int32_t status;
    for (int count = 0;; count++) {
        if ((status = pcapfile_take_name(&left, &name, &error)) == PCAPFILE_NOTHING && count > 0) return;
        printf("name %u", record->type);
        print_hex(record->address);
        if (status == PCAPFILE_OK) {
            if (strlen((const char *)name.ptr) != name.len) abort();
            print_hex(name);
        }
        printf("\n");
        if (status != PCAPFILE_OK && status != PCAPFILE_NOTHING) abort();
        if (status == PCAPFILE_NOTHING) return;
    }
}

/* Prints the records. Returns whether they are good up to their end. */
static int print_records(const pcapfile_section *section, pcapfile_bytes left, pcapfile_error *error) {
    pcapfile_record record = PCAPFILE_RECORD_INIT;
    int32_t status;
    while ((status = pcapfile_take_record(section, &left, &record, error)) == PCAPFILE_OK) print_names(&record);
    if (pcapfile_take_record(section, &left, &record, error) != status) abort();
    return status == PCAPFILE_NOTHING;
}

static void print_options(const pcapfile_section *section, const pcapfile_block *block) {
    pcapfile_bytes left = PCAPFILE_NO_BYTES;
    pcapfile_option option = PCAPFILE_OPTION_INIT;
    pcapfile_error error = PCAPFILE_ERROR_INIT;
    int are_good = block->type != PCAPFILE_BLOCK_NAMES || print_records(section, block->body, &error);
    int32_t status = pcapfile_options(section, block, &left, &error);
    if (block->type == PCAPFILE_BLOCK_NAMES && are_good != (status == PCAPFILE_OK)) abort();
    if (status == PCAPFILE_OK) {
        while ((status = pcapfile_take_option(section, &left, &option, &error)) == PCAPFILE_OK) {
            printf("option %u", option.code);
            print_hex(option.value);
            printf("\n");
        }
        if (pcapfile_take_option(section, &left, &option, &error) != status) abort();
    }
    if (status != PCAPFILE_NOTHING) print_refused(status, &error);
}

/* Prints the options of a copy of the body, which ends where its memory does. */
static int print_block(const pcapfile_section *section, const pcapfile_block *block) {
    uint8_t *copy = malloc(block->body.len + !block->body.len);
    if (!copy) return NO_FILE;
    memcpy(copy, block->body.ptr, block->body.len);
    print_options(section, &(pcapfile_block){ block->type, { copy, block->body.len } });
    free(copy);
    return 0;
}

#ifdef OPEN_C
static int print_opened(const char *path) {
    pcapfile_reader *reader = pcapfile_open(path);
    pcapfile_section section = PCAPFILE_SECTION_INIT;
    pcapfile_block block = PCAPFILE_BLOCK_INIT;
    pcapfile_error error = PCAPFILE_ERROR_INIT;
    int32_t status = PCAPFILE_OK;
    int printed = 0;
    if (!reader) return NO_FILE;
    for (uint64_t index = 1; printed == 0 && (status = pcapfile_next_block(reader, &section, &block, &error)) == PCAPFILE_OK; index++) {
        printf("%" PRIu64 " %" PRIu32 "\n", index, block.type);
        printed = print_block(&section, &block);
    }
    pcapfile_close(reader);
    return printed != 0 ? printed : status == PCAPFILE_END ? 0 : REFUSED;
}

int main(int argc, char **argv) {
    return argc == 2 ? print_opened(argv[1]) : USAGE;
}
#else
static int print_blocks(pcapfile_bytes left) {
    pcapfile_section section = PCAPFILE_SECTION_INIT;
    pcapfile_block block = PCAPFILE_BLOCK_INIT;
    pcapfile_error error = PCAPFILE_ERROR_INIT;
    for (uint64_t index = 1; left.len > 0; index++) {
        if (pcapfile_take_block(&section, &left, &block, &error) != PCAPFILE_OK) return REFUSED;
        printf("%" PRIu64 " %" PRIu32 "\n", index, block.type);
        if (print_block(&section, &block) != 0) return NO_FILE;
    }
    return 0;
}

int main(int argc, char **argv) {
    if (argc != 2) return USAGE;
    pcapfile_bytes all = read_file(argv[1]);
    if (!all.ptr) return NO_FILE;
    int status = print_blocks(all);
    free((void *)(uintptr_t)all.ptr);
    return status;
}
#endif
