/* The system of the program in a page, as ../os.c is over POSIX. Each call about a file, the arguments or the clock goes to the page's
 * script (system.js), which holds the files. ../wasm_support.c provides memory.
 *
 * Numbers cross as doubles and 32-bit integers, so that the script sees no pointer of 64 bits. Written by hand; tested, not proved. */
#include <stdint.h>
#include <stdlib.h>

typedef uint8_t *ptr;

#define HOST(name) __attribute__((import_module("host"), import_name(#name))) extern

HOST(argument) double host_argument(double index, double to, double room);
HOST(open) int host_open(double path, double length, int flags);
HOST(read) double host_read(int file, double to, double room);
HOST(readAt) double host_readAt(int file, double to, double room, double place);
HOST(write) double host_write(int file, double from, double length);
HOST(close) int host_close(int file);
HOST(duplicate) int host_duplicate(int file);
HOST(rename) int host_rename(double from, double from_length, double to, double to_length);
HOST(unlink) int host_unlink(double path, double length);
HOST(stat) int host_stat(int file, double path, double length, double to);
HOST(clock) double host_clock(int which);

int32_t program_main(void);

int run(void) { return (int)program_main(); }

/* Errors: the script returns a negative number, whose absolute value is Linux's number. */

enum { ENOENT = 2, EINVAL = 22 };

static uint32_t last_error;

uint32_t os_errno(void) { return last_error; }
void os_set_errno(uint32_t error) { last_error = error; }

static uint64_t checked(double answer) {
    if (answer >= 0) return (uint64_t)answer;
    last_error = (uint32_t)-answer;
    return (uint64_t)-1;
}

static const struct {
    uint32_t error;
    const char *text;
} texts[] = {
    {2, "No such file or directory"}, {5, "Input/output error"}, {9, "Bad file descriptor"}, {12, "Cannot allocate memory"},
    {13, "Permission denied"},        {17, "File exists"},       {22, "Invalid argument"},
};

uint32_t os_xpg_strerror_r(uint32_t error, ptr to, uint64_t room) {
    const char *text = "Unknown error";
    uint64_t length = 0;
    for (uint32_t i = 0; i < sizeof texts / sizeof *texts; i++)
        if (texts[i].error == error) text = texts[i].text;
    if (room == 0) return 0;
    for (; text[length] && length + 1 < room; length++) to[length] = (uint8_t)text[length];
    to[length] = 0;
    return 0;
}

/* Arguments, files and clocks. */

static double place(const void *it) { return (double)(uint64_t)it; }

static double length_of(ptr text) {
    uint64_t length = 0;
    while (text[length]) length++;
    return (double)length;
}

uint64_t os_arg(uint64_t index, ptr to, uint64_t room) { return (uint64_t)(int64_t)host_argument((double)index, place(to), (double)room); }

/* The page has no environment. */
uint64_t os_env(ptr name, ptr to, uint64_t room) { return (void)name, (void)to, (void)room, (uint64_t)-1; }

uint32_t os_open(ptr path, uint32_t flags, uint32_t mode) { return (void)mode, (uint32_t)checked(host_open(place(path), length_of(path), (int)flags)); }
uint64_t os_read(uint32_t file, ptr to, uint64_t room) { return checked(host_read((int)file, place(to), (double)room)); }
uint64_t os_pread(uint32_t file, ptr to, uint64_t room, uint64_t at) {
    return checked(host_readAt((int)file, place(to), (double)room, (double)at));
}
uint64_t os_write(uint32_t file, ptr from, uint64_t length) { return checked(host_write((int)file, place(from), (double)length)); }
uint32_t os_close(uint32_t file) { return (uint32_t)checked(host_close((int)file)); }
uint32_t os_unlink(ptr path) { return (uint32_t)checked(host_unlink(place(path), length_of(path))); }
uint32_t os_isatty(uint32_t file) { return (void)file, 0; }

uint32_t os_rename(ptr from, ptr to) { return (uint32_t)checked(host_rename(place(from), length_of(from), place(to), length_of(to))); }

/* Linux's commands F_DUPFD and F_DUPFD_CLOEXEC give another descriptor, and a page has no use for the others. */
uint32_t os_fcntl(uint32_t file, uint32_t command, uint32_t argument) {
    (void)argument;
    return command == 0 || command == 1030 ? (uint32_t)checked(host_duplicate((int)file)) : 0;
}

/* A page's files have no links, owners, modes or locks, and none of them waits to be stored. */

uint32_t os_flock(uint32_t file, uint32_t how) { return (void)file, (void)how, 0; }
uint32_t os_fchmod(uint32_t file, uint32_t mode) { return (void)file, (void)mode, 0; }
uint32_t os_fchown(uint32_t file, uint32_t owner, uint32_t group) { return (void)file, (void)owner, (void)group, 0; }
uint32_t os_fsync(uint32_t file) { return (void)file, 0; }
uint32_t os_fdatasync(uint32_t file) { return (void)file, 0; }
uint32_t os_ftruncate(uint32_t file, uint64_t length) { return (void)file, (void)length, 0; }
uint32_t os_open_dir_at(uint32_t folder, ptr path) { return (void)folder, (void)path, (uint32_t)checked(-ENOENT); }
uint64_t os_getdents64(uint32_t folder, ptr to, uint64_t room) { return (void)folder, (void)to, (void)room, checked(-EINVAL); }
uint64_t os_readlink(ptr path, ptr to, uint64_t room) { return (void)path, (void)to, (void)room, checked(-EINVAL); }

/* Returns the path itself, in a buffer of its own if the caller gives none. */
ptr os_realpath(ptr path, ptr to) {
    uint64_t length = (uint64_t)length_of(path) + 1;
    if (!to) to = malloc(length);
    for (uint64_t i = 0; to && i < length; i++) to[i] = path[i];
    return to;
}

/* Writes seconds and nanoseconds, 8 bytes each. */
uint32_t os_clock_gettime(uint32_t which, ptr to) {
    double milliseconds = host_clock((int)which);
    int64_t *both = (int64_t *)to;
    both[0] = (int64_t)(milliseconds / 1000);
    both[1] = (int64_t)((milliseconds - (double)both[0] * 1000) * 1e6);
    return 0;
}

/* Writes two values of Linux's `struct statx` at their offsets: the kind of the file and its length. */
uint32_t os_statx(uint32_t file, ptr path, uint32_t flags, uint32_t mask, ptr to) {
    double told[2];
    (void)flags, (void)mask;
    if (checked(host_stat((int)file, place(path), length_of(path), place(told))) == (uint64_t)-1) return (uint32_t)-1;
    for (int i = 0; i < 256; i++) to[i] = 0;
    *(uint32_t *)to = 0x7ff;
    *(uint32_t *)(to + 16) = 1;
    *(uint16_t *)(to + 28) = (uint16_t)told[0];
    *(uint64_t *)(to + 40) = (uint64_t)told[1];
    return 0;
}
