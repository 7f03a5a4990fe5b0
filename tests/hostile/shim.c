// LD_PRELOAD loads this shim into a program. It makes allocations, reads and writes fail, or moves few bytes at once.
//   HOSTILE_CALL=memory|read|write  HOSTILE_AT=n  the nth such call fails
//   HOSTILE_ON=1                    and each later one
//   HOSTILE_FOR=n                   or n of them in a row
//   HOSTILE_ERROR=n                 the number of the error, instead of ENOMEM or EIO
//   HOSTILE_CUT=n                   each read of standard input and write to standard output moves at most n bytes
//   HOSTILE_MARK=file               the shim makes this file when it refuses a call; it has how many bytes the reads before gave
//   HOSTILE_FILES=1                 files count as the standard streams do
// Reads are those of standard input, and writes those to standard output.
#include <errno.h>
#include <fcntl.h>
#include <stdlib.h>
#include <string.h>
#include <sys/syscall.h>
#include <unistd.h>

void *__libc_malloc(size_t);
void *__libc_realloc(void *, size_t);

static long calls, at, cut, on, files, row = 1, number, given;
static const char *kind = "";

__attribute__((constructor)) static void start(void) {
    if (getenv("HOSTILE_CALL")) kind = getenv("HOSTILE_CALL");
    if (getenv("HOSTILE_AT")) at = atol(getenv("HOSTILE_AT"));
    if (getenv("HOSTILE_CUT")) cut = atol(getenv("HOSTILE_CUT"));
    if (getenv("HOSTILE_FOR")) row = atol(getenv("HOSTILE_FOR"));
    if (getenv("HOSTILE_ERROR")) number = atol(getenv("HOSTILE_ERROR"));
    on = getenv("HOSTILE_ON") != NULL;
    files = getenv("HOSTILE_FILES") != NULL;
}

static int is_refused(const char *call, int error) {
    if (!at || strcmp(call, kind)) return 0;
    calls++;
    if (calls < at || (!on && calls - at >= row)) return 0;
    long mark = syscall(SYS_openat, AT_FDCWD, getenv("HOSTILE_MARK"), O_CREAT | O_WRONLY, 0600);
    if (mark >= 0) {
        syscall(SYS_write, mark, &given, sizeof given);
        syscall(SYS_close, mark);
    }
    errno = number ? number : error;
    return 1;
}

static size_t shortened(size_t n) { return cut && n > (size_t)cut ? (size_t)cut : n; }

void *malloc(size_t n) { return is_refused("memory", ENOMEM) ? NULL : __libc_malloc(n); }

void *realloc(void *p, size_t n) { return is_refused("memory", ENOMEM) ? NULL : __libc_realloc(p, n); }

ssize_t read(int fd, void *to, size_t n) {
    if (fd != 0 && !(files && fd > 2)) return syscall(SYS_read, fd, to, n);
    if (is_refused("read", EIO)) return -1;
    long came = syscall(SYS_read, fd, to, shortened(n));
    if (came > 0) given += came;
    return came;
}

ssize_t write(int fd, const void *from, size_t n) {
    if (fd != 1 && !(files && fd > 2)) return syscall(SYS_write, fd, from, n);
    return is_refused("write", EIO) ? -1 : syscall(SYS_write, fd, from, shortened(n));
}
