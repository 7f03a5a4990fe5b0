/* Gives the generated programs what they need from the system, over POSIX. Written by hand; tested, not proved.
 *
 *     cc -O2 capcopy_program.c os.c -o capcopy
 *     cc -O2 pcapfile_program.c os.c -o pcapfile
 *
 * The programs use the error numbers, the flags of open, the clocks and the layout of a file's status of Linux on x86-64. This file
 * translates those of the system into them. */
#if !defined __unix__ && !defined __APPLE__
#error "os.c needs POSIX: Linux, a BSD, macOS or the like"
#else
#define _GNU_SOURCE
#define _FILE_OFFSET_BITS 64
#include <errno.h>
#include <fcntl.h>
#include <signal.h>
#include <stdint.h>
#include <stdio.h>
#include <stdlib.h>
#include <string.h>
#include <sys/file.h>
#include <sys/stat.h>
#include <time.h>
#include <unistd.h>
#ifdef __linux__
#include <sys/syscall.h>
#else
#define LISTS_BY_READDIR /* on Linux portable/compare --forms gcc-readdir defines it */
#endif
#ifdef LISTS_BY_READDIR
#include <dirent.h>
#endif

typedef uint8_t *ptr;

/* A program in assembly calls the C library itself, except for these, which have other names there. */
#ifdef ASSEMBLY
#define os_arg rattle_arg
#define os_env rattle_env
#define os_env_at rattle_env_at
#define os_errno rattle_errno
#define os_set_errno rattle_set_errno
#define os_open_dir_at rattle_open_dir_at
#endif

int32_t program_main(void);

static int count;
static char **words;

int main(int argc, char **argv) {
    count = argc;
    words = argv;
    signal(SIGPIPE, SIG_IGN);
    return (int)program_main();
}

/* Copies a text. Returns its length, -1 if there is none, or -2 if it does not fit; then as much as fits is copied. */
static uint64_t put(const char *text, ptr to, uint64_t room) {
    if (!text)
        return (uint64_t)-1;
    size_t length = strlen(text);
    if (length > room) {
        memcpy(to, text, room);
        return (uint64_t)-2;
    }
    memcpy(to, text, length);
    return length;
}

uint64_t os_arg(uint64_t at, ptr to, uint64_t room) { return put(at < (uint64_t)count ? words[at] : NULL, to, room); }
uint64_t os_env(ptr name, ptr to, uint64_t room) { return put(getenv((const char *)name), to, room); }

/* Copies the variable at a place of the environment, as NAME=VALUE. */
extern char **environ;
uint64_t os_env_at(uint64_t at, ptr to, uint64_t room) {
    uint64_t place = 0;
    while (environ && place < at && environ[place])
        place++;
    return put(environ ? environ[place] : NULL, to, room);
}

uint32_t os_errno(void) { return (uint32_t)errno; }
void os_set_errno(uint32_t number) { errno = (int)number; }

/* glibc's strerror_r returns a text under _GNU_SOURCE. POSIX's, which has this name in glibc, returns a number. */
#ifdef __GLIBC__
int __xpg_strerror_r(int, char *, size_t);
#define strerror_r __xpg_strerror_r
#endif
uint32_t os_xpg_strerror_r(uint32_t number, ptr to, uint64_t room) { return (uint32_t)strerror_r((int)number, (char *)to, room); }

uint64_t os_read(uint32_t file, ptr to, uint64_t room) { return (uint64_t)read((int)file, to, room); }
uint64_t os_pread(uint32_t file, ptr to, uint64_t room, uint64_t place) { return (uint64_t)pread((int)file, to, room, (off_t)place); }
uint64_t os_write(uint32_t file, ptr from, uint64_t length) { return (uint64_t)write((int)file, from, length); }
uint64_t os_lseek(uint32_t file, uint64_t to, uint32_t from) { return (uint64_t)lseek((int)file, (off_t)to, (int)from); }
#ifdef LISTS_BY_READDIR
static void forget_listed(uint32_t file);
#else
#define forget_listed(file) (void)(file)
#endif
uint32_t os_close(uint32_t file) {
    forget_listed(file);
    return (uint32_t)close((int)file);
}
uint32_t os_rename(ptr from, ptr to) { return (uint32_t)rename((char *)from, (char *)to); }
uint32_t os_unlink(ptr path) { return (uint32_t)unlink((char *)path); }
uint32_t os_isatty(uint32_t file) { return (uint32_t)isatty((int)file); }
uint32_t os_flock(uint32_t file, uint32_t how) { return (uint32_t)flock((int)file, (int)how); }
uint32_t os_fchmod(uint32_t file, uint32_t mode) { return (uint32_t)fchmod((int)file, (mode_t)mode); }
uint32_t os_fchown(uint32_t file, uint32_t owner, uint32_t group) { return (uint32_t)fchown((int)file, (uid_t)owner, (gid_t)group); }
uint32_t os_ftruncate(uint32_t file, uint64_t length) { return (uint32_t)ftruncate((int)file, (off_t)length); }
uint32_t os_fsync(uint32_t file) { return (uint32_t)fsync((int)file); }
uint64_t os_readlink(ptr path, ptr to, uint64_t room) { return (uint64_t)readlink((char *)path, (char *)to, room); }
ptr os_realpath(ptr path, ptr to) { return (ptr)realpath((char *)path, (char *)to); }

#ifdef __APPLE__
uint32_t os_fdatasync(uint32_t file) { return os_fsync(file); }
#else
uint32_t os_fdatasync(uint32_t file) { return (uint32_t)fdatasync((int)file); }
#endif

/* Linux's commands of fcntl, and the system's. The flags of an open file have Linux's numbers on Linux alone. */
static const struct {
    uint32_t linux_command;
    int command;
} commands_of_fcntl[] = {{0, F_DUPFD}, {1, F_GETFD}, {2, F_SETFD}, {1030, F_DUPFD_CLOEXEC},
#ifdef __linux__
                         {3, F_GETFL}, {4, F_SETFL},
#endif
};

uint32_t os_fcntl(uint32_t file, uint32_t wanted, uint32_t argument) {
    for (size_t at = 0; at < sizeof commands_of_fcntl / sizeof *commands_of_fcntl; at++)
        if (commands_of_fcntl[at].linux_command == wanted)
            return (uint32_t)fcntl((int)file, commands_of_fcntl[at].command, (int)argument);
    errno = EINVAL;
    return (uint32_t)-1;
}

/* Linux's flags of open, and the system's. */
static const struct {
    uint32_t linux_flag;
    int flag;
} flags_of_open[] = {{0100, O_CREAT}, {0200, O_EXCL}, {0400, O_NOCTTY}, {01000, O_TRUNC}, {02000, O_APPEND}, {04000, O_NONBLOCK}, {02000000, O_CLOEXEC}};

uint32_t os_open(ptr path, uint32_t wanted, uint32_t mode) {
    int flags = (wanted & 3) == 1 ? O_WRONLY : (wanted & 3) == 2 ? O_RDWR : O_RDONLY;
    uint32_t unknown = wanted & ~(uint32_t)(3 | 0100000); /* 0100000: large files, which the C library handles */
    for (size_t at = 0; at < sizeof flags_of_open / sizeof *flags_of_open; at++)
        if (wanted & flags_of_open[at].linux_flag) {
            flags |= flags_of_open[at].flag;
            unknown &= ~flags_of_open[at].linux_flag;
        }
    if (unknown) {
        errno = EINVAL;
        return (uint32_t)-1;
    }
    return (uint32_t)open((char *)path, flags, (mode_t)mode);
}

/* Opens the folder that a path reaches from another folder, and follows no link at its end. */
uint32_t os_open_dir_at(uint32_t folder, ptr path) {
    return (uint32_t)openat((int)folder == -100 ? AT_FDCWD : (int)folder, (char *)path, O_RDONLY | O_CLOEXEC | O_DIRECTORY | O_NOFOLLOW);
}

/* Reads the next entries of a folder, in Linux's layout: 19 bytes, of which two are the length of the entry, and the name. */
#ifdef LISTS_BY_READDIR
static DIR *listed;           /* the folder that was read last, and its number as a file */
static uint32_t listed_file;
static struct dirent *waiting; /* the entry that had no room */

static void forget_listed(uint32_t file) {
    if (listed && listed_file == file) {
        closedir(listed);
        listed = NULL;
    }
}

static int begin_listing(uint32_t folder) {
    int copy = fcntl((int)folder, F_DUPFD_CLOEXEC, 3);
    DIR *opened = copy < 0 ? NULL : fdopendir(copy);
    if (!opened) {
        if (copy >= 0)
            close(copy);
        return -1;
    }
    if (listed)
        closedir(listed);
    listed = opened;
    listed_file = folder;
    waiting = NULL;
    return 0;
}

uint64_t os_getdents64(uint32_t folder, ptr to, uint64_t room) {
    uint64_t filled = 0;
    if ((!listed || listed_file != folder) && begin_listing(folder) != 0)
        return (uint64_t)-1;
    for (;;) {
        errno = 0;
        struct dirent *entry = waiting ? waiting : readdir(listed);
        waiting = NULL;
        if (!entry)
            return errno && !filled ? (uint64_t)-1 : filled;
        size_t name = strlen(entry->d_name) + 1, length = (19 + name + 7) / 8 * 8;
        if (length > room - filled) {
            waiting = entry;
            errno = EINVAL;
            return filled ? filled : (uint64_t)-1;
        }
        memset(to + filled, 0, length);
        to[filled + 16] = (uint8_t)length;
        to[filled + 17] = (uint8_t)(length >> 8);
        memcpy(to + filled + 19, entry->d_name, name);
        filled += length;
    }
}
#else
uint64_t os_getdents64(uint32_t folder, ptr to, uint64_t room) { return (uint64_t)syscall(SYS_getdents64, (int)folder, to, room); }
#endif

/* Clock 0 is that of the day, and any other never goes back. Seconds and nanoseconds are 8 bytes each. */
uint32_t os_clock_gettime(uint32_t clock, ptr to) {
    struct timespec time;
    if (clock_gettime(clock == 0 ? CLOCK_REALTIME : CLOCK_MONOTONIC, &time) != 0)
        return (uint32_t)-1;
    int64_t both[2] = {time.tv_sec, time.tv_nsec};
    memcpy(to, both, sizeof both);
    return 0;
}

static void put32(ptr at, uint64_t number) {
    uint32_t low = (uint32_t)number;
    memcpy(at, &low, sizeof low);
}

static void put64(ptr at, uint64_t number) { memcpy(at, &number, sizeof number); }

/* Writes the result of stat with the layout of Linux's struct statx: 256 bytes. The times' nanoseconds are filled in on Linux alone. */
static void put_status(ptr to, const struct stat *status) {
    memset(to, 0, 256);
    put32(to, 0x7ff); /* which fields are known */
    put32(to + 4, (uint64_t)status->st_blksize);
    put32(to + 16, status->st_nlink);
    put32(to + 20, status->st_uid);
    put32(to + 24, status->st_gid);
    put32(to + 28, status->st_mode);
    put64(to + 32, status->st_ino);
    put64(to + 40, (uint64_t)status->st_size);
    put64(to + 48, (uint64_t)status->st_blocks);
    put64(to + 64, (uint64_t)status->st_atime);
    put64(to + 96, (uint64_t)status->st_ctime);
    put64(to + 112, (uint64_t)status->st_mtime);
#ifdef __linux__
    put32(to + 72, (uint64_t)status->st_atim.tv_nsec);
    put32(to + 104, (uint64_t)status->st_ctim.tv_nsec);
    put32(to + 120, (uint64_t)status->st_mtim.tv_nsec);
#endif
    put32(to + 128, (uint64_t)status->st_rdev >> 32);
    put32(to + 132, (uint64_t)status->st_rdev);
    put32(to + 136, (uint64_t)status->st_dev >> 32);
    put32(to + 140, (uint64_t)status->st_dev);
}

uint32_t os_statx(uint32_t file, ptr path, uint32_t flags, uint32_t mask, ptr to) {
    struct stat status;
    int result;
    (void)mask;
    if ((flags & 0x1000) && !path[0]) /* AT_EMPTY_PATH: the file itself */
        result = fstat((int)file, &status);
    else
        result = fstatat((int)file == -100 ? AT_FDCWD : (int)file, (char *)path, &status, flags & 0x100 ? AT_SYMLINK_NOFOLLOW : 0);
    if (result != 0)
        return (uint32_t)-1;
    put_status(to, &status);
    return 0;
}
#endif
