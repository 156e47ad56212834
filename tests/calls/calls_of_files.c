// The calls on files, of which those on FILE may fail.
#include "calls.h"

#include <errno.h>
#include <fcntl.h>
#include <stdarg.h>
#include <stdio.h>
#include <stdlib.h>
#include <sys/file.h>
#include <sys/stat.h>
#include <unistd.h>

#define MOST_FDS 65536
#define PAGE 4096
#define MOST_PAGES 65536

static char is_file[MOST_FDS];
// Which pages of FILE can't be read.
static char is_unread[MOST_PAGES];

// Which file a descriptor stands for, as 'DEVICE INODE'.
static void node_of(int fd, char *text, size_t room) {
    struct stat seen;
    if (fd < 0 || fstat(fd, &seen)) snprintf(text, room, "0 0");
    else snprintf(text, room, "%llu %llu", (unsigned long long)seen.st_dev, (unsigned long long)seen.st_ino);
}

static int opened(int fd, int error, const char *path, int flags, mode_t mode) {
    char node[64], text[4200], *file = getenv("CALLS_FILE");
    struct stat wanted, seen;
    if (fd >= 0 && fd < MOST_FDS)
        is_file[fd] = file && !stat(file, &wanted) && !fstat(fd, &seen) && wanted.st_dev == seen.st_dev && wanted.st_ino == seen.st_ino;
    node_of(fd, node, sizeof node);
    snprintf(text, sizeof text, "%s %s", node, path);
    note_text("open", fd, flags & O_CREAT ? mode : 0, flags, fd, error, text);
    errno = error;
    return fd;
}

#define MODE_OF(flags, mode) \
    if ((flags) & (O_CREAT | O_TMPFILE)) { va_list rest; va_start(rest, flags); mode = va_arg(rest, mode_t); va_end(rest); }

HOOK int openat(int folder, const char *path, int flags, ...) {
    mode_t mode = 0;
    MODE_OF(flags, mode)
    if (!enter()) return REAL(openat)(folder, path, flags, mode);
    int fd = REAL(openat)(folder, path, flags, mode);
    opened(fd, errno, path, flags, mode);
    leave();
    return fd;
}
HOOK int openat64(int folder, const char *path, int flags, ...) {
    mode_t mode = 0;
    MODE_OF(flags, mode)
    return openat(folder, path, flags, mode);
}
HOOK int open(const char *path, int flags, ...) {
    mode_t mode = 0;
    MODE_OF(flags, mode)
    return openat(AT_FDCWD, path, flags, mode);
}
HOOK int open64(const char *path, int flags, ...) {
    mode_t mode = 0;
    MODE_OF(flags, mode)
    return openat(AT_FDCWD, path, flags, mode);
}

HOOK int close(int fd) {
    if (!enter()) return REAL(close)(fd);
    if (fd >= 0 && fd < MOST_FDS) is_file[fd] = 0;
    note("close", fd, 0, 0, 0, 0, "", 0);
    leave();
    return REAL(close)(fd);
}

static int of_file(int fd) {
    return fd >= 0 && fd < MOST_FDS && is_file[fd];
}

// Once a sync fails, the pages of FILE from one offset up to another, which CALLS_UNREAD names, can't be read any more.
static void lose_pages(void) {
    long from, to;
    char *text = getenv("CALLS_UNREAD");
    if (text && sscanf(text, "%ld-%ld", &from, &to) == 2)
        for (long page = from / PAGE; page < to / PAGE && page < MOST_PAGES; page++) is_unread[page] = 1;
}
static int can_read(off_t at, size_t length) {
    for (long page = at / PAGE; page < MOST_PAGES && page * PAGE < at + (off_t)length; page++)
        if (is_unread[page]) return 0;
    return 1;
}
// What is written whole can be read again.
static void find_pages(off_t at, size_t length) {
    for (long page = (at + PAGE - 1) / PAGE; page < MOST_PAGES && (page + 1) * PAGE <= at + (off_t)length; page++) is_unread[page] = 0;
}

HOOK ssize_t pwrite(int fd, const void *bytes, size_t length, off_t at) {
    if (!enter()) return REAL(pwrite)(fd, bytes, length, at);
    int error = 0;
    enum what what = of_file(fd) ? next("write", &error) : NOTHING;
    ssize_t put = -1;
    size_t made = what == FAILS ? 0 : what == NOTHING ? length : (length + 1) / 2;
    if (what != FAILS) {
        put = REAL(pwrite)(fd, bytes, made, at);
        if (put < 0) error = errno, made = 0;
        else made = put;
        if (what == TORN) put = -1;
    }
    if (of_file(fd) && put > 0) find_pages(at, made);
    if (of_file(fd)) note("write", fd, at, length, put, error, bytes, made);
    leave();
    errno = error;
    return put;
}
HOOK ssize_t pwrite64(int fd, const void *bytes, size_t length, off_t at) { return pwrite(fd, bytes, length, at); }

HOOK ssize_t pread(int fd, void *bytes, size_t length, off_t at) {
    if (!enter()) return REAL(pread)(fd, bytes, length, at);
    int error = 0;
    enum what what = of_file(fd) ? next("read", &error) : NOTHING;
    ssize_t got = -1;
    if (what == NOTHING && of_file(fd) && !can_read(at, length)) what = FAILS, error = EIO;
    if (what == NOTHING || what == SHORT) {
        got = REAL(pread)(fd, bytes, what == SHORT ? (length + 1) / 2 : length, at);
        error = got < 0 ? errno : 0;
    }
    if (of_file(fd)) note("read", fd, at, length, got, error, "", 0);
    leave();
    errno = error;
    return got;
}
HOOK ssize_t pread64(int fd, void *bytes, size_t length, off_t at) { return pread(fd, bytes, length, at); }

// A sync of FILE, or of another file, which is made.
static int sync_of(int fd, int (*made)(int)) {
    char node[64];
    int error = 0, status = 0;
    if (!enter()) return made(fd);
    if (of_file(fd)) {
        if (next("sync", &error) != NOTHING) status = -1, lose_pages();
    } else if ((status = made(fd))) error = errno;
    node_of(fd, node, sizeof node);
    note_text("sync", fd, 0, of_file(fd), status, error, node);
    leave();
    errno = error;
    return status;
}
HOOK int fdatasync(int fd) { return sync_of(fd, REAL(fdatasync)); }
HOOK int fsync(int fd) { return sync_of(fd, REAL(fsync)); }

HOOK int ftruncate(int fd, off_t length) {
    if (!enter()) return REAL(ftruncate)(fd, length);
    int status = REAL(ftruncate)(fd, length), error = errno;
    if (of_file(fd)) note("resize", fd, length, 0, status, status ? error : 0, "", 0);
    leave();
    errno = error;
    return status;
}
HOOK int ftruncate64(int fd, off_t length) { return ftruncate(fd, length); }

// A lock of any file: which it is, and how it is locked.
HOOK int flock(int fd, int operation) {
    char node[64];
    if (!enter()) return REAL(flock)(fd, operation);
    int status = REAL(flock)(fd, operation), error = status ? errno : 0;
    node_of(fd, node, sizeof node);
    note_text("lock", fd, 0, operation, status, error, node);
    leave();
    errno = error;
    return status;
}

HOOK int rename(const char *from, const char *to) {
    if (!enter()) return REAL(rename)(from, to);
    int status = REAL(rename)(from, to), error = status ? errno : 0;
    note_text("rename", -1, 0, 0, status, error, to);
    leave();
    errno = error;
    return status;
}

// What the system is told of how FILE will be read.
HOOK int posix_fadvise(int fd, off_t at, off_t length, int advice) {
    if (!enter()) return REAL(posix_fadvise)(fd, at, length, advice);
    int status = REAL(posix_fadvise)(fd, at, length, advice);
    if (of_file(fd)) note("advise", fd, at, advice, status, status, "", 0);
    leave();
    return status;
}
HOOK int posix_fadvise64(int fd, off_t at, off_t length, int advice) { return posix_fadvise(fd, at, length, advice); }
