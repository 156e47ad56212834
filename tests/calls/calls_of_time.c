// Waits, the clock, and what is said on standard error meanwhile.
#include "calls.h"

#include <errno.h>
#include <sys/uio.h>
#include <time.h>
#include <unistd.h>

// From how many nanoseconds on a wait is made shorter.
#define LONG_WAIT 100000000LL

// How far the clock is ahead, in nanoseconds.
static long long ahead;

HOOK int nanosleep(const struct timespec *asked, struct timespec *left) {
    long long nanos = asked->tv_sec * 1000000000LL + asked->tv_nsec;
    if (!enter()) return REAL(nanosleep)(asked, left);
    note("sleep", -1, nanos, 0, 0, 0, "", 0);
    long times = nanos >= LONG_WAIT ? shorten : 1;
    leave();
    struct timespec taken = {nanos / times / 1000000000, nanos / times % 1000000000};
    int status = REAL(nanosleep)(&taken, left);
    __atomic_add_fetch(&ahead, nanos - nanos / times, __ATOMIC_SEQ_CST);
    return status;
}
HOOK int clock_nanosleep(clockid_t clock, int flags, const struct timespec *asked, struct timespec *left) {
    if (flags) return REAL(clock_nanosleep)(clock, flags, asked, left);
    return nanosleep(asked, left) ? errno : 0;
}

HOOK int clock_gettime(clockid_t clock, struct timespec *time) {
    int status = REAL(clock_gettime)(clock, time);
    if (status || clock == CLOCK_PROCESS_CPUTIME_ID || clock == CLOCK_THREAD_CPUTIME_ID) return status;
    long long nanos = time->tv_sec * 1000000000LL + time->tv_nsec + __atomic_load_n(&ahead, __ATOMIC_SEQ_CST);
    time->tv_sec = nanos / 1000000000;
    time->tv_nsec = nanos % 1000000000;
    return 0;
}

// What goes to standard error, with the seconds of the clock.
static void note_said(int fd, const void *bytes, size_t length) {
    struct timespec now;
    if (fd != STDERR_FILENO || !enter()) return;
    clock_gettime(CLOCK_MONOTONIC, &now);
    note("say", fd, now.tv_sec, length, 0, 0, bytes, length);
    leave();
}
HOOK ssize_t write(int fd, const void *bytes, size_t length) {
    note_said(fd, bytes, length);
    return REAL(write)(fd, bytes, length);
}
HOOK ssize_t writev(int fd, const struct iovec *parts, int count) {
    for (int i = 0; i < count; i++) note_said(fd, parts[i].iov_base, parts[i].iov_len);
    return REAL(writev)(fd, parts, count);
}
