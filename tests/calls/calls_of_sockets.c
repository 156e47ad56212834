// The calls on sockets.
#include "calls.h"

#include <errno.h>
#include <netinet/in.h>
#include <stdio.h>
#include <string.h>
#include <sys/socket.h>
#include <sys/time.h>

// From how many microseconds on a time that a socket waits is made shorter.
#define LONG_TIME 10000000

HOOK int accept4(int door, struct sockaddr *from, socklen_t *length, int flags) {
    int error = 0;
    if (!enter()) return REAL(accept4)(door, from, length, flags);
    int fails = next("accept", &error) == FAILS;
    leave();
    int fd = -1;
    if (!fails) {
        fd = REAL(accept4)(door, from, length, flags);
        error = fd < 0 ? errno : 0;
    }
    enter();
    note("accept", door, 0, 0, fd, error, "", 0);
    leave();
    errno = error;
    return fd;
}
HOOK int accept(int door, struct sockaddr *from, socklen_t *length) { return accept4(door, from, length, 0); }

HOOK int connect(int fd, const struct sockaddr *to, socklen_t length) {
    int status = REAL(connect)(fd, to, length), error = errno;
    if (!enter()) return errno = error, status;
    note("dial", fd, 0, 0, status, status ? error : 0, "", 0);
    leave();
    errno = error;
    return status;
}

// What was set, as 'LEVEL NAME VALUE' and of a time in microseconds. A long time is made shorter.
HOOK int setsockopt(int fd, int level, int name, const void *value, socklen_t length) {
    char text[80];
    struct timeval time;
    long long said = 0;
    if (!enter()) return REAL(setsockopt)(fd, level, name, value, length);
    if (level == SOL_SOCKET && (name == SO_RCVTIMEO || name == SO_SNDTIMEO) && length >= sizeof time) {
        memcpy(&time, value, sizeof time);
        said = time.tv_sec * 1000000LL + time.tv_usec;
        if (said >= LONG_TIME) {
            time.tv_sec = said / shorten / 1000000;
            time.tv_usec = said / shorten % 1000000;
            value = &time;
        }
    } else if (length >= sizeof(int)) {
        said = *(const int *)value;
    }
    int status = REAL(setsockopt)(fd, level, name, value, length), error = errno;
    snprintf(text, sizeof text, "%d %d %lld", level, name, said);
    note_text("option", fd, 0, 0, status, status ? error : 0, text);
    leave();
    errno = error;
    return status;
}

HOOK ssize_t recv(int fd, void *bytes, size_t length, int flags) {
    int error = 0;
    if (!enter()) return REAL(recv)(fd, bytes, length, flags);
    int fails = next("recv", &error) == FAILS;
    leave();
    ssize_t got = -1;
    if (!fails) {
        got = REAL(recv)(fd, bytes, length, flags);
        error = got < 0 ? errno : 0;
    }
    enter();
    note("recv", fd, 0, length, got, error, bytes, got > 0 ? got : 0);
    leave();
    errno = error;
    return got;
}

HOOK ssize_t send(int fd, const void *bytes, size_t length, int flags) {
    int error = 0;
    if (!enter()) return REAL(send)(fd, bytes, length, flags);
    enum what what = next("send", &error);
    note("send", fd, 0, length, 0, 0, bytes, length);
    leave();
    ssize_t put = -1;
    if (what != FAILS) {
        put = REAL(send)(fd, bytes, what == SHORT ? (length + 1) / 2 : length, flags);
        error = put < 0 ? errno : 0;
    }
    enter();
    note("sent", fd, 0, length, put, error, "", 0);
    leave();
    errno = error;
    return put;
}
