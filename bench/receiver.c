// receiver PROTOCOL [CONNECTIONS]
//
// A receiver that keeps nothing, of relp, lumberjack or hec: it answers each frame of RELP with `200 OK`, each window of Lumberjack with
// the acknowledgment of its last frame, and each request to the collector with its Success, all those that a read brought with one write.
// It prints the port that it listens on, and at each connection's end how many reads brought the end of a frame, window or request, and
// how many of these there were. It ends after so many connections, which it serves one after another: 1, or else as many as are said.
#define _GNU_SOURCE
#include <arpa/inet.h>
#include <stdio.h>
#include <stdlib.h>
#include <string.h>
#include <sys/socket.h>
#include <unistd.h>

enum { PIECE = 1 << 18, LONGEST = 1 << 21, ANSWER = 256 };

static void check(int fine, const char *what) {
    if (!fine) {
        perror(what);
        exit(1);
    }
}

static void write_whole(int to, const char *bytes, size_t left) {
    while (left > 0) {
        ssize_t written = write(to, bytes, left);
        check(written > 0, "write");
        bytes += written;
        left -= written;
    }
}

// Each of these gives the length of the frame, window or request at the front of these bytes, 0 where it isn't whole; and writes its
// answer, of fewer than ANSWER bytes, whose length it adds to `said`.

// A frame is `NUMBER COMMAND LENGTH[ DATA]` and a line feed.
static size_t relp(const char *bytes, size_t held, char *answer, size_t *said) {
    const char *end = bytes + held, *at = memchr(bytes, ' ', held);
    if (at == NULL || at - bytes > 20)
        return 0;
    size_t digits = at - bytes, length = 0;
    at = memchr(at + 1, ' ', end - at - 1);
    if (at == NULL)
        return 0;
    for (at++; at < end && *at >= '0' && *at <= '9'; at++)
        length = 10 * length + (*at - '0');
    size_t whole = at - bytes + (length > 0 ? 1 + length : 0) + 1;
    if (at >= end || whole > held)
        return 0;
    memcpy(answer, bytes, digits);
    memcpy(answer + digits, " rsp 6 200 OK\n", 14);
    *said += digits + 14;
    return whole;
}

static size_t number(const char *at) {
    unsigned value;
    memcpy(&value, at, 4);
    return ntohl(value);
}

// A window is `2W` and how many frames there are, and these: `2J`, a number, a length and a payload. Where a part of a window was seen by
// an earlier call, this one goes on there.
static size_t lumberjack(const char *bytes, size_t held, char *answer, size_t *said) {
    static size_t seen, frames;
    if (held < 6)
        return 0;
    if (seen == 0)
        seen = 6, frames = 0;
    for (; frames < number(bytes + 2); frames++) {
        if (held < seen + 10 || held < seen + 10 + number(bytes + seen + 6))
            return 0;
        memcpy(answer + 2, bytes + seen + 2, 4);
        seen += 10 + number(bytes + seen + 6);
    }
    size_t whole = seen;
    memcpy(answer, "2A", 2);
    *said += 6;
    seen = 0;
    return whole;
}

// A request has a head, whose field says how long the body is.
static size_t hec(const char *bytes, size_t held, char *answer, size_t *said) {
    static const char reply[] =
        "HTTP/1.1 200 OK\r\nContent-Type: application/json\r\nContent-Length: 27\r\n\r\n{\"text\":\"Success\",\"code\":0}";
    const char *end = memmem(bytes, held, "\r\n\r\n", 4), *field = strcasestr(bytes, "Content-Length:");
    if (end == NULL)
        return 0;
    check(field != NULL && field < end, "a head without a length");
    size_t whole = end + 4 - bytes + strtoul(field + 15, NULL, 10);
    if (whole > held)
        return 0;
    memcpy(answer, reply, sizeof reply - 1);
    *said += sizeof reply - 1;
    return whole;
}

static void serve(int link, size_t (*next)(const char *, size_t, char *, size_t *)) {
    static char held[LONGEST + 1], answers[PIECE];
    size_t have = 0, reads = 0, all = 0;
    for (;;) {
        check(have < LONGEST, "more than fits");
        ssize_t brought = read(link, held + have, LONGEST - have);
        if (brought <= 0)
            break;
        have += brought;
        held[have] = 0;
        size_t from = 0, said = 0, whole, before = all;
        while ((whole = next(held + from, have - from, answers + said, &said)) > 0) {
            if (said + ANSWER > sizeof answers) {
                write_whole(link, answers, said);
                said = 0;
            }
            from += whole;
            all++;
        }
        reads += all > before;
        write_whole(link, answers, said);
        memmove(held, held + from, have - from);
        have -= from;
    }
    printf("%zu %zu\n", reads, all);
    fflush(stdout);
}

int main(int count, char **words) {
    struct sockaddr_in place = {.sin_family = AF_INET, .sin_addr.s_addr = htonl(INADDR_LOOPBACK)};
    socklen_t size = sizeof place;
    if (count < 2 || count > 3)
        return 64;
    int door = socket(AF_INET, SOCK_STREAM, 0), is_relp = strcmp(words[1], "relp") == 0, is_hec = strcmp(words[1], "hec") == 0;
    check(bind(door, (void *)&place, size) == 0 && listen(door, 1) == 0, "listen");
    check(getsockname(door, (void *)&place, &size) == 0, "getsockname");
    printf("%d\n", ntohs(place.sin_port));
    fflush(stdout);
    for (long left = count == 3 ? atol(words[2]) : 1; left > 0; left--) {
        int link = accept(door, NULL, NULL);
        check(link >= 0, "accept");
        serve(link, is_relp ? relp : is_hec ? hec : lumberjack);
        close(link);
    }
    return 0;
}
