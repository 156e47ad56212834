// server FILE BYTES MANNER
//
// A server of RELP, Lumberjack and the collector that makes the calls of `bridge FILE serve`, or of `serve --group` where MANNER is group,
// and nothing else: it looks for where frames, windows and requests end, looks at no event, and keeps no books. A thread serves each
// connection. What it stores takes two writes and two syncs, one after the other: the group, and its gate's byte. An event has BYTES bytes
// of text, and 29 more on the disk; a group 9. It goes round in FILE, which must be as long as it is to be.
//
// Else it stores each frame of RELP by itself, and so each window, in groups of 256 events, and each request; a lock has the threads store
// one after the other. A read asks for 8,192 bytes. With `group` the frames of one read are stored together, at most 512, and answered
// together; what waits while others store is stored together next, by the first that waits; and a read asks for 65,536 bytes.
//
// Prints the ports of RELP, Lumberjack and the collector in a line, and serves until it is killed.
#define _GNU_SOURCE
#include <arpa/inet.h>
#include <errno.h>
#include <fcntl.h>
#include <netinet/tcp.h>
#include <pthread.h>
#include <stdio.h>
#include <stdlib.h>
#include <string.h>
#include <unistd.h>

enum { MOST = 1 << 20, FRAMES = 512, BATCH = 256, GROUP = 9, ENTRY = 29, FIRST = 12288 + 17 };

static int file, together;
static long bytes, piece, gate = FIRST, end;

static void stop(const char *what) {
    perror(what);
    exit(1);
}

// ---- Storing

// What a thread has to store: groups of events, written one after the other.
struct take {
    const char *text;
    long size;
    int taken, stored;
    pthread_cond_t woken;
    struct take *next;
};

static pthread_mutex_t lock = PTHREAD_MUTEX_INITIALIZER;
static struct take *first, **last = &first;
static int busy;

// Writes what stands at the text after the closed gate, syncs it, opens the gate and syncs that.
static void write_group(const char *text, long size) {
    if (gate + 1 + size > end) gate = FIRST;
    if (pwrite(file, text, size, gate + 1) != size || fdatasync(file)) stop("a write or a sync");
    if (pwrite(file, "\1", 1, gate) != 1 || fdatasync(file)) stop("a write or a sync");
    gate += size;
}

// Writes what all of these have as one group.
static void write_all(struct take *all) {
    static char *joined;
    static long room;
    long size = 0;
    if (!all->next) return write_group(all->text, all->size);
    for (struct take *it = all; it; it = it->next) size += it->size;
    if (size > room && !(joined = realloc(joined, room = 2 * size))) stop("memory");
    size = 0;
    for (struct take *it = all; it; it = it->next) memcpy(joined + size, it->text, it->size), size += it->size;
    write_group(joined, size);
}

// Stores it by itself, in its turn.
static void store_alone(const char *text, long size) {
    pthread_mutex_lock(&lock);
    write_group(text, size);
    pthread_mutex_unlock(&lock);
}

// Stores it with what others have waiting. Who comes while nobody stores takes all that waits, stores it, and gives the turn to the first
// of those that came meanwhile.
static void store_jointly(const char *text, long size) {
    struct take own = {text, size, 0, 0, PTHREAD_COND_INITIALIZER, NULL};
    pthread_mutex_lock(&lock);
    *last = &own, last = &own.next;
    while (!own.stored && (busy || own.taken)) pthread_cond_wait(&own.woken, &lock);
    if (!own.stored) {
        struct take *all = first;
        first = NULL, last = &first, busy = 1;
        for (struct take *it = all; it; it = it->next) it->taken = 1;
        pthread_mutex_unlock(&lock);
        write_all(all);
        pthread_mutex_lock(&lock);
        for (struct take *it = all, *next; it; it = next) next = it->next, it->stored = 1, pthread_cond_signal(&it->woken);
        busy = 0;
        if (first) pthread_cond_signal(&first->woken);
    }
    pthread_mutex_unlock(&lock);
}

static void store(const char *text, long events) {
    long size = GROUP + events * (ENTRY + bytes);
    together ? store_jointly(text, size) : store_alone(text, size);
}

// ---- A connection

struct link {
    int of;
    char *had, *said;
    long size, from;
};

static void put(struct link *it, const char *text, long size) {
    while (size > 0) {
        long n = send(it->of, text, size, MSG_NOSIGNAL);
        if (n <= 0) return;
        text += n, size -= n;
    }
}

// Reads what comes next to what isn't looked at yet; 0 at the end.
static int get(struct link *it) {
    memmove(it->had, it->had + it->from, it->size - it->from);
    it->size -= it->from, it->from = 0;
    long n = it->size + piece < MOST ? recv(it->of, it->had + it->size, piece, 0) : 0;
    if (n > 0) it->size += n;
    it->had[it->size] = 0;
    return n > 0;
}

// The frame at the front: its whole length and the number's digits; 0 where it isn't whole.
static long relp_frame(const struct link *it, long *digits) {
    const char *begin = it->had + it->from, *over = it->had + it->size;
    const char *at = memchr(begin, ' ', over - begin);
    long length = 0;
    if (!at) return 0;
    *digits = at - begin;
    if (!(at = memchr(at + 1, ' ', over - at - 1))) return 0;
    for (at++; at < over && *at >= '0' && *at <= '9'; at++) length = 10 * length + *at - '0';
    long whole = at - begin + (length ? 1 + length : 0) + 1;
    return at < over && whole <= over - begin ? whole : 0;
}

static void serve_relp(struct link *it) {
    static const char offers[] = "relp_version=0\nrelp_software=bench,1,x\ncommands=syslog";
    long digits = 0, whole = 0;
    while (!(whole = relp_frame(it, &digits))) if (!get(it)) return;
    it->from += whole;
    put(it, it->said, sprintf(it->said, "1 rsp %zu 200 OK\n%s\n", strlen(offers) + 7, offers));
    for (;;) {
        long said = 0, events = 0;
        const char *text = it->had + it->from;
        while (events < (together ? FRAMES : 1) && (whole = relp_frame(it, &digits))) {
            memcpy(it->said + said, it->had + it->from, digits), said += digits;
            memcpy(it->said + said, " rsp 6 200 OK\n", 14), said += 14;
            it->from += whole, events++;
        }
        if (events) store(text, events), put(it, it->said, said);
        else if (!get(it)) return;
    }
}

static unsigned number(const char *at) {
    unsigned value;
    memcpy(&value, at, 4);
    return ntohl(value);
}

// Whole payloads of the window are stored as they come to BATCH, or to its end.
static void serve_lumberjack(struct link *it) {
    for (;;) {
        while (it->size - it->from < 6) if (!get(it)) return;
        unsigned window = number(it->had + it->from + 2), seen = 0;
        it->from += 6;
        while (seen < window) {
            unsigned many = window - seen < BATCH ? window - seen : BATCH;
            long need = 0;
            for (unsigned i = 0; i < many; i++) {
                while (it->size - it->from < need + 10 || it->size - it->from < need + 10 + number(it->had + it->from + need + 6))
                    if (!get(it)) return;
                need += 10 + number(it->had + it->from + need + 6);
            }
            char answer[6] = "2A";
            seen += many;
            memcpy(answer + 2, it->had + it->from + need - 8 - bytes, 4);
            store(it->had + it->from, many);
            it->from += need;
            put(it, answer, 6);
        }
    }
}

static void serve_hec(struct link *it) {
    static const char reply[] =
        "HTTP/1.1 200 OK\r\nContent-Type: application/json\r\nContent-Length: 27\r\n\r\n{\"text\":\"Success\",\"code\":0}";
    for (;;) {
        char *head = NULL, *field = NULL;
        while (!(head = strstr(it->had + it->from, "\r\n\r\n"))) if (!get(it)) return;
        if (!(field = strcasestr(it->had + it->from, "Content-Length:"))) return;
        long length = atol(field + 15), before = head + 4 - (it->had + it->from);
        while (it->size - it->from < before + length) if (!get(it)) return;
        store(it->had + it->from + before, length / bytes);
        it->from += before + length;
        put(it, reply, sizeof reply - 1);
    }
}

// ---- All of them

struct place {
    int door;
    void (*serve)(struct link *);
};

struct call {
    int of;
    void (*serve)(struct link *);
};

static void *serve_one(void *of) {
    struct call *call = of;
    struct link it = {.of = call->of, .had = malloc(2 * MOST), .said = malloc(MOST)};
    int one = 1;
    if (!it.had || !it.said) stop("memory");
    it.had[0] = 0;
    setsockopt(it.of, IPPROTO_TCP, TCP_NODELAY, &one, sizeof one);
    call->serve(&it);
    close(it.of);
    free(it.had), free(it.said), free(call);
    return NULL;
}

static void *accept_all(void *of) {
    struct place *place = of;
    int link;
    while ((link = accept(place->door, NULL, NULL)) >= 0) {
        struct call *call = malloc(sizeof *call);
        pthread_t thread;
        if (!call) stop("memory");
        *call = (struct call){link, place->serve};
        if (pthread_create(&thread, NULL, serve_one, call) || pthread_detach(thread)) stop("a thread");
    }
    stop("accept");
    return NULL;
}

int main(int count, char **words) {
    static struct place places[] = {{0, serve_relp}, {0, serve_lumberjack}, {0, serve_hec}};
    pthread_t thread;
    if (count != 4) return 64;
    file = open(words[1], O_RDWR), bytes = atol(words[2]), together = !strcmp(words[3], "group");
    end = lseek(file, 0, SEEK_END), piece = together ? 65536 : 8192;
    if (file < 0 || bytes <= 0 || end <= FIRST) stop(words[1]);
    for (int i = 0; i < 3; i++) {
        struct sockaddr_in at = {.sin_family = AF_INET, .sin_addr = {htonl(INADDR_LOOPBACK)}};
        socklen_t size = sizeof at;
        places[i].door = socket(AF_INET, SOCK_STREAM, 0);
        if (bind(places[i].door, (void *)&at, size) || listen(places[i].door, 128)) stop("listen");
        if (getsockname(places[i].door, (void *)&at, &size)) stop("getsockname");
        printf("%d%c", ntohs(at.sin_port), i < 2 ? ' ' : '\n');
    }
    fflush(stdout);
    for (int i = 0; i < 3; i++)
        if (pthread_create(&thread, NULL, accept_all, &places[i])) stop("a thread");
    pause();
    return 0;
}
