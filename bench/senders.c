// senders SERVERS LINKS AHEAD LOOK BYTES WINDOW GROUP TURNS SECONDS FILE
//
// SERVERS are servers with a comma between them. Each is its places with a plus between them, and a place is PROTOCOL:PORT.
//
// Takes turns of so many seconds. In the first the bare loop goes over FILE: for each group a write of it, fdatasync, a write of its
// gate's byte, fdatasync. A group has GROUP events of BYTES bytes. In each of the next ones LINKS connections send to each place of one
// server, each with at most AHEAD frames, windows or requests of WINDOW events that aren't answered yet, until the time is over and all
// are answered. Each time another server is the first after the loop. A connection waits for the next answer; where LOOK isn't 0, it sleeps
// so many microseconds and then reads what came. Without turns of the loop where FILE is -.
//
// Prints for each turn `loop`, its events and its seconds, or `sent` and the server's number from 0 before these; and last, for each
// server, `times`, its number and the microseconds from the sending of a frame, window or request to its answer: the median, and that
// of 99 in 100.
#define _GNU_SOURCE
#include <arpa/inet.h>
#include <errno.h>
#include <fcntl.h>
#include <netinet/tcp.h>
#include <pthread.h>
#include <stdio.h>
#include <stdlib.h>
#include <string.h>
#include <time.h>
#include <unistd.h>

#define MOST_AHEAD 4096
#define MOST_SERVERS 8
#define MOST_TIMES 4000000

static long ahead, look, bytes, window, group;
static double end_at;

struct protocol;

// A server: where its connections meet at the beginning and at the end of a turn, and the connections.
struct server {
    pthread_barrier_t begin, over;
    struct sender *all;
    int links;
};

// A connection: what was sent and what was answered, counted in frames, windows or requests; and when the last ones were sent.
struct sender {
    pthread_t thread;
    struct server *server;
    const struct protocol *protocol;
    long port;
    int link;
    long sent, answered, count;
    unsigned long long id;
    int asks;
    char channel[40];
    double at[MOST_AHEAD];
    int *times;
    char *text, piece[65536];
    size_t size, had;
};

static void stop(const char *what) {
    perror(what);
    exit(1);
}

static double now(void) {
    struct timespec t;
    clock_gettime(CLOCK_MONOTONIC, &t);
    return t.tv_sec + t.tv_nsec / 1e9;
}

static void put(struct sender *it, const char *text, size_t size) {
    while (size > 0) {
        ssize_t n = write(it->link, text, size);
        if (n <= 0) stop("write");
        text += n, size -= n;
    }
}

// Adds to the piece what comes next, and a zero byte after it.
static void get(struct sender *it) {
    ssize_t n = -1;
    while (n < 0) {
        if (look) usleep(look);
        n = recv(it->link, it->piece + it->had, sizeof it->piece - it->had - 1, look ? MSG_DONTWAIT : 0);
        if (n == 0 || (n < 0 && (!look || errno != EAGAIN))) stop("read");
    }
    it->had += n;
    it->piece[it->had] = 0;
}

// Drops the front of the piece.
static void drop(struct sender *it, size_t size) {
    it->had -= size;
    memmove(it->piece, it->piece + size, it->had + 1);
}

static void note(struct sender *it) {
    double since = it->at[it->answered++ % MOST_AHEAD];
    if (it->count < MOST_TIMES) it->times[it->count++] = (int)((now() - since) * 1e6);
}

// ---- RELP: a frame is one event. Each reply but that of the open is one line.

static void open_relp(struct sender *it) {
    static const char offers[] = "relp_version=0\nrelp_software=bench,1,x\ncommands=syslog";
    char *length = NULL, *space = NULL;
    it->text = malloc(ahead * (bytes + 40));
    put(it, it->text, sprintf(it->text, "1 open %zu %s\n", strlen(offers), offers));
    do {
        get(it);
        length = strstr(it->piece, "rsp ");
        space = length ? strchr(length + 4, ' ') : NULL;
    } while (!space || it->piece + it->had < space + 1 + atol(length + 4) + 1);
    it->had = 0;
}

static void send_relp(struct sender *it, long frames) {
    size_t size = 0;
    double at = now();
    for (long i = 0; i < frames; i++) {
        it->at[it->sent % MOST_AHEAD] = at;
        size += sprintf(it->text + size, "%ld syslog %ld ", it->sent++ + 2, bytes);
        memset(it->text + size, 'x', bytes);
        it->text[size + bytes] = '\n';
        size += bytes + 1;
    }
    put(it, it->text, size);
}

static void take_relp(struct sender *it) {
    size_t end = 0;
    for (size_t i = 0; i < it->had; i++)
        if (it->piece[i] == '\n') note(it), end = i + 1;
    drop(it, end);
}

// ---- Lumberjack: a window of frames, and the acknowledgment of its last frame; there may be some of earlier ones before.

static void number(char *to, unsigned value) {
    value = htonl(value);
    memcpy(to, &value, 4);
}

static void open_lumberjack(struct sender *it) {
    char *to = it->text = malloc(6 + window * (10 + bytes));
    memcpy(to, "2W", 2), number(to + 2, window), to += 6;
    for (int i = 1; i <= window; i++) {
        memcpy(to, "2J", 2), number(to + 2, i), number(to + 6, bytes);
        memset(to + 10, 'x', bytes);
        memcpy(to + 10, "{\"message\":\"", 12), memcpy(to + 10 + bytes - 2, "\"}", 2);
        to += 10 + bytes;
    }
    it->size = to - it->text;
}

static void take_lumberjack(struct sender *it) {
    size_t end = 0;
    for (; it->had - end >= 6; end += 6)
        if (!memcmp(it->piece + end + 2, it->text + 2, 4)) note(it);
    drop(it, end);
}

// ---- The collector: a request of event objects, and its reply, whose body is one object.

static void put_objects(struct sender *it) {
    for (int i = 0; i < window; i++) {
        memset(it->text + it->size, 'x', bytes);
        memcpy(it->text + it->size, "{\"event\":\"", 10), memcpy(it->text + it->size + bytes - 2, "\"}", 2);
        it->size += bytes;
    }
}

static void open_hec(struct sender *it) {
    it->text = malloc(400 + window * bytes);
    it->size = sprintf(it->text, "POST /services/collector/event HTTP/1.1\r\nHost: 127.0.0.1\r\nAuthorization: Splunk " TOKEN "\r\n"
        "Content-Length: %ld\r\n\r\n", window * bytes);
    put_objects(it);
}

static void take_hec(struct sender *it) {
    for (char *end; (end = strchr(it->piece, '}')); drop(it, end + 1 - it->piece)) {
        if (end - it->piece < 8 || memcmp(end - 8, "\"code\":0", 8)) stop(it->piece);
        note(it);
    }
}

// ---- The collector with ids: a request of event objects under the token with ids, whose reply has an id, and then queries, one after
// another's answer, until one says that what has that id is durable. That is the answer of the request. One request is under way.

static void open_ids(struct sender *it) {
    static int channels;
    sprintf(it->channel, "%08x-0000-4000-8000-%012x", getpid(), __sync_add_and_fetch(&channels, 1));
    it->text = malloc(500 + window * bytes);
    it->size = sprintf(it->text, "POST /services/collector/event HTTP/1.1\r\nHost: 127.0.0.1\r\nAuthorization: Splunk " ACK_TOKEN "\r\n"
        "X-Splunk-Request-Channel: %s\r\nContent-Length: %ld\r\n\r\n", it->channel, window * bytes);
    put_objects(it);
}

static void ask(struct sender *it) {
    char body[64], text[400];
    int length = sprintf(body, "{\"acks\":[%llu]}", it->id);
    put(it, text, sprintf(text, "POST /services/collector/ack HTTP/1.1\r\nHost: 127.0.0.1\r\nAuthorization: Splunk " ACK_TOKEN "\r\n"
        "X-Splunk-Request-Channel: %s\r\nContent-Length: %d\r\n\r\n%s", it->channel, length, body));
}

static void take_ids(struct sender *it) {
    const char *sign = it->asks ? "}}" : "}";
    char *body = strstr(it->piece, "\r\n\r\n"), *end = body ? strstr(body, sign) : NULL;
    if (!end) return;
    if (!it->asks) {
        char *id = strstr(body, "\"ackId\":");
        if (!id) stop(it->piece);
        it->id = strtoull(id + 8, NULL, 10);
    }
    it->asks = !it->asks || !strstr(body, ":true");
    drop(it, end + strlen(sign) - it->piece);
    if (it->asks) ask(it);
    else note(it);
}

// ---- All of them

// Windows and requests are alike, and each is written by itself.
static void send_again(struct sender *it, long count) {
    for (; count > 0; count--) {
        it->at[it->sent++ % MOST_AHEAD] = now();
        put(it, it->text, it->size);
    }
}

static const struct protocol {
    const char *name;
    void (*open)(struct sender *);
    void (*send)(struct sender *, long);
    void (*take)(struct sender *);
} protocols[] = {
    {"relp", open_relp, send_relp, take_relp},
    {"lumberjack", open_lumberjack, send_again, take_lumberjack},
    {"hec", open_hec, send_again, take_hec},
    {"ids", open_ids, send_again, take_ids},
};

static void dial(struct sender *it) {
    struct sockaddr_in at = {.sin_family = AF_INET, .sin_port = htons(it->port), .sin_addr = {htonl(INADDR_LOOPBACK)}};
    int one = 1;
    it->link = socket(AF_INET, SOCK_STREAM, 0);
    if (it->link < 0 || connect(it->link, (struct sockaddr *)&at, sizeof at)) stop("connect");
    setsockopt(it->link, IPPROTO_TCP, TCP_NODELAY, &one, sizeof one);
}

static void *send_on(void *of) {
    struct sender *it = of;
    dial(it);
    it->protocol->open(it);
    for (;;) {
        pthread_barrier_wait(&it->server->begin);
        if (end_at == 0) break;
        for (;;) {
            long free = ahead - (it->sent - it->answered);
            if (free > 0 && now() < end_at) it->protocol->send(it, free);
            if (it->answered == it->sent) break;
            get(it);
            it->protocol->take(it);
        }
        pthread_barrier_wait(&it->server->over);
    }
    close(it->link);
    return NULL;
}

// The bare loop over a file: the place of the closed gate, and a group.
static int file = -1;
static long gate = 12288 + 17, need, room;
static char *text;

static void loop(double seconds) {
    long done = 0;
    double start = now();
    while (now() < start + seconds) {
        if (gate > room) gate = 12288 + 17;
        if (pwrite(file, text, need, gate + 1) != need || fdatasync(file)) stop("a write or a sync");
        if (pwrite(file, "\1", 1, gate) != 1 || fdatasync(file)) stop("a write or a sync");
        gate += need, done += group;
    }
    printf("loop %ld %f\n", done, now() - start);
}

static long answered(const struct server *server) {
    long sum = 0;
    for (int i = 0; i < server->links; i++) sum += server->all[i].answered;
    return sum;
}

static int less(const void *a, const void *b) {
    return *(const int *)a - *(const int *)b;
}

static void print_times(int number, const struct server *server) {
    long count = 0, half, most;
    for (int i = 0; i < server->links; i++) count += server->all[i].count;
    int *each = malloc((count + 1) * sizeof(int)), *to = each;
    for (int i = 0; i < server->links; i++) {
        const struct sender *it = server->all + i;
        memcpy(to, it->times, it->count * sizeof(int)), to += it->count;
    }
    qsort(each, count, sizeof(int), less);
    half = count ? each[count / 2] : 0, most = count ? each[count * 99 / 100] : 0;
    printf("times %d %ld %ld\n", number, half, most);
    free(each);
}

// Connects to each place of a server, as `relp:2514+hec:8088`.
static void start(struct server *server, char *places, int links) {
    int many = 1, at = 0;
    for (char *sign = places; (sign = strchr(sign, '+')); sign++) many++;
    server->links = many * links, server->all = calloc(server->links, sizeof *server->all);
    pthread_barrier_init(&server->begin, NULL, server->links + 1), pthread_barrier_init(&server->over, NULL, server->links + 1);
    for (char *rest, *place = strtok_r(places, "+", &rest); place; place = strtok_r(NULL, "+", &rest)) {
        const struct protocol *protocol = protocols;
        char *port = strchr(place, ':');
        if (!port) stop(place);
        *port++ = 0;
        while (strcmp(protocol->name, place)) protocol++;
        for (int i = 0; i < links; i++) {
            struct sender *it = server->all + at++;
            it->server = server, it->protocol = protocol, it->port = atol(port), it->times = malloc(MOST_TIMES * sizeof(int));
            if (pthread_create(&it->thread, NULL, send_on, it)) stop("a thread");
        }
    }
}

static void take_turn(int number, struct server *server, double seconds) {
    long before = answered(server);
    double start = now();
    end_at = start + seconds;
    pthread_barrier_wait(&server->begin);
    pthread_barrier_wait(&server->over);
    printf("sent %d %ld %f\n", number, (answered(server) - before) * window, now() - start);
}

int main(int count, char **words) {
    static struct server servers[MOST_SERVERS];
    char *rest = NULL;
    int many = 0;
    if (count != 11) return 64;
    int links = atoi(words[2]), turns = atoi(words[8]);
    double seconds = atof(words[9]);
    ahead = atol(words[3]), look = atol(words[4]), bytes = atol(words[5]), window = atol(words[6]), group = atol(words[7]);
    if (ahead > MOST_AHEAD) return 64;
    if (strcmp(words[10], "-")) {
        file = open(words[10], O_RDWR);
        need = 9 + group * (29 + bytes), room = lseek(file, 0, SEEK_END) - need - 1, text = calloc(1, need);
        if (file < 0 || !text) stop(words[10]);
        memset(text, 'x', need - 1);
    }
    for (char *one = strtok_r(words[1], ",", &rest); one && many < MOST_SERVERS; one = strtok_r(NULL, ",", &rest))
        start(&servers[many++], one, links);
    for (int turn = 0; turn < turns; turn++) {
        if (file >= 0) loop(seconds);
        for (int i = 0; i < many; i++) take_turn((i + turn) % many, &servers[(i + turn) % many], seconds);
    }
    if (file >= 0) loop(seconds);
    end_at = 0;
    for (int i = 0; i < many; i++) {
        pthread_barrier_wait(&servers[i].begin);
        for (int j = 0; j < servers[i].links; j++) pthread_join(servers[i].all[j].thread, NULL);
        print_times(i, &servers[i]);
    }
    return 0;
}
