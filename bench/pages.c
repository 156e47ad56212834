// pages FOLDER TURNS BYTES STATE
//
// What the calls of a file cost by which a group of BYTES bytes is stored, by where its writes are cut: the writes of the group, fdatasync,
// the write of its gate's byte, fdatasync. A text comes in pieces of 65,536 bytes from where the group begins, as bridge has them. Each
// manner has a file of its own of 512 MiB in FOLDER, written through before and in memory where STATE is hot, not in memory where it is
// cold, and never written where it is new. They take turns of 16 groups, each turn begun by the next one; each group goes on where the one
// before ended, and all find room in the file. Printed are the median of a group's microseconds, how many times as fast as the first
// manner it was, turn by turn (median and quartiles), and the means of its parts: the writes, with the reads ahead of them, the first sync,
// the gate with its sync.
#define _GNU_SOURCE
#include <fcntl.h>
#include <stdio.h>
#include <stdlib.h>
#include <string.h>
#include <time.h>
#include <unistd.h>

enum { PIECE = 65536, PAGE = 4096, GROUPS = 16, FIRST = 12306, MEBIBYTE = 1 << 20, SIZE = 512 * MEBIBYTE };

// The last part of a piece, after the last multiple of `stride`, is held back until the next piece comes (0: nothing is); a group is
// written with one call (`is_one`); the last page of a group is written whole, so that no page is read (`is_whole`: it spoils what stands
// there); before a write goes on where nothing was read ahead yet, the next `ahead` bytes are read at once, or the system is asked to read
// them (`is_asked`).
struct manner {
    const char *name;
    long stride;
    int is_one, is_whole;
    long ahead;
    int is_asked, file;
    long at, seen;
    double *took, *times, writes, sync, gate;
};

static struct manner manners[] = {
    {.name = "pieces as they come"},
    {.name = "cut at 4,096", .stride = PAGE},
    {.name = "cut at 16,384", .stride = 16384},
    {.name = "cut at 32,768", .stride = 32768},
    {.name = "cut at 65,536", .stride = PIECE},
    {.name = "one write", .is_one = 1},
    {.name = "cut at 4,096, no page read", .stride = PAGE, .is_whole = 1},
    {.name = "cut at 32,768, no page read", .stride = 32768, .is_whole = 1},
    {.name = "one write, no page read", .is_one = 1, .is_whole = 1},
    {.name = "cut at 4,096, reading ahead 65,536", .stride = PAGE, .ahead = 65536},
    {.name = "cut at 4,096, reading ahead 262,144", .stride = PAGE, .ahead = 262144},
    {.name = "cut at 4,096, reading ahead 1,048,576", .stride = PAGE, .ahead = MEBIBYTE},
    {.name = "cut at 32,768, reading ahead 262,144", .stride = 32768, .ahead = 262144},
    {.name = "cut at 4,096, asking for 262,144", .stride = PAGE, .ahead = 262144, .is_asked = 1},
};
enum { MANNERS = sizeof manners / sizeof *manners };

static char *text, held[PIECE], read_ahead[MEBIBYTE];
static long size;

static void stop(const char *what) {
    perror(what);
    exit(1);
}

static double now(void) {
    struct timespec at;
    clock_gettime(CLOCK_MONOTONIC, &at);
    return at.tv_sec * 1e6 + at.tv_nsec / 1e3;
}

// Reads ahead as far as a write goes, from the page in which the file wasn't read yet; where the system is asked, it is one range further,
// so that the range is there when it is needed.
static void look_ahead(struct manner *it, long to) {
    while (it->ahead && it->seen < to + (it->is_asked ? it->ahead : 0) && it->seen < SIZE) {
        if (it->is_asked) posix_fadvise(it->file, it->seen, it->ahead, POSIX_FADV_WILLNEED);
        else if (pread(it->file, read_ahead, it->ahead, it->seen) < 0) stop("a read");
        it->seen += it->ahead;
    }
}

// As bridge writes: it looks at the file's end first.
static void put(struct manner *it, const char *from, long n, long at) {
    if (n <= 0) return;
    look_ahead(it, at + n);
    if (lseek(it->file, 0, SEEK_END) < SIZE || pwrite(it->file, from, n, at) != n) stop("a write");
}

// Writes a group in pieces, the last part of each held back; `last` is where its last write ends.
static void put_pieces(struct manner *it, long at, long end, long last) {
    long waits = 0;
    for (long from = at, to; from < end; from = to) {
        const char *piece = text;
        to = from + PIECE < end ? from + PIECE : last;
        long is_long = from + PIECE <= end, n = to - from < it->stride - waits ? to - from : it->stride - waits;
        if (waits) {
            memcpy(held + waits, piece, n);
            put(it, held, waits + n, from - waits);
            waits = 0, from += n, piece += n;
        }
        long cut = it->stride && is_long ? to / it->stride * it->stride : to;
        put(it, piece, cut - from, from);
        waits = cut > from ? to - cut : to - from;
        memcpy(held, piece + (to - from) - waits, waits);
    }
    if (waits) put(it, held, waits, last - waits);
}

static void store(struct manner *it) {
    long end = it->at + size, last = it->is_whole ? (end + PAGE - 1) / PAGE * PAGE : end;
    double start = now();
    if (it->is_one) put(it, text, last - it->at, it->at);
    else put_pieces(it, it->at, end, last);
    double written = now();
    if (fdatasync(it->file)) stop("a sync");
    double synced = now();
    put(it, "\1", 1, it->at - 1);
    if (fdatasync(it->file)) stop("a sync");
    it->writes += written - start, it->sync += synced - written, it->gate += now() - synced;
    it->at = end;
}

static int open_file(const char *folder, long number, const char *state) {
    char path[4096];
    snprintf(path, sizeof path, "%s/pages.%ld", folder, number);
    int file = open(path, O_RDWR | O_CREAT, 0600);
    if (file < 0) stop(path);
    if (ftruncate(file, 0) || ftruncate(file, SIZE)) stop(path);
    for (long at = 0; at < SIZE && strcmp(state, "new"); at += MEBIBYTE)
        if (pwrite(file, text, MEBIBYTE, at) != MEBIBYTE) stop(path);
    if (fsync(file) || (!strcmp(state, "cold") && posix_fadvise(file, 0, 0, POSIX_FADV_DONTNEED))) stop(path);
    return file;
}

static int less(const void *a, const void *b) {
    double one = *(const double *)a, other = *(const double *)b;
    return one < other ? -1 : one > other;
}

int main(int count, char **words) {
    if (count != 5) return 64;
    long turns = atol(words[2]);
    size = atol(words[3]);
    if (turns < 1 || size < 1 || turns > (SIZE - MEBIBYTE) / size / GROUPS) return 64;
    if (!(text = calloc(1, size + MEBIBYTE + PAGE))) stop("memory");
    for (long i = 0; i < MANNERS; i++) {
        manners[i].file = open_file(words[1], i, words[4]), manners[i].at = FIRST;
        manners[i].seen = FIRST / PAGE * PAGE;
        manners[i].took = calloc(turns, sizeof(double)), manners[i].times = calloc(turns, sizeof(double));
        if (!manners[i].took || !manners[i].times) stop("memory");
    }
    for (long turn = 0; turn < turns; turn++) {
        for (long i = 0; i < MANNERS; i++) {
            struct manner *it = &manners[(turn + i) % MANNERS];
            double start = now();
            for (int group = 0; group < GROUPS; group++) store(it);
            it->took[turn] = (now() - start) / GROUPS;
        }
        for (long i = 0; i < MANNERS; i++) manners[i].times[turn] = manners[0].took[turn] / manners[i].took[turn];
    }
    for (struct manner *it = manners; it < manners + MANNERS; it++) {
        double all = turns * GROUPS;
        qsort(it->took, turns, sizeof(double), less), qsort(it->times, turns, sizeof(double), less);
        printf("%s, %s: %.0f us a group, %.2f (%.2f to %.2f) of the first; writes %.0f, sync %.0f, gate %.0f\n", words[4], it->name,
            it->took[turns / 2], it->times[turns / 2], it->times[turns / 4], it->times[turns * 3 / 4], it->writes / all, it->sync / all,
            it->gate / all);
    }
    return 0;
}
