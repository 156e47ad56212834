// Stands between a program and the C library (LD_PRELOAD): writes down each call that is of interest, in one order over all
// threads, and makes calls fail as it is told. It is built and read by calling.py.
//
//     CALLS_LOG      where the calls are written down; without it every call goes on as it is
//     CALLS_FILE     the path of FILE: its reads, writes and syncs are counted, each kind from 1
//     CALLS_PLAN     what goes wrong: words CALL@FROM-TO=WHAT, of which CALL is read, write, sync, accept, recv or send, and
//                    WHAT an errno; or 'short' (half of the bytes), 'torn' (half of them, and an answer of EIO), or 'stop' (the
//                    program stops before it until it is told to go on)
//     CALLS_UNREAD   FROM-TO: once a sync of FILE has failed, the pages from one offset up to another can't be read until they are
//                    written
//     CALLS_SHORTEN  waits of a tenth of a second and more take so many times less; the clock goes on as if they didn't
//
// A sync of FILE that isn't to fail answers 0 and does nothing: what the disk holds then is reckoned from what is written down.
// A line is 'KIND FD AT ASKED RESULT ERRNO LENGTH', then so many bytes and a line feed. A send is written down twice: 'send'
// before the call, so that nobody has read it yet, and 'sent' after it. All others are written down after the call.
#include "calls.h"

#include <errno.h>
#include <fcntl.h>
#include <pthread.h>
#include <signal.h>
#include <stdio.h>
#include <stdlib.h>
#include <string.h>
#include <sys/uio.h>

#define MOST_WORDS 1024

struct word { char call[8]; long from, to; enum what what; int error; };

// Whoever writes something down holds it.
static pthread_mutex_t one = PTHREAD_MUTEX_INITIALIZER;
static pthread_once_t begun = PTHREAD_ONCE_INIT;
static int log_fd = -1;
long shorten = 1;
static struct word words[MOST_WORDS];
static long counts[MOST_WORDS]; // of each word: how many of its calls were made
static int word_count;

void *real(const char *name) {
    void *found = dlsym(RTLD_NEXT, name);
    if (!found) abort();
    return found;
}

static void read_word(char *text) {
    struct word *word = &words[word_count];
    char what[16];
    if (word_count == MOST_WORDS || sscanf(text, "%7[a-z]@%ld-%ld=%15s", word->call, &word->from, &word->to, what) != 4) {
        fprintf(stderr, "calls: what is '%s'?\n", text);
        abort();
    }
    word->what = !strcmp(what, "short") ? SHORT : !strcmp(what, "torn") ? TORN : !strcmp(what, "stop") ? STOPS : FAILS;
    word->error = word->what == TORN ? EIO : atoi(what);
    word_count++;
}

static void begin(void) {
    char *path = getenv("CALLS_LOG"), *plan = getenv("CALLS_PLAN"), *times = getenv("CALLS_SHORTEN"), *rest = NULL;
    if (!path) return;
    plan = plan ? strdup(plan) : NULL;
    for (char *text = plan ? strtok_r(plan, " ", &rest) : NULL; text; text = strtok_r(NULL, " ", &rest)) read_word(text);
    if (times) shorten = atol(times);
    log_fd = REAL(open)(path, O_WRONLY | O_CREAT | O_APPEND | O_CLOEXEC, 0600);
    if (log_fd < 0) abort();
}

int enter(void) {
    pthread_once(&begun, begin);
    if (log_fd < 0) return 0;
    pthread_mutex_lock(&one);
    return 1;
}

void leave(void) {
    pthread_mutex_unlock(&one);
}

enum what next(const char *call, int *error) {
    enum what what = NOTHING;
    for (int i = 0; i < word_count; i++) {
        if (strcmp(words[i].call, call)) continue;
        counts[i]++;
        if (counts[i] < words[i].from || counts[i] > words[i].to) continue;
        what = words[i].what;
        *error = words[i].error;
    }
    if (what != STOPS) return what;
    raise(SIGSTOP);
    return NOTHING;
}

void note(const char *kind, int fd, long long at, long long asked, long long result, int error, const void *bytes, size_t length) {
    char head[160];
    int long_of = snprintf(head, sizeof head, "%s %d %lld %lld %lld %d %zu\n", kind, fd, at, asked, result, error, length);
    struct iovec parts[3] = {{head, long_of}, {(void *)bytes, length}, {"\n", 1}};
    if (REAL(writev)(log_fd, parts, 3) != (ssize_t)(long_of + length + 1)) abort();
}

void note_text(const char *kind, int fd, long long at, long long asked, long long result, int error, const char *text) {
    note(kind, fd, at, asked, result, error, text, strlen(text));
}
