// The system's memory of FILE, kept apart from what its disk holds. FILE itself is the memory: what a read gives. A write changes FILE and
// makes its pages dirty; a sync that succeeds puts the dirty pages on the disk; one that fails leaves them clean all the same, and puts
// none of them there, as Linux does; and where the system is told to forget what it has, each clean page is read from the disk again.
//
//     CACHE_FILE, CACHE_DISK, CACHE_DIRTY    FILE, the file that is its disk, and one that has a byte for each page, 1 where it is dirty;
//                                            the last is kept while one program after another runs, as the system's memory is
//     CACHE_FAILS                            the number of the first sync of FILE that fails, from which on each does; 0 for none
#define _GNU_SOURCE
#include <dlfcn.h>
#include <errno.h>
#include <fcntl.h>
#include <pthread.h>
#include <stdlib.h>
#include <sys/mman.h>
#include <sys/stat.h>
#include <unistd.h>

#define HOOK __attribute__((visibility("default")))
#define PAGE 4096

static pthread_mutex_t turn = PTHREAD_MUTEX_INITIALIZER;
static ssize_t (*real_write)(int, const void *, size_t, off_t);
static ssize_t (*real_read)(int, void *, size_t, off_t);
static struct stat file;
static unsigned char *dirty;
static long pages, syncs, fails;
static int disk = -1;

static __attribute__((constructor)) void begin(void) {
    real_write = dlsym(RTLD_NEXT, "pwrite64"), real_read = dlsym(RTLD_NEXT, "pread64");
    char *path = getenv("CACHE_FILE");
    if (!path || stat(path, &file)) return;
    pages = (file.st_size + PAGE - 1) / PAGE, fails = atol(getenv("CACHE_FAILS"));
    int kept = open(getenv("CACHE_DIRTY"), O_RDWR | O_CREAT, 0600);
    if (ftruncate(kept, pages)) abort();
    dirty = mmap(NULL, pages, PROT_READ | PROT_WRITE, MAP_SHARED, kept, 0);
    disk = open(getenv("CACHE_DISK"), O_RDWR);
    if (dirty == MAP_FAILED || disk < 0) abort();
}

static int is_file(int fd) {
    struct stat seen;
    return disk >= 0 && !fstat(fd, &seen) && seen.st_dev == file.st_dev && seen.st_ino == file.st_ino;
}
static void copy(int from, int to, long page) {
    char bytes[PAGE];
    ssize_t got = real_read(from, bytes, PAGE, page * PAGE);
    if (got > 0 && real_write(to, bytes, got, page * PAGE) != got) abort();
}

HOOK ssize_t pwrite64(int fd, const void *bytes, size_t length, off_t at) {
    if (!is_file(fd)) return real_write(fd, bytes, length, at);
    pthread_mutex_lock(&turn);
    ssize_t put = real_write(fd, bytes, length, at);
    int error = errno;
    if (put > 0)
        for (long page = at / PAGE; page <= (at + put - 1) / PAGE; page++) dirty[page] = 1;
    pthread_mutex_unlock(&turn);
    errno = error;
    return put;
}
HOOK ssize_t pwrite(int fd, const void *bytes, size_t length, off_t at) { return pwrite64(fd, bytes, length, at); }

static int sync_of(int fd, int (*made)(int)) {
    if (!is_file(fd)) return made(fd);
    pthread_mutex_lock(&turn);
    syncs++;
    int is_bad = fails && syncs >= fails;
    for (long page = 0; page < pages; page++) {
        if (dirty[page] && !is_bad) copy(fd, disk, page);
        dirty[page] = 0;
    }
    pthread_mutex_unlock(&turn);
    errno = EIO;
    return is_bad ? -1 : 0;
}
HOOK int fdatasync(int fd) { return sync_of(fd, dlsym(RTLD_NEXT, "fdatasync")); }
HOOK int fsync(int fd) { return sync_of(fd, dlsym(RTLD_NEXT, "fsync")); }

HOOK int posix_fadvise64(int fd, off_t at, off_t length, int advice) {
    if (!is_file(fd)) return ((int (*)(int, off_t, off_t, int))dlsym(RTLD_NEXT, "posix_fadvise64"))(fd, at, length, advice);
    pthread_mutex_lock(&turn);
    for (long page = 0; advice == POSIX_FADV_DONTNEED && page < pages; page++)
        if (!dirty[page]) copy(disk, fd, page);
    pthread_mutex_unlock(&turn);
    return 0;
}
HOOK int posix_fadvise(int fd, off_t at, off_t length, int advice) { return posix_fadvise64(fd, at, length, advice); }
