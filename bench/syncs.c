// Stands between a program and the C library (LD_PRELOAD), and counts its syncs of files, or makes them take longer.
//
//     SYNCS_COUNT    a file of 8 bytes, in which they are counted
//     SYNCS_LONGER   how many microseconds each takes longer
#define _GNU_SOURCE
#include <dlfcn.h>
#include <fcntl.h>
#include <stdlib.h>
#include <sys/mman.h>
#include <time.h>
#include <unistd.h>

static long none, *count = &none, longer;

__attribute__((constructor)) static void begin(void) {
    char *path = getenv("SYNCS_COUNT"), *times = getenv("SYNCS_LONGER");
    int file = path ? open(path, O_RDWR) : -1;
    void *there = file >= 0 ? mmap(NULL, sizeof *count, PROT_READ | PROT_WRITE, MAP_SHARED, file, 0) : MAP_FAILED;
    if (there != MAP_FAILED) count = there;
    if (file >= 0) close(file);
    if (times) longer = atol(times);
}

static int synced(int result) {
    struct timespec time = {.tv_sec = longer / 1000000, .tv_nsec = longer % 1000000 * 1000};
    __atomic_add_fetch(count, 1, __ATOMIC_RELAXED);
    if (longer) nanosleep(&time, NULL);
    return result;
}

int fdatasync(int fd) { return synced(((int (*)(int))dlsym(RTLD_NEXT, "fdatasync"))(fd)); }
int fsync(int fd) { return synced(((int (*)(int))dlsym(RTLD_NEXT, "fsync"))(fd)); }
