// A disk that fails when it is told to: a file system (FUSE) of one file, "disk", whose bytes are kept in another file.
//
//     failing_disk KEPT FOLDER [options of FUSE]
//
// SIGUSR1: for the next 20 milliseconds each write and each sync fails with EIO. SIGUSR2: from now on they all do, so that KEPT is what
// a power cut at this moment leaves. Used by the script ext4.
#define FUSE_USE_VERSION 31
#define _GNU_SOURCE
#include <errno.h>
#include <fcntl.h>
#include <fuse3/fuse.h>
#include <signal.h>
#include <stdlib.h>
#include <string.h>
#include <sys/stat.h>
#include <time.h>
#include <unistd.h>

#define FAILS_NANOS 20000000LL

static int kept;
static volatile sig_atomic_t is_told, is_cut;
static long long fails_until;

static long long now(void) {
    struct timespec time;
    clock_gettime(CLOCK_MONOTONIC, &time);
    return time.tv_sec * 1000000000LL + time.tv_nsec;
}
static int fails(void) {
    if (is_told) is_told = 0, fails_until = now() + FAILS_NANOS;
    return is_cut || now() < fails_until;
}
static void on_told(int signal) {
    if (signal == SIGUSR1) is_told = 1;
    else is_cut = 1;
}

static int is_disk(const char *path) { return !strcmp(path, "/disk"); }

static int get_attributes(const char *path, struct stat *to, struct fuse_file_info *info) {
    (void)info;
    memset(to, 0, sizeof *to);
    to->st_mode = S_IFDIR | 0700, to->st_nlink = 2;
    if (!strcmp(path, "/")) return 0;
    if (!is_disk(path) || fstat(kept, to)) return -ENOENT;
    to->st_mode = S_IFREG | 0600;
    return 0;
}
static int list(const char *path, void *to, fuse_fill_dir_t fill, off_t at, struct fuse_file_info *info, enum fuse_readdir_flags flags) {
    (void)path, (void)at, (void)info, (void)flags;
    return fill(to, "disk", NULL, 0, 0) ? -ENOMEM : 0;
}
static int open_file(const char *path, struct fuse_file_info *info) {
    (void)info;
    return is_disk(path) ? 0 : -ENOENT;
}
static int read_file(const char *path, char *to, size_t length, off_t at, struct fuse_file_info *info) {
    (void)path, (void)info;
    ssize_t got = pread(kept, to, length, at);
    return got < 0 ? -errno : (int)got;
}
static int write_file(const char *path, const char *bytes, size_t length, off_t at, struct fuse_file_info *info) {
    (void)path, (void)info;
    if (fails()) return -EIO;
    ssize_t put = pwrite(kept, bytes, length, at);
    return put < 0 ? -errno : (int)put;
}
static int sync_file(const char *path, int data_alone, struct fuse_file_info *info) {
    (void)path, (void)data_alone, (void)info;
    return fails() ? -EIO : 0;
}

int main(int count, char **words) {
    static const struct fuse_operations calls = {
        .getattr = get_attributes, .readdir = list, .open = open_file, .read = read_file, .write = write_file, .fsync = sync_file,
    };
    if (count < 3 || (kept = open(words[1], O_RDWR)) < 0) return 64;
    struct sigaction told = {.sa_handler = on_told, .sa_flags = SA_RESTART};
    sigaction(SIGUSR1, &told, NULL);
    sigaction(SIGUSR2, &told, NULL);
    words[1] = words[0];
    return fuse_main(count - 1, words + 1, &calls, NULL);
}
