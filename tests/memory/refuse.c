// A library that stands between the program and the C library's memory, and refuses the program one call for more.
//
//     REFUSE=N     the program's own Nth call of malloc or realloc is refused, from 1; those of libraries aren't counted
//     REFUSED=F    the file F is made where one was refused
#define _GNU_SOURCE
#include <errno.h>
#include <fcntl.h>
#include <link.h>
#include <stdatomic.h>
#include <stdint.h>
#include <stdlib.h>
#include <unistd.h>

// A function of the C library that the program calls here.
#define HOOK __attribute__((visibility("default")))

// The same functions under the names that the C library itself has for them.
extern void *__libc_malloc(size_t size);
extern void *__libc_realloc(void *old, size_t size);

// Where the program's code stands, and which call is refused.
static uintptr_t first, end;
static unsigned long due;
static atomic_ulong made;

// The first object is the program.
static int find_code(struct dl_phdr_info *object, size_t size, void *unused) {
    (void)size, (void)unused;
    for (int i = 0; i < object->dlpi_phnum; i++) {
        const ElfW(Phdr) *part = &object->dlpi_phdr[i];
        if (part->p_type == PT_LOAD && part->p_flags & PF_X) {
            first = object->dlpi_addr + part->p_vaddr;
            end = first + part->p_memsz;
        }
    }
    return 1;
}

__attribute__((constructor)) static void begin(void) {
    const char *number = getenv("REFUSE");
    due = number ? strtoul(number, NULL, 10) : 0;
    dl_iterate_phdr(find_code, NULL);
}

static int is_refused(const void *caller) {
    uintptr_t at = (uintptr_t)caller;
    if (at < first || at >= end || atomic_fetch_add(&made, 1) + 1 != due)
        return 0;
    const char *path = getenv("REFUSED");
    if (path)
        close(open(path, O_CREAT | O_WRONLY, 0600));
    errno = ENOMEM;
    return 1;
}

HOOK void *malloc(size_t size) {
    return is_refused(__builtin_return_address(0)) ? NULL : __libc_malloc(size);
}

HOOK void *realloc(void *old, size_t size) {
    return is_refused(__builtin_return_address(0)) ? NULL : __libc_realloc(old, size);
}
