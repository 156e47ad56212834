// What the parts of the library share: the plan of what goes wrong, and where the calls are written down. See calls.c.
#define _GNU_SOURCE
#include <dlfcn.h>
#include <stddef.h>

// A function of the C library that the program calls here.
#define HOOK __attribute__((visibility("default")))
#define REAL(name) ((__typeof__(&name))real(#name))

enum what { NOTHING, FAILS, SHORT, TORN, STOPS };

// How many times shorter long waits are than the program asks.
extern long shorten;

// The library's function of this name.
void *real(const char *name);
// The two below stand around each call that is written down. Where nothing is to be, enter() answers 0.
int enter(void);
void leave(void);
// What is to happen to the next call of this kind, and by which errno it fails.
enum what next(const char *call, int *error);
// Writes a call down: the fields are those of a line.
void note(const char *kind, int fd, long long at, long long asked, long long result, int error, const void *bytes, size_t length);
void note_text(const char *kind, int fd, long long at, long long asked, long long result, int error, const char *text);
