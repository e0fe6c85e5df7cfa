// Lets one allocation of a program fail: the one that FAIL_ALLOCATION numbers, counted from 1, of those that the program
// makes by malloc and realloc. Where FAIL_ALLOCATION is 0 none fails, and their number is written to standard error when
// the program ends.
#define _GNU_SOURCE
#include <dlfcn.h>
#include <errno.h>
#include <stddef.h>
#include <stdio.h>
#include <stdlib.h>

static void *(*next_malloc)(size_t);
static void *(*next_realloc)(void *, size_t);
static unsigned long failing;
static unsigned long made;

static void tell(void) {
    fprintf(stderr, "%lu\n", made);
}

__attribute__((constructor)) static void begin(void) {
    const char *number = getenv("FAIL_ALLOCATION");
    failing = number ? strtoul(number, NULL, 10) : 0;
    if (failing == 0)
        atexit(tell);
    made = 0;
}

static int fails(void) {
    if (!next_malloc) {
        next_malloc = (void *(*)(size_t))dlsym(RTLD_NEXT, "malloc");
        next_realloc = (void *(*)(void *, size_t))dlsym(RTLD_NEXT, "realloc");
    }
    made++;
    if (failing == 0 || made != failing)
        return 0;
    errno = ENOMEM;
    return 1;
}

void *malloc(size_t size) {
    return fails() ? NULL : next_malloc(size);
}

void *realloc(void *block, size_t size) {
    return fails() ? NULL : next_realloc(block, size);
}
