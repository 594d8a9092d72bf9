// Stands before the C library's malloc and realloc, and refuses a call: the one with the number REFUSE, counted from 1, and
// where ALL_BEHIND is set all after it too. At the end it says on standard error how many calls there were and how many it
// refused. What the program starts does not get it.
#include <errno.h>
#include <stddef.h>
#include <stdio.h>
#include <stdlib.h>

extern void *__libc_malloc(size_t);
extern void *__libc_realloc(void *, size_t);

static unsigned long number, calls, refused;
static int all_behind;

__attribute__((constructor)) static void begin(void) {
    const char *of = getenv("REFUSE");
    number = of ? strtoul(of, NULL, 10) : 0;
    all_behind = getenv("ALL_BEHIND") != NULL;
    unsetenv("LD_PRELOAD");
    unsetenv("REFUSE");
    unsetenv("ALL_BEHIND");
    calls = refused = 0;
}

__attribute__((destructor)) static void end(void) {
    unsigned long c = calls, r = refused;
    number = 0;
    dprintf(2, "%lu %lu\n", c, r);
}

static int is_refused(void) {
    calls++;
    if (number == 0 || calls < number || (calls > number && !all_behind))
        return 0;
    refused++;
    errno = ENOMEM;
    return 1;
}

void *malloc(size_t octets) { return is_refused() ? NULL : __libc_malloc(octets); }

void *realloc(void *old, size_t octets) { return is_refused() ? NULL : __libc_realloc(old, octets); }
