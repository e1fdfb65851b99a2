// Loaded before the C library (LD_PRELOAD), this refuses the allocation whose number is in REFUSE_AT.
// At the end it writes how many allocations there were to the file descriptor 9, where that is open.
#include <stdio.h>
#include <stdlib.h>
#include <unistd.h>

void *__libc_malloc(size_t n);
void *__libc_realloc(void *p, size_t n);

static unsigned long allocations, refused_at;

__attribute__((constructor)) static void begin(void) {
    const char *at = getenv("REFUSE_AT");
    refused_at = at ? strtoul(at, 0, 10) : 0;
    allocations = 0;
}

__attribute__((destructor)) static void end(void) {
    char line[32];
    int n = snprintf(line, sizeof line, "%lu\n", allocations);
    if (write(9, line, n) < 0) return;
}

void *malloc(size_t n) { return ++allocations == refused_at ? 0 : __libc_malloc(n); }
void *realloc(void *p, size_t n) { return ++allocations == refused_at ? 0 : __libc_realloc(p, n); }
