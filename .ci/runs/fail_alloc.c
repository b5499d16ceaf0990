/* Stands before the C library's malloc and realloc, and refuses one call: the one whose number, from 1, the environment's
   FAIL_ALLOC gives; none at 0. At the end the number of calls is written to descriptor 9, where that is open. */
#include <stdio.h>
#include <stdlib.h>
#include <unistd.h>

extern void *__libc_malloc(size_t size);
extern void *__libc_realloc(void *block, size_t size);

static unsigned long refused;
static unsigned long calls;
static int counts;

__attribute__((constructor)) static void begin(void) {
    const char *number = getenv("FAIL_ALLOC");
    refused = number ? strtoul(number, NULL, 10) : 0;
    counts = 1;
}

__attribute__((destructor)) static void end(void) {
    char line[32];
    counts = 0;
    int length = snprintf(line, sizeof line, "%lu\n", calls);
    if (write(9, line, length) < 0) {
        /* Nobody asks. */
    }
}

static int is_refused(void) { return counts && ++calls == refused; }

void *malloc(size_t size) { return is_refused() ? NULL : __libc_malloc(size); }

void *realloc(void *block, size_t size) { return is_refused() ? NULL : __libc_realloc(block, size); }
