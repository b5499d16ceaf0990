/* By the libbacktrace that comes with gcc. It takes addresses as those of its own process: FILE and this program don't move. */
#include <backtrace.h>

#include "ask.h"

static void fails(void *data, const char *said, int number) {
    (void)data;
    fprintf(stderr, "with_libbacktrace: %s (%d)\n", said, number);
    exit(2);
}

static int first_of_all(void *data, uintptr_t address, const char *path, int line, const char *function) {
    (void)data, (void)address, (void)function;
    if (path != NULL) told((uint64_t)line, strlen(path));
    return 1; /* no more: the other places are those of functions that it stands in */
}

int main(int argc, char **argv) {
    if (argc != 5) return 2;
    struct backtrace_state *state = backtrace_create_state(argv[1], 0, fails, NULL);
    uint64_t lowest = strtoull(argv[3], NULL, 16), highest = strtoull(argv[4], NULL, 16);
    for (long i = atol(argv[2]); i > 0; i--) backtrace_pcinfo(state, (uintptr_t)next_address(lowest, highest), first_of_all, fails, NULL);
    return print_sums();
}
