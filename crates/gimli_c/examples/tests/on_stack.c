/* Stands before the C library's calls that take memory or a lock, and ends the program where one of them is made on an alternate stack,
 * which is in a signal handler. Linked into profile.c by run.sh, by --wrap. */
#define _GNU_SOURCE
#include <link.h>
#include <pthread.h>
#include <signal.h>
#include <stdlib.h>
#include <unistd.h>

static void refuse_in_handler(void) {
    stack_t stack;
    static const char said[] = "a handler takes memory or a lock\n";
    if (sigaltstack(NULL, &stack) != 0 || (stack.ss_flags & SS_ONSTACK) == 0) return;
    _exit(write(2, said, sizeof said - 1) < 0 ? 4 : 5);
}

#define WRAPPED(type, name, parameters, arguments) \
    type __real_##name parameters; \
    type __wrap_##name parameters; \
    type __wrap_##name parameters { \
        refuse_in_handler(); \
        return __real_##name arguments; \
    }

typedef int each(struct dl_phdr_info *, size_t, void *);
WRAPPED(void *, malloc, (size_t size), (size))
WRAPPED(void *, calloc, (size_t count, size_t size), (count, size))
WRAPPED(void *, realloc, (void *block, size_t size), (block, size))
WRAPPED(void, free, (void *block), (block))
WRAPPED(int, pthread_mutex_lock, (pthread_mutex_t *lock), (lock))
WRAPPED(int, pthread_rwlock_rdlock, (pthread_rwlock_t *lock), (lock))
WRAPPED(int, pthread_rwlock_wrlock, (pthread_rwlock_t *lock), (lock))
WRAPPED(int, dl_iterate_phdr, (each *call, void *to), (call, to))
