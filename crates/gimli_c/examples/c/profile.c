/* A sampling profiler: profile DIR PLUGIN runs four threads, a thousand times a second each stops in a handler of SIGPROF, and prints where
 * they were, as lines of FILE ADDRESS PATH:LINE. DIR/ID.lines is the index of the file with the build ID `ID`; one that isn't there is made.
 * PLUGIN is a shared library with a function `work`, loaded while the threads run. For x86-64 and AArch64 with Linux; INDEX explains it. */
#define _GNU_SOURCE
#include <dlfcn.h>
#include <fcntl.h>
#include <inttypes.h>
#include <link.h>
#include <pthread.h>
#include <sched.h>
#include <signal.h>
#include <stdatomic.h>
#include <string.h>
#include <sys/auxv.h>
#include <sys/mman.h>
#include <sys/stat.h>
#include <sys/syscall.h>
#include <time.h>
#include <ucontext.h>
#include <unistd.h>

#include "file.h"
#include "gimli_line.h"

enum { THREADS = 4, HERTZ = 1000, SAMPLES = 1 << 15, SEGMENTS = 1024, PATH_ROOM = 4096, PAGE = 4096, UNTOUCHED = 0xa5 };
enum { TICKS = 2000, PLUGIN_TICKS = 200 }; /* the fewest before the profile ends */

#ifndef sigev_notify_thread_id
#define sigev_notify_thread_id _sigev_un._tid
#endif

/* ---- the table of loaded code: the handler reads it, and so nothing of it changes once it is published */

/* A loaded file, and its index. Samples point to it and into its index, so both stay to the end. */
typedef struct object {
    char name[PATH_ROOM];
    char id[129]; /* its build ID, in hexadecimal */
    uintptr_t base;
    const uint8_t *index;
    size_t length;
} object;

/* The addresses of a segment of it. */
typedef struct segment {
    uintptr_t first, last;
    object *of;
} segment;

typedef struct table {
    size_t count;
    segment segments[SEGMENTS];
} table;

static _Atomic(table *) current;
static atomic_uint reading; /* how many handlers are at work */
static const char *directory;

/* The build ID of a loaded file, from its notes in memory: the file of that name may be another one by now. */
static void read_id(const struct dl_phdr_info *info, object *of) {
    for (int i = 0; i < info->dlpi_phnum; i++) {
        const ElfW(Phdr) *header = &info->dlpi_phdr[i];
        size_t step = header->p_align == 8 ? 8 : 4;
        const uint8_t *at = (const uint8_t *)(info->dlpi_addr + header->p_vaddr), *end = at + header->p_memsz;
        while (header->p_type == PT_NOTE && (size_t)(end - at) >= sizeof(ElfW(Nhdr))) {
            ElfW(Nhdr) note;
            memcpy(&note, at, sizeof note);
            const uint8_t *name = at + sizeof note, *id = name + (note.n_namesz + step - 1) / step * step;
            if (note.n_type == NT_GNU_BUILD_ID && note.n_namesz == 4 && memcmp(name, "GNU", 4) == 0 && note.n_descsz <= 64)
                for (size_t k = 0; k < note.n_descsz; k++) sprintf(of->id + 2 * k, "%02x", id[k]);
            at = id + (note.n_descsz + step - 1) / step * step;
            if (at > end) break;
        }
    }
}

/* Makes an index under a new name, and moves it into place: a process that has the old one mapped keeps the old one. */
static bool make_index(const char *from, const char *name) {
    char fresh[PATH_ROOM + 16];
    if (access(from, R_OK) != 0) return false;
    bytes file = read_file(from);
    uint8_t *index;
    size_t size;
    gimli_line_status status = gimli_line_index_of_elf(file.at, file.length, &index, &size);
    free(file.at);
    if (status != GIMLI_LINE_OK) return false;
    snprintf(fresh, sizeof fresh, "%s.%ld", name, (long)getpid());
    FILE *out = fopen(fresh, "wbx");
    bool written = out != NULL && fwrite(index, 1, size, out) == size;
    if (out != NULL && fclose(out) != 0) written = false;
    free(index);
    return written && rename(fresh, name) == 0;
}

/* Maps an index, if it is sound and that of the file with this build ID. Its pages are read now, not in the handler. */
static void map_index(const char *name, object *of) {
    struct stat about;
    int file = open(name, O_RDONLY | O_CLOEXEC);
    if (file < 0) return;
    size_t length = fstat(file, &about) == 0 ? (size_t)about.st_size : 0;
    void *at = length != 0 ? mmap(NULL, length, PROT_READ, MAP_SHARED | MAP_POPULATE, file, 0) : MAP_FAILED;
    close(file);
    if (at == MAP_FAILED) return;
    const uint8_t *index = at;
    gimli_line_index found;
    char id[129] = "";
    bool same = gimli_line_index_open(index, length, &found) == GIMLI_LINE_OK && found.identity_size != 0 && found.identity_size <= 64;
    for (size_t i = 0; same && i < found.identity_size; i++) sprintf(id + 2 * i, "%02x", index[found.identity + i]);
    if (!same || strcmp(id, of->id) != 0 || gimli_line_index_check(index, length) != GIMLI_LINE_OK) {
        munmap(at, length);
        return;
    }
    of->index = index;
    of->length = length;
}

/* Finds the index of a loaded file: one that is there, unless all are to be made anew; or else that of the file itself or of its debug file.
 * A file without a build ID, and the kernel's vDSO, of which there is no file, have none. */
static void find_index(object *of, bool anew) {
    char name[PATH_ROOM], debug_file[PATH_ROOM];
    if (of->id[0] == 0) return;
    snprintf(name, sizeof name, "%s/%s.lines", directory, of->id);
    if (!anew) map_index(name, of);
    snprintf(debug_file, sizeof debug_file, "/usr/lib/debug/.build-id/%.2s/%s.debug", of->id, of->id + 2);
    if (of->index == NULL && (make_index(of->name, name) || make_index(debug_file, name))) map_index(name, of);
}

/* Adds the segments of a loaded file. */
static int add_file(struct dl_phdr_info *info, size_t size, void *to) {
    (void)size;
    table *made = to;
    object *of = calloc(1, sizeof *of);
    if (of == NULL) exit(2);
    snprintf(of->name, sizeof of->name, "%s", info->dlpi_name[0] != 0 ? info->dlpi_name : "/proc/self/exe");
    of->base = info->dlpi_addr;
    read_id(info, of);
    for (int i = 0; i < info->dlpi_phnum && made->count < SEGMENTS; i++) {
        uintptr_t first = info->dlpi_addr + info->dlpi_phdr[i].p_vaddr;
        if (info->dlpi_phdr[i].p_type == PT_LOAD)
            made->segments[made->count++] = (segment){first, first + info->dlpi_phdr[i].p_memsz, of};
    }
    return 0;
}

/* Makes the table anew, as after dlopen. A handler reads the old one or the new one, and the old one goes when no handler can be reading
 * it. pthread_sigmask blocks the signal in this thread alone, so that its own work isn't in the profile. */
static void rebuild(bool anew) {
    sigset_t ticks, before;
    sigemptyset(&ticks);
    sigaddset(&ticks, SIGPROF);
    pthread_sigmask(SIG_BLOCK, &ticks, &before);
    table *made = calloc(1, sizeof *made);
    if (made == NULL) exit(2);
    dl_iterate_phdr(add_file, made);
    for (size_t i = 0; i < made->count; i++)
        if (i == 0 || made->segments[i].of != made->segments[i - 1].of) find_index(made->segments[i].of, anew);
    table *old = atomic_exchange(&current, made);
    while (atomic_load(&reading) != 0) sched_yield();
    free(old);
    pthread_sigmask(SIG_SETMASK, &before, NULL);
}

/* ---- the handler */

typedef struct sample {
    const object *of; /* null if the address is in no loaded file */
    uint64_t address; /* in the file */
    const char *path; /* null if nothing is known */
    uint32_t line;
} sample;

/* A thread, its samples, and its alternate stack. */
typedef struct recorder {
    sample *samples;
    atomic_size_t count;
    uint8_t *stack;
    timer_t timer;
} recorder;

static size_t stack_size; /* of an alternate stack */

/* Stores where the thread is. */
static void at_tick(int number, siginfo_t *about, void *context) {
    (void)number;
#if defined __x86_64__
    uintptr_t at = (uintptr_t)((ucontext_t *)context)->uc_mcontext.gregs[REG_RIP];
#else
    uintptr_t at = (uintptr_t)((ucontext_t *)context)->uc_mcontext.pc;
#endif
    recorder *to = about->si_code == SI_TIMER ? about->si_value.sival_ptr : NULL;
    size_t count = to != NULL ? atomic_load(&to->count) : SAMPLES;
    if (count == SAMPLES) return;
    atomic_fetch_add(&reading, 1);
    const table *table = atomic_load(&current);
    sample *made = &to->samples[count];
    *made = (sample){NULL, at, NULL, 0};
    for (size_t i = 0; i < table->count && made->of == NULL; i++) {
        const segment *in = &table->segments[i];
        if (in->first <= at && at < in->last) made->of = in->of;
    }
    gimli_line_place place;
    if (made->of != NULL) made->address -= made->of->base;
    if (made->of != NULL && made->of->index != NULL &&
        gimli_line_index_find(made->of->index, made->of->length, made->address, &place) == GIMLI_LINE_OK) {
        made->path = gimli_line_place_path(made->of->index, &place);
        made->line = place.line;
    }
    atomic_store(&to->count, count + 1);
    atomic_fetch_sub(&reading, 1);
}

/* Sets the alternate stack and the timer of the calling thread. The stack has the bytes that the kernel pushes for a signal, and 4 KiB for
 * the handler; a page below it that can't be written stops what would run over. */
static void begin(recorder *by) {
    size_t area = (stack_size + PAGE - 1) / PAGE * PAGE;
    uint8_t *all = mmap(NULL, PAGE + area, PROT_READ | PROT_WRITE, MAP_PRIVATE | MAP_ANONYMOUS, -1, 0);
    if (all == MAP_FAILED || mprotect(all, PAGE, PROT_NONE) != 0) exit(2);
    by->stack = memset(all + PAGE, UNTOUCHED, area);
    by->samples = calloc(SAMPLES, sizeof *by->samples);
    stack_t stack = {.ss_sp = by->stack, .ss_size = stack_size};
    struct sigevent event = {.sigev_notify = SIGEV_THREAD_ID, .sigev_signo = SIGPROF, .sigev_value.sival_ptr = by};
    event.sigev_notify_thread_id = (pid_t)syscall(SYS_gettid);
    const struct timespec step = {0, 1000000000 / HERTZ};
    if (by->samples == NULL || sigaltstack(&stack, NULL) != 0 || timer_create(CLOCK_MONOTONIC, &event, &by->timer) != 0 ||
        timer_settime(by->timer, 0, &(struct itimerspec){step, step}, NULL) != 0)
        exit(2);
}

/* ---- what is profiled: threads that compute, and that take and free memory */

typedef unsigned work(unsigned);
static _Atomic(work *) plugin;
static atomic_bool ends;
static recorder recorders[THREADS];

static inline unsigned turned(unsigned seed) { return seed << 13 | seed >> 19; }

__attribute__((noinline)) static unsigned mixed(unsigned seed) {
    for (unsigned i = 0; i < 500; i++) {
        seed = turned(seed) * 5 + i;
        if (seed % 7 == 0) seed ^= i << 3;
    }
    return seed;
}

__attribute__((noinline)) static unsigned taken(unsigned seed) {
    unsigned *block = malloc((1 + seed % 100) * sizeof *block);
    if (block == NULL) return seed;
    for (unsigned i = 0; i <= seed % 100; i++) block[i] = seed + i;
    seed ^= block[seed % 100 / 2];
    free(block);
    return seed;
}

static void *thread(void *of) {
    recorder *mine = of;
    unsigned seed = 7;
    begin(mine);
    while (!atomic_load(&ends)) {
        work *more = atomic_load(&plugin);
        seed = taken(mixed(seed));
        if (more != NULL) seed = more(seed);
    }
    timer_delete(mine->timer);
    return (void *)(uintptr_t)seed;
}

/* How many samples there are, in the file of a name or in all. */
static size_t counted(const char *name) {
    size_t count = 0;
    for (size_t i = 0; i < THREADS; i++)
        for (size_t k = 0, all = atomic_load(&recorders[i].count); k < all; k++) {
            const object *of = recorders[i].samples[k].of;
            count += name == NULL || (of != NULL && strcmp(of->name, name) == 0);
        }
    return count;
}

/* Waits for so many, a minute at most. */
static void wait_for(const char *name, size_t count) {
    for (int i = 0; i < 6000 && counted(name) < count; i++) nanosleep(&(struct timespec){0, 10000000}, NULL);
    if (counted(name) < count) exit(3);
}

int main(int argc, char **argv) {
    if (argc != 3) return 2;
    directory = argv[1];
    size_t frame = getauxval(AT_MINSIGSTKSZ); /* what the kernel pushes; 0 before Linux 5.14 */
    stack_size = (frame > 2048 ? frame : 2048) + 4096;
    rebuild(false);
    struct sigaction action = {.sa_sigaction = at_tick, .sa_flags = SA_SIGINFO | SA_ONSTACK | SA_RESTART};
    if (sigaction(SIGPROF, &action, NULL) != 0) return 2;
    pthread_t threads[THREADS];
    for (size_t i = 0; i < THREADS; i++)
        if (pthread_create(&threads[i], NULL, thread, &recorders[i]) != 0) return 2;
    wait_for(NULL, TICKS / 2);

    void *loaded = dlopen(argv[2], RTLD_NOW);
    if (loaded == NULL) return 2;
    rebuild(true); /* all indexes are replaced, while the threads ask the old ones */
    atomic_store(&plugin, (work *)(uintptr_t)dlsym(loaded, "work"));
    wait_for(argv[2], PLUGIN_TICKS);
    wait_for(NULL, TICKS);
    atomic_store(&ends, true);
    for (size_t i = 0; i < THREADS; i++) pthread_join(threads[i], NULL);

    size_t known = 0, most = 0;
    for (size_t i = 0; i < THREADS; i++) {
        size_t left = 0;
        while (left < stack_size && recorders[i].stack[left] == UNTOUCHED) left++;
        most = most > stack_size - left ? most : stack_size - left;
        for (size_t k = 0; k < atomic_load(&recorders[i].count); k++) {
            const sample *of = &recorders[i].samples[k];
            if (of->path == NULL) continue;
            printf("%s %" PRIx64 " %s:%" PRIu32 "\n", of->of->name, of->address, of->path, of->line);
            known++;
        }
    }
    fprintf(stderr, "%zu ticks, %zu of them in files with an index, on stacks of %zu bytes, of which they took %zu\n", counted(NULL), known,
            stack_size, most);
    return 0;
}
