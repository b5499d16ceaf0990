/* Indexes as threads, signal handlers and damaged files ask them. The indexes are written here, by docs/reference/INDEX.md alone.
 *
 *   indexes            prints how many questions were answered as they had to be
 *   indexes FILE       writes a small index to the file, of the ranges that index.c is asked for by run.sh
 *
 * malloc stands here, before that of the C library: it ends the program where a call of an index asks for memory. */
#define _GNU_SOURCE
#include <pthread.h>
#include <signal.h>
#include <sys/time.h>
#include <unistd.h>

#include "ask.h"

enum { RANGES = 200000, SOURCES = 100, THREADS = 16, BATCH = 64 };
static const uint64_t base = 0x400000;

static _Thread_local volatile sig_atomic_t asking;

#ifndef SANITISED /* a sanitiser has a malloc of its own */
extern void *__libc_malloc(size_t size);

void *malloc(size_t size) {
    if (asking) {
        static const char said[] = "indexes: a question takes memory\n";
        if (write(2, said, sizeof said - 1) < 0) abort();
        abort();
    }
    return __libc_malloc(size);
}
#endif

/* ---- an index, by docs/reference/INDEX.md */

static void put(bytes *index, uint64_t number, size_t size) {
    for (size_t i = 0; i < size; i++) index->at[index->length++] = (uint8_t)(number >> 8 * i);
}

static void put_text(bytes *index, const char *text, size_t size) {
    for (size_t i = 0; i < size; i++) put(index, (uint8_t)text[i], 1);
}

static char paths[SOURCES][32]; /* /source/K.c, but for source 1, which has the reason 4 */

/* The bytes of a path in the part of paths, with its zero byte. */
static size_t stored(size_t source) { return source == 1 ? 0 : strlen(paths[source]) + 1; }

static int by_number(const void *one, const void *other) {
    uint64_t a = *(const uint64_t *)one, b = *(const uint64_t *)other;
    return (a > b) - (a < b);
}

/* The number of the name of a source. */
static uint64_t name_number(size_t source) {
    uint64_t number = 0;
    const char *name = strrchr(paths[source], '/');
    for (name = name != NULL ? name + 1 : ""; *name != 0; name++) number = (number * 31 + (uint8_t)*name) % (UINT64_C(1) << 31);
    return number;
}

/* `ranges` ranges of 16 bytes, each third one a gap: range i has the line i + 1, the column i % 7, and the source i % sources. Where i is
 * even, it is a statement, and where i % 5 is 0, a prologue ends. Starts have `size` bytes. */
static bytes made(size_t ranges, size_t sources, size_t size) {
    bytes index = {malloc(64 + sources * 64 + ranges * 36), 0};
    is(index.at != NULL, "memory for an index");
    size_t paths_size = 0;
    for (size_t i = 0; i < sources; i++) {
        if (i != 1) snprintf(paths[i], sizeof paths[i], "/source/%zu.c", i);
        paths_size += stored(i);
    }
    put_text(&index, "LINEIDX", 8);
    put(&index, 2, 4);
    put(&index, 8, 2);
    put(&index, size, 2);
    put(&index, size == 4 ? base : 0, 8);
    put(&index, ranges, 4);
    put(&index, sources, 4);
    put(&index, paths_size, 4);
    put(&index, 5, 4);
    uint64_t *keys = malloc((ranges + 1) * sizeof *keys);
    is(keys != NULL, "memory for statements");
    size_t statements = 0;
    for (size_t i = 0; i < ranges; i++)
        if (i % 2 == 0 && i % 3 != 2) keys[statements++] = (name_number(i % sources) << 32) + i + 1;
    qsort(keys, statements, sizeof *keys, by_number);
    put(&index, statements, 4);
    put(&index, 0, 4);
    for (size_t i = 0, at = 0; i < sources; at += stored(i++)) {
        put(&index, i * 1000, 8);
        put(&index, i == 1 ? 0 : at, 4);
        put(&index, strlen(paths[i]), 4);
        put(&index, i == 1 ? 4 : 0, 4);
        put(&index, name_number(i), 4);
    }
    for (size_t i = 0; i < ranges; i++) put(&index, (size == 4 ? 0 : base) + i * 16, size);
    for (size_t i = 0; i < ranges; i++) {
        put(&index, i % 3 == 2 ? UINT32_MAX : i % sources, 4);
        put(&index, i % 3 == 2 ? 0 : i + 1, 4);
        put(&index, i % 3 == 2 ? 0 : i % 7 + (i % 2 == 0 ? UINT32_C(1) << 31 : 0) + (i % 5 == 0 ? UINT32_C(1) << 30 : 0), 4);
    }
    for (size_t i = 0; i < statements; i++) {
        size_t range = (uint32_t)keys[i] - 1; /* its line is one more */
        put(&index, range % sources, 4);
        put(&index, range + 1, 4);
        put(&index, (size == 4 ? 0 : base) + range * 16, size);
    }
    free(keys);
    for (size_t i = 0; i < sources; i++) put_text(&index, paths[i], stored(i));
    put_text(&index, "build", 5);
    return index;
}

/* Whether a place is what was put into such an index. */
static bool is_right(bytes index, size_t ranges, size_t sources, const gimli_line_place *place) {
    uint64_t i = (place->address - base) / 16;
    if (place->address >= base && i >= ranges) i = ranges - 1;
    if (place->address < base || i % 3 == 2) {
        gimli_line_place none = {.address = place->address};
        return memcmp(place, &none, sizeof none) == 0;
    }
    const char *path = gimli_line_place_path(index.at, place), *wanted = paths[i % sources];
    bool path_is = *wanted == 0 ? path == NULL && place->no_path == GIMLI_LINE_NO_PATH_STRING_CUT
                                : place->no_path == 0 && place->path_size == strlen(wanted) && strcmp(path, wanted) == 0;
    return path_is && place->known && place->line == i + 1 && place->column == i % 7 && place->unit == i % sources * 1000 &&
           place->is_stmt == (i % 2 == 0) && place->prologue_end == (i % 5 == 0) && place->first == base + i * 16 &&
           place->end == (i + 1 < ranges ? base + i * 16 + 16 : 0);
}

static uint64_t next(uint64_t *seed) {
    *seed = *seed * UINT64_C(6364136223846793005) + UINT64_C(1442695040888963407);
    return *seed >> 20;
}

/* ---- questions: no memory may be asked for meanwhile */

/* The lines of the small index, by each room: lines 1 and 7 of /source/0.c have statements, and line 4 has none. */
static void ask_lines(bytes index) {
    static const struct {
        const char *path;
        uint64_t line, found, address;
    } wanted[] = {{"0.c", 0, 1, 0},    {"/source/0.c", 1, 1, 0}, {"source/x/../0.c", 2, 7, 96},
                  {"./0.c", 7, 7, 96}, {"source\\0.c", 1, 1, 0}, {"0.c", 8, 0, 0},
                  {"/0.c", 1, 0, 0},   {"1.c", 1, 0, 0},         {"c", 1, 0, 0},
                  {".c", 1, 0, 0},     {"0.c/../c.h", 1, 0, 0},  {"00.c", 1, 0, 0},
                  {"0.cc", 1, 0, 0},   {"../0.c", 1, 0, 0},      {"", 1, 0, 0},
                  {".", 1, 0, 0}};
    for (size_t i = 0; i < sizeof wanted / sizeof wanted[0]; i++)
        for (size_t room = 0; room < 3; room++) {
            uint64_t line = 77, addresses[2] = {77, 77};
            size_t count = 77;
            uint32_t status = gimli_line_index_addresses_of(index.at, index.length, wanted[i].path, strlen(wanted[i].path), wanted[i].line,
                                                            &line, addresses, room, &count);
            bool has = wanted[i].found != 0, fits = has && room != 0;
            is(status == (fits  ? GIMLI_LINE_OK
                          : has ? GIMLI_LINE_NO_ROOM
                                : GIMLI_LINE_NO_CODE),
               "the status of gimli_line_index_addresses_of");
            is(line == (fits ? wanted[i].found : 77) && count == (has ? 1 : 77), "the line of gimli_line_index_addresses_of");
            is(addresses[0] == (fits ? base + wanted[i].address : 77) && addresses[1] == 77, "the addresses of a line");
        }
}

/* All ranges of such an index, one after the other. */
static void list_ranges(bytes index, size_t ranges, size_t sources) {
    gimli_line_place place = {.line = 77};
    is(gimli_line_index_range(index.at, index.length, ranges, &place) == GIMLI_LINE_NO_ROW && place.line == 77, "a range past the last");
    is(gimli_line_index_range(index.at, index.length, SIZE_MAX, &place) == GIMLI_LINE_NO_ROW, "a range of the greatest number");
    for (size_t i = 0; i < ranges; i++) {
        gimli_line_place gap = {.address = base + i * 16, .first = base + i * 16, .end = i + 1 < ranges ? base + i * 16 + 16 : 0};
        is(gimli_line_index_range(index.at, index.length, i, &place) == GIMLI_LINE_OK, "a range");
        is(i % 3 == 2 ? memcmp(&place, &gap, sizeof gap) == 0 : place.address == gap.address && is_right(index, ranges, sources, &place),
           "what holds in a range");
    }
}

/* ---- threads, and a handler that asks whatever it interrupts */

static bytes shared;
static atomic_ulong asked, handled;
static atomic_bool wrong;

/* Asks for addresses at random, one by one and at once. */
static void ask_some(uint64_t *seed) {
    gimli_line_place places[BATCH], place = {.address = 0};
    memset(places, 0, sizeof places);
    for (size_t i = 0; i < BATCH; i++) places[i].address = base - 64 + next(seed) % (RANGES * 16 + 128);
    sig_atomic_t before = asking;
    asking = 1;
    bool all_right = gimli_line_index_find_all(shared.at, shared.length, places, BATCH) == GIMLI_LINE_OK;
    for (size_t i = 0; i < BATCH; i++) {
        all_right = all_right && is_right(shared, RANGES, SOURCES, &places[i]);
        uint32_t status = gimli_line_index_find(shared.at, shared.length, places[i].address, &place);
        all_right = all_right && (status == GIMLI_LINE_OK ? memcmp(&place, &places[i], sizeof place) == 0
                                                          : status == GIMLI_LINE_NO_ROW && !places[i].known);
    }
    asking = before;
    if (!all_right) atomic_store(&wrong, true);
    atomic_fetch_add(&asked, BATCH);
}

static void *thread(void *number) {
    for (int i = 0; i < 2000; i++) ask_some(number);
    return NULL;
}

static void at_tick(int signal) {
    static _Thread_local uint64_t seed = 7;
    (void)signal;
    ask_some(&seed);
    atomic_fetch_add(&handled, 1);
}

/* The program allocates all the time while they ask. */
static void ask_at_once(void) {
    pthread_t threads[THREADS];
    uint64_t seeds[THREADS], seed = 3;
    struct sigaction action = {.sa_handler = at_tick};
    struct itimerval often = {{0, 1000}, {0, 1000}}, never = {{0, 0}, {0, 0}};
    for (uint64_t i = 0; i < THREADS; i++) is(pthread_create(&threads[i], NULL, thread, memcpy(&seeds[i], &i, sizeof i)) == 0, "a thread");
    is(sigaction(SIGPROF, &action, NULL) == 0 && setitimer(ITIMER_PROF, &often, NULL) == 0, "a handler and a timer");
    void *blocks[64] = {NULL};
    while (atomic_load(&handled) < 200) {
        size_t slot = next(&seed) % 64;
        free(blocks[slot]);
        blocks[slot] = malloc(1 + next(&seed) % 5000);
    }
    is(setitimer(ITIMER_PROF, &never, NULL) == 0, "no timer");
    for (size_t i = 0; i < 64; i++) free(blocks[i]);
    for (int i = 0; i < THREADS; i++) pthread_join(threads[i], NULL);
    is(!atomic_load(&wrong), "a thread and the handler are told what the index says");
}

/* ---- damaged indexes */

static unsigned long damaged;

static void ask_damaged(bytes index) {
    asking = 1;
    ask_index(index.at, index.length, base, 17);
    asking = 0;
    damaged++;
}

/* Each byte changed to each value, and each length cut, in memory of just that size: a sanitiser sees a byte too many. */
static void ask_all_damaged(bytes index) {
    for (size_t length = 0; length <= index.length; length++) {
        bytes cut = {malloc(length + (length == 0)), length};
        memcpy(cut.at, index.at, length);
        ask_damaged(cut);
        gimli_line_index found;
        is(length == index.length || gimli_line_index_open(cut.at, length, &found) != GIMLI_LINE_OK, "an index that is cut");
        free(cut.at);
    }
    bytes other = {malloc(index.length), index.length};
    uint64_t seed = 5;
    for (size_t round = 0; round < index.length * 256 + 1000000; round++) {
        memcpy(other.at, index.at, index.length);
        if (round < index.length * 256) other.at[round / 256] = (uint8_t)round;
        else
            for (uint64_t i = next(&seed) % 8 + 1; i != 0; i--) other.at[next(&seed) % index.length] = (uint8_t)next(&seed);
        ask_damaged(other);
    }
    free(other.at);
}

int main(int argc, char **argv) {
    for (size_t size = 4; size <= 8; size += 4) {
        bytes small = made(8, 3, size);
        if (argc > 1) {
            FILE *file = fopen(argv[1], "wb");
            is(file != NULL && fwrite(small.at, 1, small.length, file) == small.length && fclose(file) == 0, "the file is written");
            free(small.at);
            return 0;
        }
        gimli_line_index found;
        is(gimli_line_index_open(small.at, small.length, &found) == GIMLI_LINE_OK && found.ranges == 8 && found.address_size == 8 &&
               found.identity_size == 5 && memcmp(small.at + found.identity, "build", 5) == 0,
           "what an index says of itself");
        is(gimli_line_index_check(small.at, small.length) == GIMLI_LINE_OK, "an index is sound");
        asking = 1;
        for (uint64_t address = base - 20; address < base + 160; address++) {
            gimli_line_place place = {.address = address};
            is(gimli_line_index_find_all(small.at, small.length, &place, 1) == GIMLI_LINE_OK && is_right(small, 8, 3, &place), "a place");
        }
        ask_lines(small);
        list_ranges(small, 8, 3);
        asking = 0;
        ask_all_damaged(small);
        free(small.at);
    }
    shared = made(RANGES, SOURCES, 4);
    is(gimli_line_index_check(shared.at, shared.length) == GIMLI_LINE_OK, "a large index is sound");
    ask_at_once();
    free(shared.at);
    printf("%lu places by %d threads and a handler, %lu damaged indexes\n", atomic_load(&asked), (int)THREADS, damaged);
    return 0;
}
