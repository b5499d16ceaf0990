/* What the tests ask of any bytes, as sections, as an index and as an ELF file: two calls say the same of one thing, each number is one of
 * the header, and nothing is written but what is answered. What a call writes to ends where a page begins that can't be read or written: a
 * byte too much ends the program by a signal. A program that includes this defines _GNU_SOURCE before. */
#ifndef ASK_H
#define ASK_H

#include <stdatomic.h>
#include <stddef.h>
#include <string.h>
#include <sys/mman.h>

#include "file.h"
#include "gimli_line.h"

enum { AREA = 1 << 20, LARGEST = 1 << 18 };
enum { ARRAY, BESIDE, ANOTHER, INPUT, LISTED, OWN, AREAS = OWN + 8 }; /* those from OWN on are for each program */

static atomic_ulong answers; /* how many were as they have to be */

/* Ends the program by a signal where something isn't as it has to be. */
static inline void is(bool holds, const char *what) {
    atomic_fetch_add(&answers, 1);
    if (holds) return;
    fprintf(stderr, "not so: %s\n", what);
    abort();
}

/* A fuzzer counts which values there were. */
#ifndef SEEN
#define SEEN(kind, value)
#endif

/* What is asked. */
static _Thread_local gimli_line_sections in;

/* The last bytes of an area: so many, which all have the same value. */
static inline void *room_in(int area, size_t size) {
    static _Thread_local uint8_t *ends[AREAS];
    if (ends[area] == NULL) {
        uint8_t *all = (uint8_t *)mmap(NULL, 2 * AREA, PROT_READ | PROT_WRITE, MAP_PRIVATE | MAP_ANONYMOUS, -1, 0);
        is(all != MAP_FAILED && mprotect(all + AREA, AREA, PROT_NONE) == 0, "memory that is guarded");
        ends[area] = all + AREA;
    }
    is(size <= AREA, "what is tested isn't too large");
    return memset(ends[area] - size, 0xaa, size);
}

static inline bool is_untouched(const void *room, size_t size) {
    for (size_t i = 0; i < size; i++)
        if (((const uint8_t *)room)[i] != 0xaa) return false;
    return true;
}

/* A call that puts elements into an array, and says beside it how many there are. */
typedef uint32_t call(size_t offset, uint64_t number, void *array, size_t room, void *beside);

/* What such a call answers. */
typedef struct told {
    uint32_t status;
    size_t count; /* of the elements */
    uint8_t array[LARGEST];
    uint8_t beside[256];
} told;

static inline uint32_t rows_in(size_t offset, uint64_t skip, void *rows, size_t room, void *count) {
    return gimli_line_read_rows(&in, offset, skip, (gimli_line_row *)rows, room, (uint64_t *)count);
}

static _Thread_local char other[LARGEST]; /* the text of a file that isn't looked at */

static inline uint32_t file_path_in(size_t offset, uint64_t number, void *path, size_t room, void *file) {
    return gimli_line_read_file(&in, offset, number, (gimli_line_file *)file, (char *)path, room, other, sizeof other);
}

static inline uint32_t file_directory_in(size_t offset, uint64_t number, void *directory, size_t room, void *file) {
    return gimli_line_read_file(&in, offset, number, (gimli_line_file *)file, other, sizeof other, (char *)directory, room);
}

static inline uint32_t directory_in(size_t offset, uint64_t number, void *directory, size_t room, void *text) {
    return gimli_line_read_directory(&in, offset, number, (gimli_line_text *)text, (char *)directory, room);
}

static inline uint32_t comp_dir_in(size_t offset, uint64_t number, void *directory, size_t room, void *size) {
    (void)number;
    return gimli_line_comp_dir(&in, offset, (char *)directory, room, (size_t *)size);
}

static _Thread_local const char *comp_dir; /* from which a path goes on */
static _Thread_local size_t comp_dir_size;

static inline uint32_t path_in(size_t offset, uint64_t number, void *path, size_t room, void *size) {
    const char *from = (const char *)memcpy(room_in(INPUT, comp_dir_size), comp_dir, comp_dir_size);
    return gimli_line_read_path(&in, offset, number, from, comp_dir_size, (char *)path, room, (size_t *)size);
}

/* One of those that are listed at once, and how many bytes the texts take. */
typedef struct listed_file {
    gimli_line_listed_file file;
    size_t size;
} listed_file;
typedef struct listed_comp_dir {
    gimli_line_listed_comp_dir directory;
    size_t size;
} listed_comp_dir;

static inline uint32_t listed_file_in(size_t offset, uint64_t number, void *texts, size_t room, void *beside) {
    const char *from = (const char *)memcpy(room_in(INPUT, comp_dir_size), comp_dir, comp_dir_size);
    listed_file *listed = (listed_file *)beside;
    gimli_line_listed_file *file = (gimli_line_listed_file *)room_in(LISTED, sizeof *file), asked;
    file->number = number;
    memcpy(&asked, file, sizeof asked);
    uint32_t status = gimli_line_read_files(&in, offset, from, comp_dir_size, file, 1, (char *)texts, room, &listed->size);
    if (status == GIMLI_LINE_OK || status == GIMLI_LINE_NO_ROOM) memcpy(&listed->file, file, sizeof *file);
    else is(memcmp(&asked, file, sizeof asked) == 0, "a file that isn't listed");
    return status;
}

static inline uint32_t listed_comp_dir_in(size_t offset, uint64_t number, void *texts, size_t room, void *beside) {
    (void)number;
    listed_comp_dir *listed = (listed_comp_dir *)beside;
    gimli_line_listed_comp_dir *directory = (gimli_line_listed_comp_dir *)room_in(LISTED, sizeof *directory);
    directory->offset = offset;
    uint32_t status = gimli_line_comp_dirs(&in, directory, 1, (char *)texts, room, &listed->size);
    if (status == GIMLI_LINE_OK || status == GIMLI_LINE_NO_ROOM) memcpy(&listed->directory, directory, sizeof *directory);
    return status;
}

/* Makes a call with each room, from none to more than enough, or with two alone where that takes too long. It always says the same beside
 * it, and writes nothing else: nothing to the array where there is too little room, and nothing at all where it refuses. But rows are a
 * window, as far as there is room, and come before a fault. */
static bool is_quick;

static inline uint32_t try_rooms(call *made, size_t offset, uint64_t number, size_t element, size_t beside_size, size_t count_at,
                                 told *told) {
    uint8_t *beside = (uint8_t *)room_in(BESIDE, beside_size);
    told->status = made(offset, number, room_in(ARRAY, 0), 0, beside);
    bool is_window = made == rows_in, is_told = told->status == GIMLI_LINE_OK || told->status == GIMLI_LINE_NO_ROOM;
    told->count = 0;
    if (is_told || is_window) memcpy(&told->count, beside + count_at, sizeof told->count);
    is(is_told || is_window || is_untouched(beside, beside_size), "nothing is written at a refusal");
    is((told->status == GIMLI_LINE_NO_ROOM) == (!is_window && told->count != 0), "no room");
    if (told->status == GIMLI_LINE_NO_ROOM) told->status = GIMLI_LINE_OK;
    memcpy(told->beside, beside, beside_size);
    is(told->count * element <= LARGEST, "an array isn't too large");
    size_t most = told->count + 3;
    for (size_t step = 0; step <= most; step += is_quick ? most / 2 + 1 : 1) {
        size_t room = most - step, part = is_window ? room : 0, written = (room < told->count ? part : told->count) * element;
        uint32_t wanted = !is_window && room < told->count ? (uint32_t)GIMLI_LINE_NO_ROOM : told->status;
        uint8_t *array = (uint8_t *)room_in(ARRAY, room * element);
        beside = (uint8_t *)room_in(BESIDE, beside_size);
        is(made(offset, number, array, room, beside) == wanted && memcmp(beside, told->beside, beside_size) == 0,
           "an answer by another room");
        if (step == 0) memcpy(told->array, array, written);
        is(memcmp(array, told->array, written) == 0 && is_untouched(array + written, room * element - written), "an array by another room");
    }
    return told->status;
}

/* The rows of a unit at once and from each row on, and the pairs of rows of their addresses. */
static inline void ask_rows(size_t offset, const gimli_line_unit *unit) {
    static _Thread_local told rows;
    is(try_rooms(rows_in, offset, 0, sizeof(gimli_line_row), 8, 0, &rows) == unit->fault, "the fault of a unit");
    is(rows.count == unit->rows && rows.count <= unit->length, "how many rows a unit has");
    for (uint64_t i = 0; i < rows.count && (i < 64 || !is_quick); i++) {
        gimli_line_row row, *some = (gimli_line_row *)room_in(ARRAY, 2 * sizeof row), first, second;
        size_t left = rows.count - i < 2 ? 1 : 2;
        memcpy(&row, rows.array + i * sizeof row, sizeof row);
        is(rows_in(offset, i, some, 2, room_in(BESIDE, 8)) == unit->fault &&
               memcmp(some, rows.array + i * sizeof row, left * sizeof row) == 0 && is_untouched(some + left, (2 - left) * sizeof row),
           "rows from one on");
        uint64_t address = row.address + i % 3;
        uint32_t found = gimli_line_find_row(&in, offset, address, &first, &second);
        is(unit->fault != GIMLI_LINE_OK ? found == unit->fault : found == GIMLI_LINE_OK || found == GIMLI_LINE_NO_ROW,
           "the status of a lookup");
        is(found != GIMLI_LINE_OK || (first.address <= address && address < second.address), "the rows of an address");
        SEEN(1, row.flags);
        SEEN(2, row.line);
        SEEN(3, row.op_index);
    }
}

/* What is listed of a file is what is said of it alone, and a zero byte follows its path; likewise of a directory. */
static inline void ask_listed(size_t offset, uint64_t number, uint32_t status, const told *whole, const told *home) {
    static _Thread_local told texts;
    listed_file file;
    listed_comp_dir directory;
    size_t size = status == GIMLI_LINE_OK ? whole->count + 1 : 0;
    is(try_rooms(listed_file_in, offset, number, 1, sizeof file, offsetof(listed_file, size), &texts) == GIMLI_LINE_OK && texts.count == size,
       "a file that is listed");
    memcpy(&file, texts.beside, sizeof file);
    is(file.file.number == number && file.file.status == status, "the status of a file that is listed");
    is(size == 0 || (file.file.path == 0 && file.file.path_size == whole->count && memcmp(texts.array, whole->array, whole->count) == 0 &&
                     texts.array[whole->count] == 0),
       "the path of a file that is listed");
    is(status != GIMLI_LINE_UNKNOWN_PATH || (file.file.path == 0 && file.file.path_size == 0), "no path");
    size = home->status == GIMLI_LINE_OK ? home->count + 1 : 0;
    is(try_rooms(listed_comp_dir_in, offset, 0, 1, sizeof directory, offsetof(listed_comp_dir, size), &texts) == GIMLI_LINE_OK &&
           texts.count == size,
       "a directory that is listed");
    memcpy(&directory, texts.beside, sizeof directory);
    is(directory.directory.offset == offset && directory.directory.status == home->status && directory.directory.directory == 0 &&
           directory.directory.size == home->count,
       "the status of a directory that is listed");
    is(size == 0 || (memcmp(texts.array, home->array, home->count) == 0 && texts.array[home->count] == 0), "its bytes");
}

/* A file of a unit: its texts, and its whole path. */
static inline void ask_file(size_t offset, uint64_t number) {
    static _Thread_local told path, directory, text, whole, home;
    gimli_line_file file;
    uint32_t status = try_rooms(file_path_in, offset, number, 1, sizeof file, offsetof(gimli_line_file, path.size), &path);
    is(try_rooms(file_directory_in, offset, number, 1, sizeof file, offsetof(gimli_line_file, directory.size), &directory) == status &&
           memcmp(path.beside, directory.beside, sizeof file) == 0,
       "a file");
    is(try_rooms(comp_dir_in, offset, 0, 1, sizeof(size_t), 0, &home) == GIMLI_LINE_OK || home.status == GIMLI_LINE_NO_COMP_DIR,
       "a directory of a compilation");
    comp_dir = (const char *)home.array;
    comp_dir_size = home.count;
    uint32_t whole_status = try_rooms(path_in, offset, number, 1, sizeof(size_t), 0, &whole);
    is(whole_status == status || (status == GIMLI_LINE_OK && whole_status == GIMLI_LINE_UNKNOWN_PATH), "the status of a whole path");
    ask_listed(offset, number, whole_status, &whole, &home);
    SEEN(4, status);
    SEEN(5, whole_status);
    SEEN(6, home.status);
    if (status != GIMLI_LINE_OK) return;
    memcpy(&file, path.beside, sizeof file);
    SEEN(7, file.path.kind);
    SEEN(8, file.details);
    if (whole_status == GIMLI_LINE_OK)
        is(whole.count >= path.count && memcmp(whole.array + whole.count - path.count, path.array, path.count) == 0, "the end of a path");
    if (try_rooms(directory_in, offset, file.directory_number, 1, sizeof file.directory, offsetof(gimli_line_text, size), &text) ==
        GIMLI_LINE_OK)
        is(memcmp(text.beside, &file.directory, sizeof file.directory) == 0 && memcmp(text.array, directory.array, text.count) == 0,
           "a directory");
    else is(text.status == GIMLI_LINE_NO_SUCH_DIRECTORY && file.directory.kind == GIMLI_LINE_TEXT_NONE, "no directory");
}

/* All units, whatever they are. */
static inline void ask_units(void) {
    gimli_line_unit unit;
    for (size_t offset = 0; offset < in.line_size; offset = unit.next) {
        gimli_line_unit *told = (gimli_line_unit *)room_in(ANOTHER, sizeof *told);
        uint32_t status = gimli_line_read_unit(&in, offset, told);
        unit = *told;
        told->next = UINT64_C(0xaaaaaaaaaaaaaaaa);
        is(unit.next > offset && unit.next <= in.line_size, "the next unit");
        is(status == GIMLI_LINE_OK || is_untouched(told, sizeof *told), "a unit that is refused");
        SEEN(9, status);
        if (status != GIMLI_LINE_OK) continue;
        SEEN(10, unit.fault);
        SEEN(11, unit.version);
        SEEN(12, unit.files);
        ask_rows(offset, &unit);
        for (uint64_t number = 0; number <= unit.files + 1 && (number < 6 || !is_quick); number++) ask_file(offset, number);
    }
}

/* Bytes as an index, which may be none: whether it is sound. */
static inline uint32_t ask_index(const uint8_t *index, size_t length, uint64_t address, uint64_t step) {
    gimli_line_index about;
    gimli_line_place place, places[4];
    uint64_t line, addresses[4];
    size_t count = 0;
    uint32_t opened = gimli_line_index_open(index, length, &about), checked = gimli_line_index_check(index, length);
    is(opened == GIMLI_LINE_OK ? about.identity + about.identity_size <= length : checked == opened, "an index that is opened");
    is(checked == GIMLI_LINE_OK || (checked >= GIMLI_LINE_NO_INDEX && checked <= GIMLI_LINE_INDEX_PATH_OUTSIDE),
       "an index that is checked");
    for (uint64_t i = 0; i < 4; i++) places[i].address = address + i * step;
    is(gimli_line_index_find_all(index, length, places, 4) == opened, "places");
    for (uint64_t i = 0; i < 4; i++) {
        uint32_t status = gimli_line_index_find(index, length, address + i * step, &place);
        is(opened == GIMLI_LINE_OK ? status == (places[i].known ? GIMLI_LINE_OK : GIMLI_LINE_NO_ROW) : status == opened,
           "the status of a place");
        if (status != GIMLI_LINE_OK) continue;
        is(memcmp(&place, &places[i], sizeof place) == 0, "a place");
        is(checked != GIMLI_LINE_OK || (place.first <= place.address && (place.end == 0 || place.address < place.end)),
           "the addresses around it");
        is(place.path == 0 || (place.path < length && place.path_size < length - place.path && index[place.path + place.path_size] == 0 &&
                               place.no_path == 0),
           "a path, and a zero byte");
        is(checked != GIMLI_LINE_OK || place.no_path != GIMLI_LINE_NO_PATH_OUTSIDE, "a path of an index that was checked");
    }
    for (uint64_t i = 0; i < 4; i++) {
        uint32_t wanted = opened == GIMLI_LINE_OK && i >= about.ranges ? (uint32_t)GIMLI_LINE_NO_ROW : opened;
        is(gimli_line_index_range(index, length, i, &place) == wanted, "the status of a range");
    }
    uint32_t told = gimli_line_index_addresses_of(index, length, "0.c", 3, 1, &line, addresses, 4, &count);
    is(opened != GIMLI_LINE_OK ? told == opened
       : count == 0            ? told == GIMLI_LINE_NO_CODE
                               : told == (count <= 4 ? GIMLI_LINE_OK : GIMLI_LINE_NO_ROOM) && count <= about.ranges,
       "a line");
    SEEN(13, checked);
    SEEN(14, told);
    return checked;
}

#endif
