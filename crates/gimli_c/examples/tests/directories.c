/* Asks for directories of compilations, for whole paths, for units, and for the addresses of lines, over sections that are made by hand,
 * whole and cut: once, and then in many threads at once, which share the sections alone. Prints how many answers were as the standard has
 * them (DWARF 4 and 5, sections 3.1.1, 6.2.2, 6.2.4 and 6.2.5.3); the first other one ends it. See run.sh and memory.sh. */
#define _GNU_SOURCE
#include <pthread.h>

#include "ask.h"
#include "../../make/proved.h"

enum { THREADS = 8 };

/* One declaration, by the code 1: a compile unit without children, with DW_AT_stmt_list as DW_FORM_sec_offset, and DW_AT_comp_dir as
 * DW_FORM_string; and the end of the table. */
static const uint8_t declaration[] = {1, 0x11, 0, 0x10, 0x17, 0x1b, 8, 0, 0, 0};

/* Version 4: the line program at 0, and the directory /w. */
static const uint8_t info_4[] = {15, 0, 0, 0, 4, 0, 0, 0, 0, 0, 8, 1, 0, 0, 0, 0, '/', 'w', 0};

/* Version 4: the directory inc, and the files a.c in no directory of the table and b.h in inc. Line 3 of a.c at 0x1000 and 0x1008, line 5
 * of b.h at 0x1004, and at 0x100c line 9 of a.c, which is no statement; the sequence ends at 0x1010. Then the program defines the file
 * d.c in inc. */
static const uint8_t lines_4[] = {
    0x5f, 0,   0,   0, 4, 0, 0x28, 0,   0,   0,   1,    1, 1, 0xfb, 14, 13, 0, 1, 1, 1, 1, 0,    0, 0, 1, 0, 0,   1,   'i', 'n', 'c', 0, 0,
    'a',  '.', 'c', 0, 0, 0, 0,    'b', '.', 'h', 0,    1, 0, 0,    0,  0,  0, 0, 9, 2, 0, 0x10, 0, 0, 0, 0, 0,   0,   3,   2,   1,   4, 2,
    2,    4,   3,   2, 1, 4, 1,    2,   4,   3,   0x7e, 1, 6, 2,    4,  3,  6, 1, 2, 4, 0, 1,    1, 0, 8, 3, 'd', '.', 'c', 0,   1,   0, 0};

/* Version 5: the line program at 0, and the directory ./w. */
static const uint8_t info_5[] = {17, 0, 0, 0, 5, 0, 1, 8, 0, 0, 0, 0, 1, 0, 0, 0, 0, '.', '/', 'w', 0};

/* Version 5: the directories ./w, ../inc and /abs, and a file of each; no rows. */
static const uint8_t lines_5[] = {0x43, 0, 0,   0,   5,   0,   8,   0,   0x3b, 0,   0,   0,   1,   1,   1,   0xfb, 14,  13,
                                  0,    1, 1,   1,   1,   0,   0,   0,   1,    0,   0,   1,   1,   1,   8,   3,    '.', '/',
                                  'w',  0, '.', '.', '/', 'i', 'n', 'c', 0,    '/', 'a', 'b', 's', 0,   2,   1,    8,   2,
                                  11,   3, 'a', '.', 'c', 0,   0,   'b', '.',  'h', 0,   1,   'c', '.', 'c', 0,    2};

/* Version 5, a directory and a file, whose names stand in .debug_str at 0 and at 8 (DW_FORM_strp). */
static const uint8_t lines_strp[] = {30, 0, 0, 0,    5, 0, 8, 0, 22, 0, 0, 0,    1, 1, 1, 0, 1,
                                     1,  1, 1, 0x0e, 1, 0, 0, 0, 0,  1, 1, 0x0e, 1, 8, 0, 0, 0};
enum { DIRECTORY_FORM = 20, FILE_FORM = 28, DW_FORM_line_strp = 0x1f };
static const uint8_t names[] = "/source\0made.c";

/* Takes these sections, copies of them just so long. */
static void take(const void *lines, size_t lines_size, const void *info, size_t info_size) {
    in = (gimli_line_sections)GIMLI_LINE_SECTIONS;
    in.line = memcpy(room_in(OWN, lines_size), lines, lines_size);
    in.line_size = lines_size;
    in.info = memcpy(room_in(OWN + 1, info_size), info, info_size);
    in.info_size = info_size;
    in.abbreviations = declaration;
    in.abbreviations_size = sizeof declaration;
}

static void take_version(int version) {
    if (version == 4) take(lines_4, sizeof lines_4, info_4, sizeof info_4);
    else take(lines_5, sizeof lines_5, info_5, sizeof info_5);
}

/* A call tells these bytes, or has this refusal. */
static void tells(call *made, uint64_t number, uint32_t status, const char *wanted) {
    static _Thread_local told told;
    is(try_rooms(made, 0, number, 1, sizeof(size_t), 0, &told) == status, wanted);
    is(status != GIMLI_LINE_OK || (told.count == strlen(wanted) && memcmp(told.array, wanted, told.count) == 0), wanted);
}

/* The whole path of a file, from a directory on. */
static void path_is(const char *from, uint64_t number, uint32_t status, const char *wanted) {
    comp_dir = from;
    comp_dir_size = strlen(from);
    tells(path_in, number, status, wanted);
}

/* Up to version 4 a path goes on from the directory of the compilation, which .debug_info has. In version 5 it goes on from directory 0,
 * whatever directory the caller has, unless directory 0 is empty. */
static void paths(void) {
    static const struct {
        int version;
        uint64_t number;
        const char *from, *path;
    } wanted[] = {{4, 1, "/w", "/w/a.c"},
                  {4, 2, "/w", "/w/inc/b.h"},
                  {4, 3, "/w", "/w/inc/d.c"},
                  {4, 1, "", "a.c"},
                  {4, 2, "", "inc/b.h"},
                  {4, 2, "/other", "/other/inc/b.h"},
                  {5, 0, "./w", "./w/a.c"},
                  {5, 1, "./w", "./w/../inc/b.h"},
                  {5, 2, "./w", "/abs/c.c"},
                  {5, 0, "/src", "./w/a.c"},
                  {5, 1, "/src", "./w/../inc/b.h"},
                  {5, 0, "", "./w/a.c"},
                  {5, 1, "", "./w/../inc/b.h"},
                  {4, 0, "/w", NULL},
                  {4, 4, "/w", NULL},
                  {4, UINT64_MAX, "/w", NULL},
                  {5, 3, "/w", NULL},
                  {5, UINT64_MAX, "/w", NULL}};
    for (size_t i = 0; i < sizeof wanted / sizeof wanted[0]; i++) {
        take_version(wanted[i].version);
        path_is(wanted[i].from, wanted[i].number, wanted[i].path != NULL ? GIMLI_LINE_OK : GIMLI_LINE_NO_SUCH_FILE, wanted[i].path);
    }
}

/* Many files of a unit at once: those that the program defines too, and numbers of none, of which only the status is written. */
static void files_at_once(int version, const char *from, const char *wanted, size_t wanted_size) {
    static const uint64_t asked[][5] = {{3, 1, 0, 2, UINT64_MAX}, {2, 0, 3, 1, UINT64_MAX}};
    const uint64_t *numbers = asked[version == 5];
    take_version(version);
    for (size_t room = 0; room <= wanted_size + 1; room++) {
        gimli_line_listed_file *files = room_in(ARRAY, 5 * sizeof *files);
        char *texts = room_in(ANOTHER, room);
        size_t *size = room_in(BESIDE, sizeof *size), next = 0;
        uint32_t status = room < wanted_size ? GIMLI_LINE_NO_ROOM : GIMLI_LINE_OK;
        for (int i = 0; i < 5; i++) files[i].number = numbers[i];
        is(gimli_line_read_files(&in, 0, from, strlen(from), files, 5, texts, room, size) == status && *size == wanted_size,
           "files at once");
        for (int i = 2; i < 5; i += 2)
            is(files[i].number == numbers[i] && files[i].status == GIMLI_LINE_NO_SUCH_FILE &&
                   is_untouched(&files[i].file, offsetof(gimli_line_listed_file, status) - offsetof(gimli_line_listed_file, file)),
               "numbers of no file");
        for (int i = 0; i < 4; i++) {
            gimli_line_file file;
            char path[8], directory[8];
            if (i == 2) continue;
            is(files[i].status == GIMLI_LINE_OK && files[i].number == numbers[i] && files[i].path == next &&
                   files[i].path_size == strlen(wanted + next),
               "where a path is");
            next += files[i].path_size + 1;
            is(gimli_line_read_file(&in, 0, numbers[i], &file, path, 8, directory, 8) == GIMLI_LINE_OK &&
                   memcmp(&file, &files[i].file, sizeof file) == 0,
               "a file of many");
        }
        size_t written = status == GIMLI_LINE_OK ? wanted_size : 0;
        is(memcmp(texts, wanted, written) == 0 && is_untouched(texts + written, room - written), "the paths of files at once");
    }
    size_t size = 77;
    is(gimli_line_read_files(&in, 0, from, strlen(from), NULL, 0, NULL, 0, &size) == GIMLI_LINE_OK && size == 0, "no files");
    gimli_line_listed_file file = {.number = 1, .status = 77};
    size = 77;
    is(gimli_line_read_files(&in, in.line_size, from, strlen(from), &file, 1, NULL, 0, &size) == GIMLI_LINE_UNEXPECTED_EOF && size == 77 &&
           file.number == 1 && file.status == 77,
       "files of no unit");
}

/* The directories of several line programs at once: those of 0 and 7 in two units, of which the first says which counts for 0. */
static void comp_dirs_at_once(void) {
    static const uint8_t info[] = {15, 0, 0, 0, 4, 0, 0, 0, 0, 0, 8, 1, 0, 0, 0, 0, '/', 'w', 0, 15, 0, 0, 0, 4, 0, 0, 0, 0, 0, 8, 1, 7, 0, 0,
                                   0, 'x', 'y', 0, 15, 0, 0, 0, 4, 0, 0, 0, 0, 0, 8, 1, 0, 0, 0, 0, '/', 'z', 0};
    static const char wanted[] = "xy\0/w\0xy";
    take(lines_4, sizeof lines_4, info, sizeof info);
    for (size_t room = 0; room <= sizeof wanted + 1; room++) {
        gimli_line_listed_comp_dir *all = room_in(ARRAY, 4 * sizeof *all);
        char *texts = room_in(ANOTHER, room);
        size_t *size = room_in(BESIDE, sizeof *size), written = room < sizeof wanted ? 0 : sizeof wanted;
        const gimli_line_listed_comp_dir answers[] = {
            {7, 0, 2, GIMLI_LINE_OK}, {0, 3, 2, GIMLI_LINE_OK}, {3, 0, 0, GIMLI_LINE_NO_COMP_DIR}, {7, 6, 2, GIMLI_LINE_OK}};
        for (int i = 0; i < 4; i++) all[i].offset = answers[i].offset;
        is(gimli_line_comp_dirs(&in, all, 4, texts, room, size) == (written == 0 ? GIMLI_LINE_NO_ROOM : GIMLI_LINE_OK) &&
               *size == sizeof wanted,
           "directories at once");
        for (int i = 0; i < 4; i++)
            is(all[i].offset == answers[i].offset && all[i].directory == answers[i].directory && all[i].size == answers[i].size &&
                   all[i].status == answers[i].status,
               "a directory of many");
        is(memcmp(texts, wanted, written) == 0 && is_untouched(texts + written, room - written), "the bytes of directories at once");
    }
}

/* A path whose strings stand in other sections: in .debug_str and, by the other form, in .debug_line_str. It isn't told where one of them
 * is outside, or has no end. */
static void strings_of_paths(void) {
    uint8_t lines[sizeof lines_strp];
    memcpy(lines, lines_strp, sizeof lines);
    for (int form = 0; form < 2; form++) {
        for (size_t length = 0; length <= sizeof names; length++) {
            const void *cut = memcpy(room_in(OWN + 2, length), names, length);
            uint32_t status = length < sizeof names ? GIMLI_LINE_UNKNOWN_PATH : GIMLI_LINE_OK;
            take(lines, sizeof lines, info_5, sizeof info_5);
            *(form == 0 ? &in.strings : &in.line_strings) = cut;
            *(form == 0 ? &in.strings_size : &in.line_strings_size) = length;
            path_is("", 0, status, "/source/made.c");
            path_is("/other", 0, status, "/source/made.c");
            *(form != 0 ? &in.strings : &in.line_strings) = cut;
            *(form != 0 ? &in.strings_size : &in.line_strings_size) = length;
            *(form == 0 ? &in.strings_size : &in.line_strings_size) = 0;
            path_is("", 0, GIMLI_LINE_UNKNOWN_PATH, "a string of another section");
        }
        lines[DIRECTORY_FORM] = lines[FILE_FORM] = DW_FORM_line_strp;
    }
}

/* Reads a unit that is refused: but for where the next one begins, what was there stays. */
static void refused(size_t next, uint32_t status, const char *what) {
    gimli_line_unit *unit = room_in(ANOTHER, sizeof *unit);
    is(gimli_line_read_unit(&in, 0, unit) == status && unit->next == next, what);
    memset(&unit->next, 0xaa, sizeof unit->next);
    is(is_untouched(unit, sizeof *unit), what);
    path_is("", 1, status, what);
}

/* A unit that is cut anywhere, and one of an unknown version, after which the next one can be read. */
static void units(const uint8_t *lines, size_t size, gimli_line_unit wanted) {
    for (size_t length = 0; length < size; length++) {
        take(lines, length, info_4, sizeof info_4);
        refused(length, GIMLI_LINE_UNEXPECTED_EOF, "a cut unit");
    }
    uint8_t two[2 * sizeof lines_4];
    gimli_line_unit unit;
    memcpy(two, lines, size);
    memcpy(two + size, lines, size);
    two[4] = 6;
    take(two, 2 * size, info_4, sizeof info_4);
    refused(size, GIMLI_LINE_UNKNOWN_VERSION, "version 6");
    in.address_size = 3;
    is(gimli_line_read_unit(&in, size, &unit) == GIMLI_LINE_UNSUPPORTED_ADDRESS_SIZE, "addresses of 3 bytes");
    in.address_size = 8;
    is(gimli_line_read_unit(&in, size, &unit) == GIMLI_LINE_OK && unit.next == 2 * size, "the unit after it");
    wanted.next = unit.next;
    is(memcmp(&unit, &wanted, sizeof unit) == 0 && gimli_line_first_number(&unit) == (unit.version < 5), "what a unit says of itself");
    ask_units();
}

/* An index of sections has the whole paths where .debug_info is there. It tells the addresses of a line of a path, or of the next line that
 * has any: none of a file that no row has, nor of one without statements from the line on, nor by a path without a component. indexes.c has
 * more paths. */
static void lines_of_paths(void) {
    static const struct {
        int has_info;
        const char *path;
        uint64_t line, found, addresses[2];
    } wanted[] = {{1, "a.c", 3, 3, {0x1000, 0x1008}},
                  {1, "/w/a.c", 1, 3, {0x1000, 0x1008}},
                  {1, "x/../b.h", 4, 5, {0x1004, 0}},
                  {1, "/w/./inc//b.h/", 5, 5, {0x1004, 0}},
                  {1, "", 4, 0, {0, 0}},
                  {1, "a.c", 4, 0, {0, 0}},
                  {1, "b.h", 6, 0, {0, 0}},
                  {1, "d.c", 1, 0, {0, 0}},
                  {1, "/inc/b.h", 1, 0, {0, 0}},
                  {1, "v/a.c", 1, 0, {0, 0}},
                  {1, "x/w/a.c", 1, 0, {0, 0}},
                  {0, "a.c", 3, 3, {0x1000, 0x1008}},
                  {0, "inc/b.h", 3, 5, {0x1004, 0}},
                  {0, "/w/a.c", 1, 0, {0, 0}},
                  {1, "./", 3, 0, {0, 0}},
                  {1, "a.c", 3, 3, {0x1000, 0x1008}}};
    for (size_t i = 0; i < sizeof wanted / sizeof wanted[0]; i++) {
        uint64_t found = 77, addresses[3] = {77, 77, 77}, room = i % 4;
        size_t size, count = 77, all = (wanted[i].addresses[0] != 0) + (wanted[i].addresses[1] != 0);
        uint8_t *index;
        take(lines_4, sizeof lines_4, info_4, wanted[i].has_info ? sizeof info_4 : 0);
        is(gimli_line_index_of_sections(&in, NULL, 0, &index, &size) == GIMLI_LINE_OK, "an index of sections");
        uint32_t status = gimli_line_index_addresses_of(index, size, wanted[i].path, strlen(wanted[i].path), wanted[i].line, &found,
                                                        addresses, room, &count);
        bool fits = all != 0 && all <= room;
        is(status == (fits ? GIMLI_LINE_OK : all == 0 ? GIMLI_LINE_NO_CODE : GIMLI_LINE_NO_ROOM), wanted[i].path);
        is(found == (fits ? wanted[i].found : 77) && count == (all == 0 ? 77 : all), wanted[i].path);
        for (size_t k = 0; k < 3; k++) is(addresses[k] == (fits && k < all ? wanted[i].addresses[k] : 77), wanted[i].path);
        gimli_line_place place;
        is(gimli_line_index_find(index, size, 0x100c, &place) == GIMLI_LINE_OK && place.line == 9 && !place.is_stmt, "line 9");
        free(index);
    }
}

/* A file of a path and a directory of three bytes each, by rooms for both. */
static void two_rooms(void) {
    take_version(4);
    for (size_t i = 0; i < 25; i++) {
        size_t path_room = i % 5, directory_room = i / 5;
        bool fits = path_room >= 3 && directory_room >= 3;
        gimli_line_file *file = room_in(BESIDE, sizeof *file);
        char *path = room_in(ARRAY, path_room), *directory = room_in(ANOTHER, directory_room);
        is(gimli_line_read_file(&in, 0, 2, file, path, path_room, directory, directory_room) == (fits ? GIMLI_LINE_OK : GIMLI_LINE_NO_ROOM),
           "rooms of a file");
        is(file->path.size == 3 && file->directory.size == 3 && file->directory_number == 1, "a file");
        is(fits ? memcmp(path, "b.h", 3) == 0 && memcmp(directory, "inc", 3) == 0
                : is_untouched(path, path_room) && is_untouched(directory, directory_room),
           "its texts");
        is(!fits || (is_untouched(path + 3, path_room - 3) && is_untouched(directory + 3, directory_room - 3)), "the rest of the rooms");
    }
}

/* The paths of an index, /w/a.c and /w/inc/b.h, have 18 bytes, each with its zero byte. */
static void limit_of_paths(void) {
    static const uint8_t none = 0;
    uint8_t index[512];
    size_t size;
    take_version(4);
    for (size_t limit = 0; limit < 22; limit++) {
        const gimli_line_proved_options by = {sizeof by, 1, 8, false, limit};
        is(gimli_line_proved_index_write(in.line, in.line_size, &none, 0, &none, 0, in.info, in.info_size, in.abbreviations,
                                         in.abbreviations_size, &none, 0, &by, &none, 0, index, sizeof index,
                                         &size) == (limit < 18 ? (uint32_t)GIMLI_LINE_INDEX_TOO_LARGE : (uint32_t)GIMLI_LINE_OK) &&
               (size == 0) == (limit < 18),
           "the limit of paths");
    }
}

/* 8,000 files, each with a row: all in one directory of so many bytes, or each in one of its own that goes on from there. With 60,000 bytes
 * the paths have 480 MB and the sections at most 200 KB: no index. One that is made has at most 256 times their bytes and 64 MiB of paths,
 * and 48 bytes and 36 for each byte of the lines. */
static void long_paths(size_t length, bool own, uint32_t wanted) {
    enum { FILES = 8000, SIZE = 300000 };
    static const uint8_t head[] = {4, 0, 0, 0, 0, 0, 1, 1, 1, 0xfb, 14, 13, 0, 1, 1, 1, 1, 0, 0, 0, 1, 0, 0, 1},
                         start[] = {0, 9, 2, 0, 0x10, 0, 0, 0, 0, 0, 0}, end[] = {2, 1, 0, 1, 1};
    uint8_t *lines = malloc(SIZE), *info = malloc(length + 17), *at = memcpy(lines + 4, head, sizeof head), *index;
    memset(memcpy(info, info_4, 16) + 16, 'd', length);
    info[16 + length] = 0;
    memcpy(info, &(uint32_t){(uint32_t)length + 13}, 4);
    at += sizeof head;
    for (int i = 0; i < (own ? FILES : 1); i++) {
        at = (uint8_t *)memcpy(at, info + 16, own ? 1 : length) + (own ? 1 : length);
        *at++ = 0;
    }
    *at++ = 0;
    for (int i = 0; i < FILES; i++) {
        const int from = own ? i + 1 : 1;
        const uint8_t file[] = {(uint8_t)('a' + i / 676), (uint8_t)('a' + i / 26 % 26), (uint8_t)('a' + i % 26), 0},
                      more[] = {(uint8_t)(from | 0x80), (uint8_t)(from >> 7), 0, 0};
        at = (uint8_t *)memcpy(at, file, sizeof file) + sizeof file;
        at = (uint8_t *)memcpy(at, more, sizeof more) + sizeof more;
    }
    *at++ = 0;
    uint32_t header = (uint32_t)(at - lines - 10), whole;
    memcpy(lines + 6, &header, 4);
    at = (uint8_t *)memcpy(at, start, sizeof start) + sizeof start;
    for (int i = 1; i <= FILES; i++) {
        const uint8_t row[] = {4, (uint8_t)(i | 0x80), (uint8_t)(i >> 7), 0x21};
        at = (uint8_t *)memcpy(at, row, sizeof row) + sizeof row;
    }
    at = (uint8_t *)memcpy(at, end, sizeof end) + sizeof end;
    whole = (uint32_t)(at - lines - 4);
    memcpy(lines, &whole, 4);
    in = (gimli_line_sections)GIMLI_LINE_SECTIONS;
    in.line = lines;
    in.line_size = (size_t)(at - lines);
    in.info = info;
    in.info_size = own ? length + 17 : 0;
    in.abbreviations = declaration;
    in.abbreviations_size = sizeof declaration;
    gimli_line_unit unit;
    size_t size;
    is(gimli_line_read_unit(&in, 0, &unit) == GIMLI_LINE_OK && unit.rows == FILES + 1 && unit.files == FILES && unit.fault == 0,
       "many files");
    is(gimli_line_index_of_sections(&in, NULL, 0, &index, &size) == wanted, "long paths");
    is(wanted == GIMLI_LINE_OK
           ? size > FILES * length && size <= 292 * in.line_size + 256 * (in.info_size + sizeof declaration) + (64 << 20) + 48
           : index == NULL && size == 0,
       "the size of an index");
    free(lines);
    free(info);
    free(index);
}

/* The directory of a compilation; none of another line program, nor where a section is cut, a unit can't be read, or a text has no end. */
static void directories(const uint8_t *info, size_t size, const char *wanted) {
    uint8_t changed[64];
    take(lines_4, sizeof lines_4, info, size);
    tells(comp_dir_in, 0, GIMLI_LINE_OK, wanted);
    for (size_t length = 0; length < sizeof declaration - 1; length++) {
        in.abbreviations = memcpy(room_in(OWN + 3, length), declaration, length);
        in.abbreviations_size = length;
        tells(comp_dir_in, 0, GIMLI_LINE_NO_COMP_DIR, "a cut .debug_abbrev");
    }
    for (size_t length = 0; length < size; length++) {
        take(lines_4, sizeof lines_4, info, length);
        tells(comp_dir_in, 0, GIMLI_LINE_NO_COMP_DIR, "a cut .debug_info");
    }
    /* In turn the length, the version, the line program's offset, and the end of the text. */
    const size_t at[] = {0, 1, 2, 3, 4, 5, size - strlen(wanted) - 5, size - 1};
    for (size_t i = 0; i < sizeof at / sizeof at[0]; i++) {
        memcpy(changed, info, size);
        changed[at[i]] = 0xff;
        take(lines_4, sizeof lines_4, changed, size);
        tells(comp_dir_in, 0, GIMLI_LINE_NO_COMP_DIR, "a unit that can't be read");
    }
}

/* A struct of another size is refused, and nothing is written; null is no bytes, and no room. */
static void structs(void) {
    uint64_t count = 77, line = 77;
    size_t size = 77, many = 77;
    uint8_t *index;
    take_version(4);
    in.strings = in.line_strings = in.string_offsets = NULL;
    is(gimli_line_read_rows(&in, 0, 0, NULL, 0, &count) == GIMLI_LINE_OK && count == 5, "no room for rows");
    is(gimli_line_read_path(&in, 0, 1, NULL, 0, NULL, 0, &size) == GIMLI_LINE_NO_ROOM && size == 3, "no room for a path");
    is(gimli_line_comp_dir(&in, 0, NULL, 0, &size) == GIMLI_LINE_NO_ROOM && size == 2, "no room for a directory");
    is(gimli_line_index_of_sections(&in, NULL, 0, &index, &size) == GIMLI_LINE_OK, "an index without an identity");
    is(gimli_line_index_find_all(index, size, NULL, 0) == GIMLI_LINE_OK, "no places");
    is(gimli_line_index_addresses_of(index, size, NULL, 0, 3, &line, NULL, 0, &many) == GIMLI_LINE_NO_CODE && line == 77 && many == 77,
       "no path");
    free(index);
    in.struct_size--;
    gimli_line_unit *unit = room_in(ANOTHER, sizeof *unit);
    is(gimli_line_read_unit(&in, 0, unit) == GIMLI_LINE_UNKNOWN_OPTIONS && is_untouched(unit, sizeof *unit), "sections of another size");
    is(gimli_line_index_of_sections(&in, NULL, 0, &index, &size) == GIMLI_LINE_UNKNOWN_OPTIONS && index == NULL && size == 0,
       "their index");
    gimli_line_contents contents = {.struct_size = 1};
    is(gimli_line_write(&contents, NULL, 0, &size) == GIMLI_LINE_UNKNOWN_OPTIONS && size == 0, "contents of another size");
    in = (gimli_line_sections)GIMLI_LINE_SECTIONS;
    is(gimli_line_read_unit(&in, 0, unit) == GIMLI_LINE_UNEXPECTED_EOF, "no section");
    is(gimli_line_sections_of_elf(NULL, 0, &in) == GIMLI_LINE_NO_ELF && in.line == NULL, "no file");
    gimli_line_sections *old = room_in(ANOTHER, sizeof *old);
    is(gimli_line_sections_of_elf(NULL, 0, old) == GIMLI_LINE_UNKNOWN_OPTIONS && is_untouched(old, sizeof *old), "a struct of another size");
}

static void *all(void *nothing) {
    structs();
    directories(info_4, sizeof info_4, "/w");
    directories(info_5, sizeof info_5, "./w");
    paths();
    files_at_once(4, "/w", "/w/inc/d.c\0/w/a.c\0/w/inc/b.h", 29);
    files_at_once(5, "./w", "/abs/c.c\0./w/a.c\0./w/../inc/b.h", 32);
    comp_dirs_at_once();
    strings_of_paths();
    units(lines_4, sizeof lines_4, (gimli_line_unit){sizeof lines_4 - 4, 0, 1, 3, 5, 4, 8, 4, 0});
    units(lines_5, sizeof lines_5, (gimli_line_unit){sizeof lines_5 - 4, 0, 3, 3, 0, 5, 8, 4, 0});
    lines_of_paths();
    two_rooms();
    limit_of_paths();
    return nothing;
}

int main(void) {
    all(NULL);
    long_paths(60000, false, GIMLI_LINE_INDEX_TOO_LARGE);
    long_paths(60000, true, GIMLI_LINE_INDEX_TOO_LARGE);
    long_paths(5000, false, GIMLI_LINE_OK);
    long_paths(5000, true, GIMLI_LINE_OK);
    printf("%lu\n", atomic_load(&answers));
    pthread_t threads[THREADS];
    for (int i = 0; i < THREADS; i++) is(pthread_create(&threads[i], NULL, all, NULL) == 0, "a thread");
    for (int i = 0; i < THREADS; i++) pthread_join(threads[i], NULL);
    return 0;
}
