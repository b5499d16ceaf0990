/* Asks for all of N at once, so that its instructions are counted by growth.sh: they grow as N does.
 *
 *   growth files N        the files of a unit of version 4, with their whole paths, by gimli_line_read_files
 *   growth directories N  its directories, each of one file, by the paths that gimli_line_read_files gives
 *   growth comp_dirs N    the directories of N units of .debug_info, by gimli_line_comp_dirs
 *   growth rows N         the rows of a unit, by gimli_line_read_rows
 *
 * Prints how many bytes of texts, or rows, there are. */
#include <string.h>

#include "file.h"
#include "gimli_line.h"

enum { WORD = 4, ADDRESS = 8 };

/* Where bytes are put. */
typedef struct made {
    uint8_t *at;
    size_t size;
} made;

static made with_room(size_t room) {
    made all = {malloc(room), 0};
    if (all.at == NULL) stop_if(GIMLI_LINE_OUT_OF_MEMORY);
    return all;
}

static void put(made *all, const void *bytes, size_t size) {
    memcpy(all->at + all->size, bytes, size);
    all->size += size;
}

static void put_number(made *all, uint64_t number, size_t size) {
    for (size_t i = 0; i < size; i++) all->at[all->size++] = (uint8_t)(number >> 8 * i);
}

/* A length of what stands from a place on, which comes before it. */
static void close_length(made *all, size_t place) {
    made length = {all->at, place};
    put_number(&length, all->size - place - WORD, WORD);
}

static void put_leb128(made *all, uint64_t number) {
    for (; number > 127; number >>= 7) put_number(all, number % 128 + 128, 1);
    put_number(all, number, 1);
}

/* A unit of version 4 with so many directories, so many files in turn in these, and so many rows in one sequence. */
static made lines_of(size_t directories, size_t files, size_t rows) {
    static const uint8_t before[] = {1, 1, 1, 0xfb, 14, 13, 0, 1, 1, 1, 1, 0, 0, 0, 1, 0, 0, 1};
    made all = with_room(100 + 16 * directories + 32 * files + 2 * rows);
    char name[32];
    put_number(&all, 0, WORD);
    put_number(&all, 4, 2);
    size_t header = all.size;
    put_number(&all, 0, WORD);
    put(&all, before, sizeof before);
    for (size_t i = 0; i < directories; i++) {
        snprintf(name, sizeof name, "d%07zu", i);
        put(&all, name, 9);
    }
    put_number(&all, 0, 1);
    for (size_t i = 0; i < files; i++) {
        snprintf(name, sizeof name, "f%07zu.c", i);
        put(&all, name, 11);
        put_leb128(&all, i % directories + 1);
        put_number(&all, 0, 2); /* no time and no size */
    }
    put_number(&all, 0, 1);
    close_length(&all, header);
    put(&all, "\0\11\2", 3); /* DW_LNE_set_address */
    put_number(&all, 0x1000, ADDRESS);
    for (size_t i = 0; i < rows; i++) put(&all, "\x4b", 1); /* a special opcode: 4 bytes and 1 line further */
    put(&all, "\0\1\1", 3);                                  /* DW_LNE_end_sequence */
    close_length(&all, 0);
    return all;
}

/* So many units of version 4, each with a line program of its own and a directory. */
static made info_of(size_t units) {
    made all = with_room(32 * units + 1);
    for (size_t i = 0; i < units; i++) {
        size_t unit = all.size;
        char name[32];
        put_number(&all, 0, WORD);
        put_number(&all, 4, 2);
        put_number(&all, 0, WORD);
        put_number(&all, ADDRESS, 1);
        put_number(&all, 1, 1);
        put_number(&all, 16 * i, WORD);
        snprintf(name, sizeof name, "/d%07zu", i);
        put(&all, name, 10);
        close_length(&all, unit);
    }
    return all;
}

/* The files of a unit with so many directories, each with its path. */
static size_t all_files(size_t directories, size_t count) {
    gimli_line_sections in = GIMLI_LINE_SECTIONS;
    made lines = lines_of(directories, count, 0), texts = with_room(32 * count);
    gimli_line_listed_file *files = calloc(count, sizeof *files);
    size_t size = 0;
    if (files == NULL) return 0;
    in.line = lines.at;
    in.line_size = lines.size;
    for (size_t i = 0; i < count; i++) files[i].number = i + 1;
    stop_if(gimli_line_read_files(&in, 0, "/w", 2, files, count, (char *)texts.at, 32 * count, &size));
    for (size_t i = 0; i < count; i++) {
        char path[64];
        snprintf(path, sizeof path, "/w/d%07zu/f%07zu.c", i % directories, i);
        stop_if(files[i].status);
        if (strcmp((const char *)texts.at + files[i].path, path) != 0) stop_if(GIMLI_LINE_UNKNOWN_PATH);
    }
    free(files);
    free(texts.at);
    free(lines.at);
    return size;
}

static size_t all_comp_dirs(size_t count) {
    static const uint8_t declaration[] = {1, 0x11, 0, 0x10, 0x17, 0x1b, 8, 0, 0, 0};
    gimli_line_sections in = GIMLI_LINE_SECTIONS;
    made info = info_of(count), texts = with_room(32 * count);
    gimli_line_listed_comp_dir *directories = calloc(count, sizeof *directories);
    size_t size = 0;
    if (directories == NULL) return 0;
    in.info = info.at;
    in.info_size = info.size;
    in.abbreviations = declaration;
    in.abbreviations_size = sizeof declaration;
    for (size_t i = 0; i < count; i++) directories[i].offset = 16 * i;
    stop_if(gimli_line_comp_dirs(&in, directories, count, (char *)texts.at, 32 * count, &size));
    for (size_t i = 0; i < count; i++) stop_if(directories[i].status);
    free(directories);
    free(texts.at);
    free(info.at);
    return size;
}

static size_t all_rows(size_t count) {
    gimli_line_sections in = GIMLI_LINE_SECTIONS;
    made lines = lines_of(1, 1, count);
    gimli_line_row *rows = calloc(count + 1, sizeof *rows);
    uint64_t many = 0;
    if (rows == NULL) return 0;
    in.line = lines.at;
    in.line_size = lines.size;
    stop_if(gimli_line_read_rows(&in, 0, 0, rows, count + 1, &many));
    free(rows);
    free(lines.at);
    return (size_t)many;
}

int main(int argc, char **argv) {
    if (argc != 3) {
        fprintf(stderr, "usage: growth files|directories|comp_dirs|rows N\n");
        return 2;
    }
    size_t count = strtoull(argv[2], NULL, 10);
    if (strcmp(argv[1], "files") == 0) printf("%zu\n", all_files(1, count));
    else if (strcmp(argv[1], "directories") == 0) printf("%zu\n", all_files(count, count));
    else if (strcmp(argv[1], "comp_dirs") == 0) printf("%zu\n", all_comp_dirs(count));
    else printf("%zu\n", all_rows(count));
    return 0;
}
