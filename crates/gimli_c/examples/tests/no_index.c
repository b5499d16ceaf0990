/* Places of addresses without an index: no_index PROGRAM ADDRESS.., in hexadecimal. A line for each: its path, line and column, or none.
 * Each is asked with each room from none to more than enough: what has too little writes the row and the size alone, and a status that says
 * that nothing is there writes nothing. */
#include <inttypes.h>
#include <string.h>

#include "file.h"
#include "gimli_line.h"

enum { ROOM = 4096 };

static void is(bool holds) {
    if (!holds) abort();
}

static bool is_filled(const void *at, size_t size) {
    for (size_t k = 0; k < size; k++)
        if (((const char *)at)[k] != '#') return false;
    return true;
}

/* Asks with so much room, and looks at what is written. */
static gimli_line_status ask(const gimli_line_sections *in, uint64_t address, gimli_line_row *row, char *path, size_t room, size_t *size) {
    memset(row, '#', sizeof *row);
    memset(path, '#', ROOM);
    *size = 77;
    gimli_line_status status = gimli_line_place_of_sections(in, address, row, path, room, size);
    bool found = status == GIMLI_LINE_OK || status == GIMLI_LINE_NO_ROOM;
    is(is_filled(row, sizeof *row) == !(found || status == GIMLI_LINE_UNKNOWN_PATH) && (found || *size == 77));
    is(status != GIMLI_LINE_NO_ROOM || *size > room);
    is(is_filled(path + (status == GIMLI_LINE_OK ? *size : 0), ROOM - (status == GIMLI_LINE_OK ? *size : 0)));
    return status;
}

int main(int argc, char **argv) {
    if (argc < 2) return 2;
    bytes file = read_file(argv[1]);
    gimli_line_sections sections = GIMLI_LINE_SECTIONS;
    stop_if(gimli_line_sections_of_elf(file.at, file.length, &sections));
    for (int i = 2; i < argc; i++) {
        uint64_t address = strtoull(argv[i], NULL, 16);
        gimli_line_row row, again;
        static char path[ROOM];
        size_t size, other;
        gimli_line_status status = ask(&sections, address, &row, path, 0, &size);
        if (status == GIMLI_LINE_NO_ROW) {
            puts("none");
            continue;
        }
        is(status == GIMLI_LINE_NO_ROOM && size < ROOM - 2);
        for (size_t room = size < 2 ? 0 : size - 2; room <= size + 2; room++)
            is(ask(&sections, address, &again, path, room, &other) == (room < size ? GIMLI_LINE_NO_ROOM : GIMLI_LINE_OK) && other == size &&
               memcmp(&row, &again, sizeof row) == 0);
        printf("%.*s:%" PRIu64 ":%" PRIu64 "\n", (int)size, path, row.line, row.column);
        /* The whole file gives the same. */
        is(gimli_line_place_of_elf(file.at, file.length, address, &again, path, ROOM, &other) == GIMLI_LINE_OK && other == size &&
           memcmp(&row, &again, sizeof row) == 0);
    }
    /* An address size that isn't known, a struct of another size, and no sections: nothing is written. */
    gimli_line_row row;
    static char path[ROOM];
    size_t size;
    sections.address_size = 3;
    is(ask(&sections, 0, &row, path, ROOM, &size) == GIMLI_LINE_UNSUPPORTED_ADDRESS_SIZE);
    sections.struct_size--;
    is(ask(&sections, 0, &row, path, ROOM, &size) == GIMLI_LINE_UNKNOWN_OPTIONS);
    sections.struct_size++;
    gimli_line_sections none = GIMLI_LINE_SECTIONS;
    is(ask(&none, 0, &row, path, 0, &size) == GIMLI_LINE_NO_ROW);
    gimli_line_sections_free(&sections);
    free(file.at);
    return 0;
}
