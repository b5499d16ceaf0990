/* One call, so many times: calls PROGRAM CALL TIMES LOWEST HIGHEST, where CALL is index_find, index_addresses_of, find, path or file, the
 * last three in the unit of the place. Places are those of addresses at random, which are looked up before; what is counted is the
 * difference of two runs. */
#include "../../../crates/gimli_c/examples/c/file.h"
#include "ask.h"

enum { PLACES = 64 };

int main(int argc, char **argv) {
    if (argc != 6) return 2;
    bytes file = read_file(argv[1]);
    uint8_t *index;
    size_t index_length;
    gimli_line_sections sections = GIMLI_LINE_SECTIONS;
    stop_if(gimli_line_index_of_elf(file.at, file.length, &index, &index_length));
    stop_if(gimli_line_sections_of_elf(file.at, file.length, &sections));
    uint64_t lowest = strtoull(argv[4], NULL, 16), highest = strtoull(argv[5], NULL, 16);
    static gimli_line_place places[PLACES];
    static gimli_line_row rows[PLACES];
    gimli_line_row second;
    for (size_t i = 0; i < PLACES; i++) {
        while (gimli_line_index_find(index, index_length, next_address(lowest, highest), &places[i]) != GIMLI_LINE_OK ||
               places[i].path == 0)
            continue;
        stop_if(gimli_line_find_row(&sections, places[i].unit, places[i].address, &rows[i], &second));
    }
    static const char *const names[] = {"index_find", "index_addresses_of", "find", "path", "file"};
    int call = 0;
    while (call < 5 && strcmp(argv[2], names[call]) != 0) call++;
    for (long i = atol(argv[3]); i > 0; i--) {
        const gimli_line_place *place = &places[i % PLACES];
        gimli_line_place found;
        gimli_line_row first;
        gimli_line_file read;
        char path[256], directory[256];
        uint64_t line, addresses[16];
        size_t size = 0;
        if (call == 0) stop_if(gimli_line_index_find(index, index_length, place->address, &found));
        if (call == 1) {
            gimli_line_status status = gimli_line_index_addresses_of(index, index_length, gimli_line_place_path(index, place),
                                                                     place->path_size, place->line, &line, addresses, 16, &size);
            if (status != GIMLI_LINE_NO_CODE) stop_if(status);
        }
        if (call == 2) stop_if(gimli_line_find_row(&sections, place->unit, place->address, &first, &second));
        if (call == 3) stop_if(gimli_line_read_path(&sections, place->unit, rows[i % PLACES].file, NULL, 0, path, sizeof path, &size));
        if (call == 4)
            stop_if(
                gimli_line_read_file(&sections, place->unit, rows[i % PLACES].file, &read, path, sizeof path, directory, sizeof directory));
        told(place->line, size);
    }
    return print_sums();
}
