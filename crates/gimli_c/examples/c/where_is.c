/* Where addresses of a program come from, as path, line and column: where_is PROGRAM ADDRESS.., in hexadecimal. */
#include <inttypes.h>

#include "file.h"
#include "gimli_line.h"

int main(int argc, char **argv) {
    if (argc < 2) {
        fprintf(stderr, "usage: where_is PROGRAM ADDRESS..\n");
        return 2;
    }
    bytes program = read_file(argv[1]);
    uint8_t *index;
    size_t size;
    stop_if(gimli_line_index_of_elf(program.at, program.length, &index, &size));
    free(program.at); /* the index has all that it needs */

    for (int i = 2; i < argc; i++) {
        gimli_line_place place;
        gimli_line_status status = gimli_line_index_find(index, size, strtoull(argv[i], NULL, 16), &place);
        if (status == GIMLI_LINE_NO_ROW) { /* no line is known of this address */
            puts("none");
            continue;
        }
        stop_if(status);
        const char *path = gimli_line_place_path(index, &place);
        printf("%s:%" PRIu32 ":%" PRIu32 "\n", path != NULL ? path : "??", place.line, place.column);
    }
    free(index);
    return 0;
}
