/* Where one address of a program comes from, as path, line and column, without an index: one_address PROGRAM ADDRESS, in hexadecimal. */
#include <inttypes.h>

#include "file.h"
#include "gimli_line.h"

int main(int argc, char **argv) {
    if (argc != 3) {
        fprintf(stderr, "usage: one_address PROGRAM ADDRESS\n");
        return 2;
    }
    bytes program = read_file(argv[1]);
    gimli_line_row row;
    char path[4096];
    size_t size;
    gimli_line_status status =
        gimli_line_place_of_elf(program.at, program.length, strtoull(argv[2], NULL, 16), &row, path, sizeof path, &size);
    free(program.at);
    if (status == GIMLI_LINE_NO_ROW) { /* no line is known of this address */
        puts("none");
        return 0;
    }
    if (status == GIMLI_LINE_UNKNOWN_PATH) printf("??"); /* the row is known all the same */
    else {
        stop_if(status);
        printf("%.*s", (int)size, path);
    }
    printf(":%" PRIu64 ":%" PRIu64 "\n", row.line, row.column);
    return 0;
}
