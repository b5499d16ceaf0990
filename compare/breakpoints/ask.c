/* Prints the addresses of lines by an index of a program: ask PROGRAM, with a line 'LINE PATH' of standard input for each. An answer is
 * the line that has code and its addresses, of hexadecimal digits, or 'none'. compare/breakpoints.sh runs it. */
#include <inttypes.h>
#include <string.h>

#include "file.h"

enum { ROOM = 1 << 16 };

int main(int argc, char **argv) {
    static uint64_t addresses[ROOM];
    static char line[1 << 16];
    if (argc != 2) return 2;
    bytes file = read_file(argv[1]);
    uint8_t *index;
    size_t size;
    stop_if(gimli_line_index_of_elf(file.at, file.length, &index, &size));
    stop_if(gimli_line_index_check(index, size));
    while (fgets(line, sizeof line, stdin) != NULL) {
        char *path;
        uint64_t asked = strtoull(line, &path, 10), found = 0;
        size_t count = 0;
        path += *path == ' ';
        gimli_line_status status =
            gimli_line_index_addresses_of(index, size, path, strcspn(path, "\n"), asked, &found, addresses, ROOM, &count);
        if (status == GIMLI_LINE_NO_CODE) {
            puts("none");
            continue;
        }
        stop_if(status);
        printf("%" PRIu64, found);
        for (size_t i = 0; i < count; i++) printf(" %" PRIx64, addresses[i]);
        putchar('\n');
    }
    free(index);
    free(file.at);
    return 0;
}
