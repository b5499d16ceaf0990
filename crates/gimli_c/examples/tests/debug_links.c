/* The debug links of the ELF files that are named, one on a line: NAME CHECKSUM, or the status. Each is asked for with each room from none
 * to more than enough: only the size may be written where there is too little, and nothing at another status. */
#include <inttypes.h>
#include <string.h>

#include "file.h"
#include "gimli_line.h"

enum { ROOM = 64 };

static void is(bool holds) {
    if (!holds) abort();
}

int main(int argc, char **argv) {
    for (int i = 1; i < argc; i++) {
        bytes file = read_file(argv[i]);
        char name[ROOM];
        size_t size = 77;
        uint32_t checksum = 77;
        gimli_line_status first = gimli_line_debug_link(file.at, file.length, NULL, 0, &size, &checksum);
        is((size == 77) == (first != GIMLI_LINE_NO_ROOM && first != GIMLI_LINE_OK) && (first == GIMLI_LINE_OK || checksum == 77));
        if (size == 77) printf("%s\n", gimli_line_status_sentence(first));
        else
            for (size_t room = 0; room <= size + 2; room++) {
                size_t again = 77;
                memset(name, '#', sizeof name);
                checksum = 77;
                gimli_line_status status = gimli_line_debug_link(file.at, file.length, name, room, &again, &checksum);
                size_t written = room < size ? 0 : size;
                is(status == (room < size ? GIMLI_LINE_NO_ROOM : GIMLI_LINE_OK) && again == size && (status == GIMLI_LINE_OK || checksum == 77));
                for (size_t k = written; k < ROOM; k++) is(name[k] == '#');
                if (room == size + 2) printf("%.*s %" PRIx32 "\n", (int)size, name, checksum);
            }
        free(file.at);
    }
    return 0;
}
