/* Where addresses come from, by an index that is mapped from a file: index FILE ADDRESS.., in hexadecimal. PATH:LINE in the place of an
 * address asks where the code of a line begins: in files whose paths end with PATH. */
#define _DEFAULT_SOURCE
#include <fcntl.h>
#include <inttypes.h>
#include <string.h>
#include <sys/mman.h>
#include <sys/stat.h>
#include <unistd.h>

#include "file.h"
#include "gimli_line.h"

/* The addresses of a line, or of the next that has any: this line and an address on each line of output. */
static void print_line(const uint8_t *index, size_t length, const char *path, const char *colon) {
    uint64_t asked = strtoull(colon + 1, NULL, 10), line = 0;
    size_t path_length = (size_t)(colon - path), count = 0;
    /* With no room it tells how many there are. */
    gimli_line_status status = gimli_line_index_addresses_of(index, length, path, path_length, asked, &line, NULL, 0, &count);
    if (status == GIMLI_LINE_NO_CODE) {
        puts("none");
        return;
    }
    if (status != GIMLI_LINE_NO_ROOM) stop_if(status);
    uint64_t *addresses = malloc((count + 1) * sizeof *addresses);
    stop_if(addresses == NULL ? GIMLI_LINE_OUT_OF_MEMORY
                              : gimli_line_index_addresses_of(index, length, path, path_length, asked, &line, addresses, count, &count));
    for (size_t i = 0; i < count; i++) printf("%" PRIu64 " %" PRIx64 "\n", line, addresses[i]);
    free(addresses);
}

int main(int argc, char **argv) {
    struct stat about;
    int file = argc < 2 ? -1 : open(argv[1], O_RDONLY);
    if (file < 0 || fstat(file, &about) != 0 || about.st_size == 0) return 2;
    size_t length = (size_t)about.st_size;
    const uint8_t *index = mmap(NULL, length, PROT_READ, MAP_SHARED, file, 0);
    if (index == MAP_FAILED) return 2;
    close(file);
    stop_if(gimli_line_index_check(index, length)); /* once, where nobody vouches for the file */

    for (int i = 2; i < argc; i++) {
        const char *colon = strrchr(argv[i], ':');
        if (colon != NULL) {
            print_line(index, length, argv[i], colon);
            continue;
        }
        uint64_t address = strtoull(argv[i], NULL, 16);
        gimli_line_place place;
        gimli_line_status status = gimli_line_index_find(index, length, address, &place);
        if (status == GIMLI_LINE_NO_ROW) {
            puts("none");
            continue;
        }
        stop_if(status);
        const char *path = gimli_line_place_path(index, &place);
        printf("%s:%" PRIu32 ":%" PRIu32 "\n", path != NULL ? path : "??", place.line, place.column);
    }
    return munmap((void *)index, length) == 0 ? 0 : 2;
}
