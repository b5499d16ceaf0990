/* By an index, of which FILE is one, with all addresses asked for at once. */
#define _DEFAULT_SOURCE
#include <fcntl.h>
#include <sys/mman.h>
#include <sys/stat.h>
#include <unistd.h>

#include "ask.h"
#include "gimli_line.h"

int main(int argc, char **argv) {
    struct stat about;
    int file = argc != 5 ? -1 : open(argv[1], O_RDONLY);
    if (file < 0 || fstat(file, &about) != 0) return 2;
    size_t length = (size_t)about.st_size, count = (size_t)atol(argv[2]);
    const uint8_t *index = mmap(NULL, length, PROT_READ, MAP_SHARED, file, 0);
    gimli_line_place *places = malloc((count + 1) * sizeof *places);
    if (index == MAP_FAILED || places == NULL) return 2;
    uint64_t lowest = strtoull(argv[3], NULL, 16), highest = strtoull(argv[4], NULL, 16);
    for (size_t i = 0; i < count; i++) places[i].address = next_address(lowest, highest);
    if (gimli_line_index_find_all(index, length, places, count) != GIMLI_LINE_OK) return 2;
    for (size_t i = 0; i < count; i++)
        if (places[i].known) told(places[i].line, places[i].path_size);
    return print_sums();
}
