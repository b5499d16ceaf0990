/* By an index: FILE is one, or an ELF file, of which one is made first. */
#define _DEFAULT_SOURCE
#include <fcntl.h>
#include <sys/mman.h>
#include <sys/stat.h>
#include <unistd.h>

#include "ask.h"
#include "gimli_line.h"

int main(int argc, char **argv) {
    struct stat about;
    int file = argc != 5 ? -1 : open(argv[1], O_RDONLY);
    if (file < 0 || fstat(file, &about) != 0) return 2;
    size_t length = (size_t)about.st_size;
    uint8_t *index = mmap(NULL, length, PROT_READ, MAP_SHARED, file, 0);
    gimli_line_index found;
    if (index == MAP_FAILED) return 2;
    if (gimli_line_index_open(index, length, &found) != GIMLI_LINE_OK &&
        gimli_line_index_of_elf(index, length, &index, &length) != GIMLI_LINE_OK)
        return 2;
    uint64_t lowest = strtoull(argv[3], NULL, 16), highest = strtoull(argv[4], NULL, 16);
    for (long i = atol(argv[2]); i > 0; i--) {
        gimli_line_place place;
        if (gimli_line_index_find(index, length, next_address(lowest, highest), &place) == GIMLI_LINE_OK) told(place.line, place.path_size);
    }
    return print_sums();
}
