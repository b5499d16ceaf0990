/* Makes the index of a program, for ask_index.c to ask: make_index PROGRAM INDEX [DEBUG]. It prints what the index is named by: the
 * program's build ID. Of a stripped program it takes the debug file, which may be below the directory DEBUG, /usr/lib/debug. */
#define _GNU_SOURCE
#include <string.h>

#include "file.h"
#include "gimli_line.h"

enum { ROOM = 4096 };

/* zlib's crc32(0, bytes, length). */
static uint32_t crc32_of(bytes of) {
    uint32_t crc = UINT32_MAX;
    for (size_t i = 0; i < of.length; i++) {
        crc ^= of.at[i];
        for (int bit = 0; bit < 8; bit++) crc = crc >> 1 ^ (crc % 2 != 0 ? UINT32_C(0xedb88320) : 0);
    }
    return ~crc;
}

/* Makes the index of a file, if it is there, and if it has the checksum, where that isn't null. */
static gimli_line_status index_of_file(const char *name, const uint32_t *checksum, uint8_t **index, size_t *size) {
    FILE *there = fopen(name, "rb");
    if (there == NULL) return GIMLI_LINE_NO_SECTION;
    fclose(there);
    bytes file = read_file(name);
    gimli_line_status status = GIMLI_LINE_NO_SECTION;
    if (checksum == NULL || crc32_of(file) == *checksum) status = gimli_line_index_of_elf(file.at, file.length, index, size);
    free(file.at);
    return status;
}

/* Makes the index of a program's debug file: of the one with its build ID, or else of the one that its debug link names. */
static gimli_line_status index_of_debug_file(const char *name, bytes program, const char *debug, uint8_t **index, size_t *size) {
    char place[3 * ROOM], real[ROOM], link[ROOM];
    uint8_t id[64];
    size_t id_size, link_size;
    uint32_t checksum;
    if (gimli_line_build_id(program.at, program.length, id, sizeof id, &id_size) == GIMLI_LINE_OK && id_size > 1) {
        int end = snprintf(place, sizeof place, "%.*s/.build-id/%02x/", ROOM, debug, id[0]);
        for (size_t i = 1; i < id_size; i++) end += sprintf(place + end, "%02x", id[i]);
        strcpy(place + end, ".debug");
        gimli_line_status status = index_of_file(place, NULL, index, size);
        if (status != GIMLI_LINE_NO_SECTION) return status;
    }
    gimli_line_status status = gimli_line_debug_link(program.at, program.length, link, sizeof link - 1, &link_size, &checksum);
    if (status != GIMLI_LINE_OK || realpath(name, real) == NULL) return GIMLI_LINE_NO_SECTION;
    link[link_size] = 0;
    *strrchr(real, '/') = 0;
    const char *const before[] = {"", "", debug}, *const after[] = {"", "/.debug", ""};
    status = GIMLI_LINE_NO_SECTION;
    for (int i = 0; i < 3 && status == GIMLI_LINE_NO_SECTION; i++) {
        if ((size_t)snprintf(place, sizeof place, "%s%s%s/%s", before[i], real, after[i], link) < sizeof place)
            status = index_of_file(place, &checksum, index, size);
    }
    return status;
}

int main(int argc, char **argv) {
    if (argc != 3 && argc != 4) {
        fprintf(stderr, "usage: make_index PROGRAM INDEX [DEBUG]\n");
        return 2;
    }
    bytes program = read_file(argv[1]);
    uint8_t *index;
    size_t size;
    gimli_line_status status = gimli_line_index_of_elf(program.at, program.length, &index, &size);
    if (status == GIMLI_LINE_NO_SECTION)
        status = index_of_debug_file(argv[1], program, argc == 4 ? argv[3] : "/usr/lib/debug", &index, &size);
    stop_if(status);
    free(program.at);

    gimli_line_index made;
    stop_if(gimli_line_index_open(index, size, &made));
    for (size_t i = 0; i < made.identity_size; i++) printf("%02x", index[made.identity + i]);
    putchar('\n');

    FILE *out = fopen(argv[2], "wb");
    bool written = out != NULL && fwrite(index, 1, size, out) == size && fclose(out) == 0;
    free(index);
    return written ? 0 : 2;
}
