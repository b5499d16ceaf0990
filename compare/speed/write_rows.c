/* Writes a unit of version 4 by gimli_line_write, with so many sequences of 1,000 rows, into memory that holds it: write_rows SEQUENCES.
 * The rows are those of `bench write`. What a row takes is the difference of two runs. */
#include <stdio.h>
#include <stdlib.h>

#include "gimli_line.h"

enum { ROWS = 1000 };

/* Fills a sequence, and returns the seed of the next one. */
static uint64_t put_sequence(gimli_line_row *rows, uint64_t base, uint64_t seed) {
    gimli_line_row row = {base, 0, 1, 1, 0, 0, 0, 0};
    for (size_t i = 0; i < ROWS; i++) {
        seed = seed * UINT64_C(6364136223846793005) + UINT64_C(1442695040888963407);
        row.address += seed >> 33 & 15;
        row.line = 1 + (seed >> 40 & 63) + (seed >> 50 & 7);
        if (seed >> 60 & 1) row.column = seed >> 56 & 15;
        row.flags = seed >> 62 & 1 ? GIMLI_LINE_IS_STMT : 0;
        rows[i] = row;
    }
    rows[ROWS] = (gimli_line_row){.address = row.address + 4, .flags = GIMLI_LINE_END_SEQUENCE};
    return seed;
}

int main(int argc, char **argv) {
    size_t sequences = argc > 1 ? (size_t)atol(argv[1]) : 0, count = sequences * (ROWS + 1), room = 64 + 32 * count, size;
    gimli_line_row *rows = calloc(count + 1, sizeof *rows);
    uint8_t *unit = malloc(room);
    if (rows == NULL || unit == NULL) return 2;
    uint64_t seed = 1;
    for (size_t i = 0; i < sequences; i++) seed = put_sequence(rows + i * (ROWS + 1), 0x10000 * i, seed);
    gimli_line_file_name file = {.path = {0, 3}};
    gimli_line_contents contents = {.struct_size = sizeof contents, .encoding = GIMLI_LINE_ENCODING(4), .texts = "a.c", .text_length = 3};
    contents.files = &file;
    contents.file_count = 1;
    contents.rows = rows;
    contents.row_count = count;
    gimli_line_status status = gimli_line_write(&contents, unit, room, &size);
    if (status != GIMLI_LINE_OK) {
        fprintf(stderr, "%s\n", gimli_line_status_sentence(status));
        return 1;
    }
    printf("%zu\n", size);
    return 0;
}
