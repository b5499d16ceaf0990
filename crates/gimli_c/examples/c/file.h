/* What the examples share: the bytes of a file, and the end of a program that a call refuses. */
#ifndef FILE_H
#define FILE_H

#include <stdio.h>
#include <stdlib.h>

#include "gimli_line.h"

typedef struct bytes {
    uint8_t *at;
    size_t length;
} bytes;

/* Ends the program where a call answered another number than 0. */
static inline void stop_if(gimli_line_status status) {
    if (status == GIMLI_LINE_OK) return;
    fprintf(stderr, "%s\n", gimli_line_status_sentence(status));
    exit(1);
}

/* The bytes of a file, which free() gives back. */
static inline bytes read_file(const char *name) {
    bytes read = {NULL, 0};
    FILE *file = fopen(name, "rb");
    long size = file != NULL && fseek(file, 0, SEEK_END) == 0 ? ftell(file) : -1;
    if (size >= 0) {
        rewind(file);
        read.length = (size_t)size;
        read.at = (uint8_t *)malloc(read.length + 1);
    }
    if (read.at == NULL || fread(read.at, 1, read.length, file) != read.length) {
        fprintf(stderr, "%s can't be read\n", name);
        exit(2);
    }
    fclose(file);
    return read;
}

#endif
