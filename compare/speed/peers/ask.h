/* What each program here does: opens a program, asks for the path and line of addresses that the same numbers give in each, and prints a
 * sum of the lines and of the lengths of the paths, and how many were found.
 *
 *   PROGRAM FILE COUNT LOWEST HIGHEST      addresses in hexadecimal */
#ifndef ASK_H
#define ASK_H

#include <inttypes.h>
#include <stdint.h>
#include <stdio.h>
#include <stdlib.h>
#include <string.h>

#if defined(__GNUC__)
#define MAYBE __attribute__((unused))
#else
#define MAYBE
#endif

static uint64_t lines_sum, paths_sum, found_count;

/* The next address: alike in each program. */
MAYBE static uint64_t next_address(uint64_t lowest, uint64_t highest) {
    static uint64_t seed = 1;
    seed = seed * UINT64_C(6364136223846793005) + UINT64_C(1442695040888963407);
    return lowest + (seed >> 20) % (highest - lowest);
}

MAYBE static void told(uint64_t line, uint64_t path_length) {
    lines_sum += line;
    paths_sum += path_length;
    found_count++;
}

MAYBE static int print_sums(void) {
    printf("%" PRIu64 " %" PRIu64 " %" PRIu64 "\n", found_count, lines_sum, paths_sum);
    return 0;
}

#endif
