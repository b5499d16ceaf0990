/* A target for libFuzzer: any bytes are sections, an index and an ELF file, which are asked all that ask.h asks. See fuzz.sh.
 *
 * The library is no part of what the fuzzer counts, since it is built by another compiler. So the target counts for it: the numbers
 * that are answered, and how many rows, files and units there are. */
#define _GNU_SOURCE
#define SEEN(kind, value) seen(kind, value)
#include <stdint.h>

__attribute__((section("__libfuzzer_extra_counters"))) static uint8_t counters[4096];

static void seen(unsigned kind, uint64_t value) {
    unsigned bits = 0;
    while (value >> bits != 0 && bits < 16) bits++;
    counters[(kind * 64 + (value < 47 ? (unsigned)value : 47 + bits)) % sizeof counters] = 1;
}

#include "ask.h"

int LLVMFuzzerTestOneInput(const uint8_t *data, size_t size);

/* The first byte has the order of bytes and the address size; the next one says how many of the last bytes are each section but
 * .debug_line and .debug_info. */
int LLVMFuzzerTestOneInput(const uint8_t *data, size_t size) {
    if (size < 2) return 0;
    is_quick = true;
    size_t rest = data[1] < size - 2 ? data[1] : size - 2, length = size - 2 - rest;
    const uint8_t *first = data + 2, *last = first + length;
    in = (gimli_line_sections){sizeof in,         first,       last, last, first, last, last, length, rest, rest, length, rest, rest, 0,
                               data[0] >> 1 & 15, data[0] & 1, NULL};
    ask_units();
    ask_index(first, length, 0, 1 << 22);

    uint8_t *index;
    uint32_t made = gimli_line_index_of_sections(&in, "id", 2, &index, &length);
    seen(15, made);
    is(made == GIMLI_LINE_OK ? ask_index(index, length, 0, 1 << 12) == GIMLI_LINE_OK : index == NULL && length == 0,
       "the index of any sections");
    free(index);

    gimli_line_sections taken = GIMLI_LINE_SECTIONS;
    uint32_t is_elf = gimli_line_sections_of_elf(in.line, in.line_size, &taken);
    uint32_t status = gimli_line_build_id(in.line, in.line_size, NULL, 0, &length);
    uint32_t checksum = 0, linked = gimli_line_debug_link(in.line, in.line_size, NULL, 0, &length, &checksum);
    is((linked == GIMLI_LINE_NO_ELF) == (status == GIMLI_LINE_NO_ELF), "a debug link");
    is((is_elf == GIMLI_LINE_BAD_SECTION) == (taken.bad_section != NULL), "the name of a bad section");
    is(is_elf != GIMLI_LINE_NO_ELF || (status == GIMLI_LINE_NO_ELF && taken.line == NULL), "no ELF file");
    gimli_line_sections_free(&taken);
    seen(16, is_elf);
    seen(17, status);
    return 0;
}
