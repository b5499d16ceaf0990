/* Copies the sections of an ELF file by gimli_line_sections_of_elf: sections PROGRAM. What a byte of a compressed one takes is the
 * difference of two runs. */
#include "../../crates/gimli_c/examples/c/file.h"
#include "gimli_line.h"

int main(int argc, char **argv) {
    if (argc != 2) return 2;
    bytes file = read_file(argv[1]);
    gimli_line_sections sections = GIMLI_LINE_SECTIONS;
    stop_if(gimli_line_sections_of_elf(file.at, file.length, &sections));
    printf("%zu\n", sections.line_size);
    return 0;
}
