/* What gimli_line_sections_of_elf says of the ELF files that are named: a line for each, with the sentence of its status, and the name of
 * the section that can't be read. */
#include "file.h"
#include "gimli_line.h"

int main(int argc, char **argv) {
    for (int i = 1; i < argc; i++) {
        bytes file = read_file(argv[i]);
        gimli_line_sections sections = GIMLI_LINE_SECTIONS;
        sections.bad_section = "none yet";
        gimli_line_status status = gimli_line_sections_of_elf(file.at, file.length, &sections);
        if ((status == GIMLI_LINE_BAD_SECTION) != (sections.bad_section != NULL)) abort();
        printf("%s: %s\n", sections.bad_section != NULL ? sections.bad_section : "-", gimli_line_status_sentence(status));
        gimli_line_sections_free(&sections);
        uint8_t *index;
        size_t size;
        if ((gimli_line_index_of_elf(file.at, file.length, &index, &size) == GIMLI_LINE_BAD_SECTION) != (status == GIMLI_LINE_BAD_SECTION))
            abort();
        free(index);
        free(file.at);
    }
    return 0;
}
