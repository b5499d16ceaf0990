/* Prints rows of a program's line information.
 *
 *   addr2line PROGRAM ADDRESS..      the row that each address belongs to, and the next one, by linetool's numbers, or none
 *   addr2line PROGRAM                every row of every unit */
#include "file.h"
#include "gimli_line.h"

static void print_row(const gimli_line_row *row) {
    printf("%016llx %llu %llu %llu %llu %llu %llu ", (unsigned long long)row->address, (unsigned long long)row->op_index,
           (unsigned long long)row->file, (unsigned long long)row->line, (unsigned long long)row->column, (unsigned long long)row->isa,
           (unsigned long long)row->discriminator);
    if (row->flags == 0) printf("-");
    for (int flag = 0; flag < 5; flag++)
        if (row->flags >> flag & 1) putchar("sbepq"[flag]);
    putchar('\n');
}

/* All rows of the unit at an offset. The status is that of its program's first fault, which comes after the rows before it. */
static gimli_line_status print_rows(const gimli_line_sections *sections, size_t offset, uint64_t count) {
    gimli_line_row *rows = malloc((count + 1) * sizeof *rows);
    if (rows == NULL) return GIMLI_LINE_OUT_OF_MEMORY;
    gimli_line_status status = gimli_line_read_rows(sections, offset, 0, rows, count, &count);
    for (uint64_t i = 0; i < count; i++) print_row(&rows[i]);
    free(rows);
    return status;
}

/* The two rows of an address: those of the first unit that has it. */
static void print_pair(const gimli_line_sections *sections, uint64_t address) {
    gimli_line_row first, second;
    gimli_line_unit unit;
    for (size_t offset = 0; offset < sections->line_size; offset = unit.next) {
        if (gimli_line_read_unit(sections, offset, &unit) != GIMLI_LINE_OK) continue;
        if (gimli_line_find_row(sections, offset, address, &first, &second) != GIMLI_LINE_OK) continue;
        print_row(&first);
        print_row(&second);
        return;
    }
    puts("none");
}

int main(int argc, char **argv) {
    if (argc < 2) {
        fprintf(stderr, "usage: addr2line PROGRAM [ADDRESS..]\n");
        return 2;
    }
    bytes program = read_file(argv[1]);
    gimli_line_sections sections = GIMLI_LINE_SECTIONS;
    stop_if(gimli_line_sections_of_elf(program.at, program.length, &sections));
    free(program.at); /* the sections are copies */
    int faults = 0;
    gimli_line_unit unit;
    for (size_t offset = 0; argc == 2 && offset < sections.line_size; offset = unit.next) {
        gimli_line_status status = gimli_line_read_unit(&sections, offset, &unit);
        if (status == GIMLI_LINE_OK) status = print_rows(&sections, offset, unit.rows);
        if (status == GIMLI_LINE_OK) continue;
        fprintf(stderr, "unit at %zu: %s\n", offset, gimli_line_status_sentence(status));
        faults++;
    }
    for (int i = 2; i < argc; i++) print_pair(&sections, strtoull(argv[i], NULL, 16));
    gimli_line_sections_free(&sections);
    return faults != 0;
}
