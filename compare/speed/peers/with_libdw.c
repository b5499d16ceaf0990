/* By libdw of elfutils. */
#include <elfutils/libdwfl.h>
#include <unistd.h>

#include "ask.h"

int main(int argc, char **argv) {
    static const Dwfl_Callbacks callbacks = {.find_elf = dwfl_build_id_find_elf,
                                             .find_debuginfo = dwfl_standard_find_debuginfo,
                                             .section_address = dwfl_offline_section_address};
    Dwfl *all = argc != 5 ? NULL : dwfl_begin(&callbacks);
    if (all == NULL) return 2;
    Dwfl_Module *module = dwfl_report_offline(all, argv[1], argv[1], -1);
    if (module == NULL || dwfl_report_end(all, NULL, NULL) != 0) return 2;
    GElf_Addr bias;
    if (dwfl_module_getdwarf(module, &bias) == NULL) return 2;
    uint64_t lowest = strtoull(argv[3], NULL, 16), highest = strtoull(argv[4], NULL, 16);
    for (long i = atol(argv[2]); i > 0; i--) {
        Dwfl_Line *line = dwfl_module_getsrc(module, next_address(lowest, highest) + bias);
        int number = 0;
        const char *path = line == NULL ? NULL : dwfl_lineinfo(line, NULL, &number, NULL, NULL, NULL);
        if (path != NULL) told((uint64_t)number, strlen(path));
    }
    dwfl_end(all);
    return print_sums();
}
