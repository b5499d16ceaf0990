/* A crash reporter: crash DIR crashes, and tells in the handler where. DIR/NAME.lines is the index of the loaded file whose last component
 * is NAME; one that isn't that file's own, by its build id, is passed over. For x86-64 and AArch64 with Linux. */
#define _GNU_SOURCE
#include <fcntl.h>
#include <link.h>
#include <signal.h>
#include <string.h>
#include <sys/mman.h>
#include <sys/stat.h>
#include <ucontext.h>
#include <unistd.h>

#include "file.h"
#include "gimli_line.h"

/* The addresses of a loaded segment, what they are above those of its file, and the index of that. */
typedef struct segment {
    uintptr_t first, last, base;
    const uint8_t *index;
    size_t length;
} segment;

static segment segments[1024];
static size_t segment_count;

/* The bytes of a file, mapped; null where there are none. */
static const uint8_t *map_file(const char *name, size_t *length) {
    struct stat about;
    int file = open(name, O_RDONLY);
    void *at = file >= 0 && fstat(file, &about) == 0 ? mmap(NULL, (size_t)about.st_size, PROT_READ, MAP_SHARED, file, 0) : MAP_FAILED;
    if (file >= 0) close(file);
    *length = at != MAP_FAILED ? (size_t)about.st_size : 0;
    return at != MAP_FAILED ? at : NULL;
}

/* The index of a file, if it stands in the directory, is sound, and has the file's build id. */
static const uint8_t *index_of(const char *file, const char *directory, size_t *length) {
    char real[4096], name[8192];
    if (realpath(file, real) == NULL) return NULL;
    snprintf(name, sizeof name, "%s/%s.lines", directory, strrchr(real, '/') + 1);
    size_t file_length, size;
    const uint8_t *bytes = map_file(real, &file_length), *index = map_file(name, length);
    uint8_t id[64];
    gimli_line_index found;
    bool same = bytes != NULL && index != NULL && gimli_line_build_id(bytes, file_length, id, sizeof id, &size) == GIMLI_LINE_OK &&
                gimli_line_index_open(index, *length, &found) == GIMLI_LINE_OK && found.identity_size == size && size != 0 &&
                memcmp(index + found.identity, id, size) == 0 && gimli_line_index_check(index, *length) == GIMLI_LINE_OK;
    if (bytes != NULL) munmap((void *)bytes, file_length);
    return same ? index : NULL;
}

/* Adds the segments of a loaded file that has an index. */
static int add_file(struct dl_phdr_info *info, size_t size, void *directory) {
    (void)size;
    size_t length;
    const uint8_t *index = index_of(info->dlpi_name[0] != 0 ? info->dlpi_name : "/proc/self/exe", directory, &length);
    for (int i = 0; index != NULL && i < info->dlpi_phnum && segment_count < sizeof segments / sizeof segments[0]; i++) {
        uintptr_t first = info->dlpi_addr + info->dlpi_phdr[i].p_vaddr;
        if (info->dlpi_phdr[i].p_type == PT_LOAD)
            segments[segment_count++] = (segment){first, first + info->dlpi_phdr[i].p_memsz, info->dlpi_addr, index, length};
    }
    return 0;
}

/* Writes a text; nothing else may be called in a handler. */
static void say(const char *text, size_t length) {
    if (write(STDOUT_FILENO, text, length) < 0) _exit(2);
}

/* Tells where the code was that the signal came to. */
static void report(int number, siginfo_t *about, void *context) {
    (void)number, (void)about;
#if defined __x86_64__
    uintptr_t at = (uintptr_t)((ucontext_t *)context)->uc_mcontext.gregs[REG_RIP];
#else
    uintptr_t at = (uintptr_t)((ucontext_t *)context)->uc_mcontext.pc;
#endif
    gimli_line_place place;
    const char *path = NULL;
    for (size_t i = 0; i < segment_count && path == NULL; i++) {
        const segment *of = &segments[i];
        if (of->first <= at && at < of->last && gimli_line_index_find(of->index, of->length, at - of->base, &place) == GIMLI_LINE_OK)
            path = gimli_line_place_path(of->index, &place);
    }
    if (path == NULL) {
        say("??\n", 3);
        _exit(1);
    }
    char digits[12];
    size_t first = sizeof digits;
    digits[--first] = '\n';
    for (uint32_t rest = place.line; rest != 0 || first == sizeof digits - 1; rest /= 10) digits[--first] = (char)('0' + rest % 10);
    digits[--first] = ':';
    say(path, place.path_size);
    say(digits + first, sizeof digits - first);
    _exit(0);
}

int main(int argc, char **argv) {
    if (argc != 2) return 2;
    dl_iterate_phdr(add_file, argv[1]); /* before the first signal; again after dlopen */
    struct sigaction action = {.sa_sigaction = report, .sa_flags = SA_SIGINFO};
    if (sigaction(SIGILL, &action, NULL) != 0 || sigaction(SIGTRAP, &action, NULL) != 0) return 2;
    __builtin_trap(); /* here */
}
