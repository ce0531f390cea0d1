// Preloaded by tests/refused_memory: counts the allocations that the program itself asks for, and refuses some of them.
//
// REFUSE_FROM and REFUSE_TO are the numbers of the first and the last that are refused, counted from 1; with none, none is.
// When the program ends, it writes to the open file REPORT_TO how many were asked for and how many were refused.
#define _GNU_SOURCE
#include <errno.h>
#include <link.h>
#include <stddef.h>
#include <stdint.h>
#include <stdio.h>
#include <stdlib.h>

// glibc's own, under the names that a preloaded library may call.
void *__libc_malloc(size_t size);
void *__libc_calloc(size_t count, size_t size);
void *__libc_realloc(void *block, size_t size);

static uintptr_t program_begin, program_end;
static unsigned long asked, refused, refuse_from, refuse_to;

// The first object that is listed is the program.
static int find_program(struct dl_phdr_info *info, size_t size, void *unused) {
    (void)size;
    (void)unused;
    for (int i = 0; i < info->dlpi_phnum; i++) {
        const ElfW(Phdr) *part = &info->dlpi_phdr[i];
        if (part->p_type == PT_LOAD && (part->p_flags & PF_X)) {
            program_begin = info->dlpi_addr + part->p_vaddr;
            program_end = program_begin + part->p_memsz;
        }
    }
    return 1;
}

static unsigned long number_of(const char *name) {
    const char *text = getenv(name);
    return text == NULL ? 0 : strtoul(text, NULL, 10);
}

__attribute__((constructor)) static void begin(void) {
    refuse_from = number_of("REFUSE_FROM");
    refuse_to = number_of("REFUSE_TO");
    dl_iterate_phdr(find_program, NULL);
}

__attribute__((destructor)) static void report(void) {
    if (getenv("REPORT_TO") != NULL)
        dprintf((int)number_of("REPORT_TO"), "%lu %lu\n", asked, refused);
}

// Whether the call that returns there is refused. Calls of the C library and the loader aren't counted.
static int is_refused(void *back) {
    uintptr_t place = (uintptr_t)back;
    if (place < program_begin || place >= program_end)
        return 0;
    asked++;
    if (asked < refuse_from || asked > refuse_to)
        return 0;
    refused++;
    errno = ENOMEM;
    return 1;
}

void *malloc(size_t size) {
    return is_refused(__builtin_return_address(0)) ? NULL : __libc_malloc(size);
}

void *calloc(size_t count, size_t size) {
    return is_refused(__builtin_return_address(0)) ? NULL : __libc_calloc(count, size);
}

void *realloc(void *block, size_t size) {
    return is_refused(__builtin_return_address(0)) ? NULL : __libc_realloc(block, size);
}
