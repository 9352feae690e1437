/* Loaded before the C library (LD_PRELOAD) it counts the program's own calls of malloc and realloc, from 1, and refuses the one of number REFUSE_AT; with REFUSE_ALL=1 all
   from there on. When the program ends it writes to the file REFUSE_TO: how many there were, how many were refused, how many blocks are still held, and how many
   descriptors are open. Calls of the C library itself are none of these. */
#define _GNU_SOURCE
#include <dirent.h>
#include <dlfcn.h>
#include <link.h>
#include <stdint.h>
#include <stdio.h>
#include <stdlib.h>
#include <string.h>
#include <errno.h>

static uintptr_t program_from, program_to;
static unsigned long refuse_at, calls, refused;
static long held;
static int all, ready;
static void *(*next_malloc)(size_t);
static void *(*next_realloc)(void *, size_t);
static void (*next_free)(void *);

/* The first object is the program. */
static int find_program(struct dl_phdr_info *info, size_t size, void *data) {
    (void)size, (void)data;
    for (int at = 0; at < info->dlpi_phnum; at++) {
        const ElfW(Phdr) *part = &info->dlpi_phdr[at];
        if (part->p_type == PT_LOAD && part->p_flags & PF_X) {
            program_from = info->dlpi_addr + part->p_vaddr;
            program_to = program_from + part->p_memsz;
        }
    }
    return 1;
}

__attribute__((constructor)) static void begin(void) {
    const char *told = getenv("REFUSE_AT");
    next_malloc = dlsym(RTLD_NEXT, "malloc");
    next_realloc = dlsym(RTLD_NEXT, "realloc");
    next_free = dlsym(RTLD_NEXT, "free");
    refuse_at = told ? strtoul(told, NULL, 10) : 0;
    all = getenv("REFUSE_ALL") != NULL;
    dl_iterate_phdr(find_program, NULL);
    ready = 1;
}

static int is_refused(void *caller) {
    uintptr_t from = (uintptr_t)caller;
    if (!ready || from < program_from || from >= program_to)
        return 0;
    calls++;
    if (refuse_at == 0 || (all ? calls < refuse_at : calls != refuse_at))
        return 0;
    refused++;
    errno = ENOMEM;
    return 1;
}

static int is_own(void *caller) { return ready && (uintptr_t)caller >= program_from && (uintptr_t)caller < program_to; }

void *malloc(size_t size) {
    void *caller = __builtin_return_address(0), *made;
    if (!next_malloc)
        next_malloc = dlsym(RTLD_NEXT, "malloc");
    if (is_refused(caller))
        return NULL;
    made = next_malloc(size);
    if (made && is_own(caller))
        held++;
    return made;
}

void *realloc(void *old, size_t size) {
    void *caller = __builtin_return_address(0), *made;
    if (!next_realloc)
        next_realloc = dlsym(RTLD_NEXT, "realloc");
    if (is_refused(caller))
        return NULL;
    made = next_realloc(old, size);
    if (made && !old && is_own(caller))
        held++;
    return made;
}

void free(void *old) {
    if (!next_free)
        next_free = dlsym(RTLD_NEXT, "free");
    if (old && is_own(__builtin_return_address(0)))
        held--;
    next_free(old);
}

__attribute__((destructor)) static void end(void) {
    const char *path = getenv("REFUSE_TO");
    FILE *to;
    int open = 0;
    ready = 0;
    DIR *folder = opendir("/proc/self/fd");
    while (folder && readdir(folder))
        open++;
    if (folder)
        closedir(folder);
    if (path && (to = fopen(path, "w"))) {
        /* (`.`, `..` and the folder's own) */
        fprintf(to, "%lu %lu %ld %d\n", calls, refused, held, open - 3);
        fclose(to);
    }
}
