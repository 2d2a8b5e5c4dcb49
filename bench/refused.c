// Refuses one allocation of a program, for bench/refused.py, which loads it before the C library.
//
// REFUSED_AT says which one of those that the program itself asks for is refused, counted from 1, 0 for none; REFUSED_ON, where it is
// set, refuses all behind it too. What the C library asks for is neither counted nor refused. REFUSED_COUNT is a file of eight bytes,
// in which the count stands while the program runs, and so at its end too, however it ends.
#define _GNU_SOURCE
#include <errno.h>
#include <fcntl.h>
#include <link.h>
#include <stdint.h>
#include <stdlib.h>
#include <sys/mman.h>
#include <unistd.h>

extern void *__libc_malloc(size_t);
extern void *__libc_calloc(size_t, size_t);
extern void *__libc_realloc(void *, size_t);
extern void *__libc_memalign(size_t, size_t);

static uint64_t own_count;
static uint64_t *count = &own_count;
static uint64_t refused;
static int refuses_on;
static uintptr_t program_start, program_end;

// The first object that the loader tells is the program.
static int note_program(struct dl_phdr_info *info, size_t size, void *unused) {
    (void)size, (void)unused;
    for (int i = 0; i < info->dlpi_phnum; i++) {
        const ElfW(Phdr) *part = &info->dlpi_phdr[i];
        uintptr_t start = info->dlpi_addr + part->p_vaddr, end = start + part->p_memsz;
        if (part->p_type == PT_LOAD && end > program_end)
            program_end = end;
        if (part->p_type == PT_LOAD && (program_start == 0 || start < program_start))
            program_start = start;
    }
    return 1;
}

__attribute__((constructor)) static void begin(void) {
    const char *at = getenv("REFUSED_AT"), *file = getenv("REFUSED_COUNT");
    int opened = file ? open(file, O_RDWR) : -1;
    refused = at ? strtoull(at, NULL, 10) : 0;
    refuses_on = getenv("REFUSED_ON") != NULL;
    dl_iterate_phdr(note_program, NULL);
    if (opened >= 0) {
        void *shared = mmap(NULL, sizeof *count, PROT_READ | PROT_WRITE, MAP_SHARED, opened, 0);
        if (shared != MAP_FAILED)
            count = shared;
        close(opened);
    }
}

// Counts an allocation that the program at this address asks for, and says whether it is refused.
static int is_refused(void *caller) {
    uintptr_t at = (uintptr_t)caller;
    if (at < program_start || at >= program_end)
        return 0;
    uint64_t number = __atomic_add_fetch(count, 1, __ATOMIC_RELAXED);
    if (refused == 0 || number < refused || (number > refused && !refuses_on))
        return 0;
    errno = ENOMEM;
    return 1;
}

#define IS_REFUSED is_refused(__builtin_return_address(0))

void *malloc(size_t size) { return IS_REFUSED ? NULL : __libc_malloc(size); }

void *calloc(size_t items, size_t size) { return IS_REFUSED ? NULL : __libc_calloc(items, size); }

void *realloc(void *from, size_t size) { return IS_REFUSED ? NULL : __libc_realloc(from, size); }

void *memalign(size_t align, size_t size) { return IS_REFUSED ? NULL : __libc_memalign(align, size); }

void *aligned_alloc(size_t align, size_t size) { return IS_REFUSED ? NULL : __libc_memalign(align, size); }

int posix_memalign(void **into, size_t align, size_t size) {
    void *found = IS_REFUSED ? NULL : __libc_memalign(align, size);
    if (found == NULL)
        return ENOMEM;
    *into = found;
    return 0;
}
