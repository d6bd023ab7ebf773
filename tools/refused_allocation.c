/* Refuses one call for memory of a process, for tools/refuse-allocations.
 *
 * This file is preloaded and replaces the calls of the C library that allocate memory. Calls that the program makes itself are counted apart
 * from those that the library makes for it (threads, streams); the address to which a call returns shows which it is. Calls before
 * this file is initialized, while the loader is at work, succeed and aren't counted.
 *
 * NFP_REFUSED names a file of five numbers of eight bytes, which is shared with the process that started this one: whose calls are refused
 * (0 the program's, 1 the library's); which call (counted from 1; 0 for none); whether all later ones are refused too; and the numbers of
 * calls that the program and the library made.
 */
#define _GNU_SOURCE
#include <errno.h>
#include <fcntl.h>
#include <link.h>
#include <stdatomic.h>
#include <stddef.h>
#include <stdint.h>
#include <stdlib.h>
#include <sys/mman.h>
#include <unistd.h>

extern void *__libc_malloc(size_t);
extern void *__libc_calloc(size_t, size_t);
extern void *__libc_realloc(void *, size_t);
extern void *__libc_memalign(size_t, size_t);

struct shared {
    uint64_t whose, at, onwards;
    _Atomic uint64_t made[2];
};

static struct shared *shared;
static uintptr_t program_begin, program_end;

/* The first object that is reported is the program. */
static int find_program(struct dl_phdr_info *info, size_t size, void *data) {
    (void)size, (void)data;
    program_begin = UINTPTR_MAX;
    for (int i = 0; i < info->dlpi_phnum; i++) {
        if (info->dlpi_phdr[i].p_type != PT_LOAD) continue;
        uintptr_t begin = info->dlpi_addr + info->dlpi_phdr[i].p_vaddr;
        uintptr_t end = begin + info->dlpi_phdr[i].p_memsz;
        if (begin < program_begin) program_begin = begin;
        if (end > program_end) program_end = end;
    }
    return 1;
}

__attribute__((constructor)) static void begin(void) {
    const char *name = getenv("NFP_REFUSED");
    int file = name ? open(name, O_RDWR | O_CLOEXEC) : -1;
    if (file < 0) return;
    void *place = mmap(NULL, sizeof(struct shared), PROT_READ | PROT_WRITE, MAP_SHARED, file, 0);
    close(file);
    if (place == MAP_FAILED) return;
    dl_iterate_phdr(find_program, NULL);
    shared = place;
}

static int is_refused(void *caller) {
    if (!shared) return 0;
    uintptr_t place = (uintptr_t)caller;
    int who = !(program_begin <= place && place < program_end);
    uint64_t count = atomic_fetch_add(&shared->made[who], 1) + 1;
    return shared->at && (uint64_t)who == shared->whose && (count == shared->at || (shared->onwards && count > shared->at));
}

#define REFUSE_WHERE_DUE                               \
    if (is_refused(__builtin_return_address(0))) {     \
        errno = ENOMEM;                                \
        return NULL;                                   \
    }

void *malloc(size_t size) {
    REFUSE_WHERE_DUE
    return __libc_malloc(size);
}

void *calloc(size_t count, size_t size) {
    REFUSE_WHERE_DUE
    return __libc_calloc(count, size);
}

void *realloc(void *old, size_t size) {
    REFUSE_WHERE_DUE
    return __libc_realloc(old, size);
}

void *memalign(size_t alignment, size_t size) {
    REFUSE_WHERE_DUE
    return __libc_memalign(alignment, size);
}

void *aligned_alloc(size_t alignment, size_t size) {
    REFUSE_WHERE_DUE
    return __libc_memalign(alignment, size);
}

int posix_memalign(void **made, size_t alignment, size_t size) {
    if (is_refused(__builtin_return_address(0))) return ENOMEM;
    void *place = __libc_memalign(alignment, size);
    if (!place) return ENOMEM;
    *made = place;
    return 0;
}
