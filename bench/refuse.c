/* A heap that refuses one request, for bench/refuse.py. It is preloaded before the C library.
 *
 * REFUSE_NTH is the number of the request that is refused, counted from 1; 0 refuses none.
 * REFUSE_COUNT names a file of eight bytes in which the requests are counted.
 * Only requests of the program itself count, not those that the C library makes for itself.
 */
#define _GNU_SOURCE
#include <errno.h>
#include <fcntl.h>
#include <link.h>
#include <stdatomic.h>
#include <stdint.h>
#include <stdlib.h>
#include <sys/mman.h>

extern void *__libc_malloc(size_t size);
extern void *__libc_realloc(void *old, size_t size);

static atomic_ulong *requests;
static unsigned long refused;
static uintptr_t program_begin, program_end;

static int of_program(struct dl_phdr_info *info, size_t size, void *unused) {
    (void)size;
    (void)unused;
    for (int i = 0; i < info->dlpi_phnum; i++) {
        const ElfW(Phdr) *part = &info->dlpi_phdr[i];
        if (part->p_type == PT_LOAD && (part->p_flags & PF_X)) {
            program_begin = info->dlpi_addr + part->p_vaddr;
            program_end = program_begin + part->p_memsz;
        }
    }
    return 1; /* the program is the first object, so the others aren't visited */
}

__attribute__((constructor)) static void begin(void) {
    const char *nth = getenv("REFUSE_NTH"), *count = getenv("REFUSE_COUNT");
    int file = count ? open(count, O_RDWR) : -1;
    void *shared = mmap(NULL, sizeof *requests, PROT_READ | PROT_WRITE, MAP_SHARED, file, 0);
    if (shared == MAP_FAILED)
        return;
    refused = nth ? strtoul(nth, NULL, 10) : 0;
    dl_iterate_phdr(of_program, NULL);
    requests = shared;
}

static int is_refused(void *caller) {
    uintptr_t at = (uintptr_t)caller;
    if (!requests || at < program_begin || program_end <= at)
        return 0;
    if (atomic_fetch_add(requests, 1) + 1 != refused)
        return 0;
    errno = ENOMEM;
    return 1;
}

void *malloc(size_t size) {
    return is_refused(__builtin_return_address(0)) ? NULL : __libc_malloc(size);
}

void *realloc(void *old, size_t size) {
    return is_refused(__builtin_return_address(0)) ? NULL : __libc_realloc(old, size);
}
