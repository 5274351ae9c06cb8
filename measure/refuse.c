// Refuses allocations of a program, for LD_PRELOAD (measure/refuse.sh). Only calls that the program itself makes are counted, those that
// return into the code of the executable: what the C library and the loader ask for, as for a thread that is started, is always given.
// The calls are numbered from 0. REFUSE_FROM and REFUSE_UP_TO are numbers: the calls from the first on, up to before the second, get
// NULL and ENOMEM; where they are not set none does. REFUSE_TOLD is a file, made here, that is told two numbers of 8 bytes as the
// program runs, so also where it ends by `_exit` or by a signal: the calls so far, and the refused ones among them.
#define _GNU_SOURCE
#include <errno.h>
#include <fcntl.h>
#include <link.h>
#include <stdatomic.h>
#include <stdbool.h>
#include <stdint.h>
#include <stdlib.h>
#include <sys/mman.h>
#include <unistd.h>

// The calls of the C library under other names.
extern void *__libc_malloc(size_t size);
extern void *__libc_calloc(size_t count, size_t size);
extern void *__libc_realloc(void *old, size_t size);
extern void *__libc_memalign(size_t alignment, size_t size);

struct told {
    _Atomic uint64_t calls, refused;
};

static struct told *told; // NULL until the constructor has run: nothing is counted then
static uint64_t from = UINT64_MAX, up_to = UINT64_MAX;
static uintptr_t text_start, text_end;

// The code of the executable, which is the first entry.
static int find_text(struct dl_phdr_info *info, size_t size, void *data) {
    (void)size, (void)data;
    for (int k = 0; k < info->dlpi_phnum; k++) {
        const ElfW(Phdr) *part = &info->dlpi_phdr[k];
        if (part->p_type == PT_LOAD && (part->p_flags & PF_X)) {
            text_start = info->dlpi_addr + part->p_vaddr;
            text_end = text_start + part->p_memsz;
        }
    }
    return 1;
}

static uint64_t number_of(const char *name) {
    const char *text = getenv(name);
    return text ? strtoull(text, NULL, 10) : UINT64_MAX;
}

__attribute__((constructor)) static void start(void) {
    const char *name = getenv("REFUSE_TOLD");
    int file = name ? open(name, O_RDWR | O_CREAT | O_TRUNC | O_CLOEXEC, 0600) : -1;
    if (file < 0 || ftruncate(file, sizeof(struct told)) != 0) abort();
    void *at = mmap(NULL, sizeof(struct told), PROT_READ | PROT_WRITE, MAP_SHARED, file, 0);
    if (at == MAP_FAILED) abort();
    close(file);
    from = number_of("REFUSE_FROM");
    up_to = number_of("REFUSE_UP_TO");
    dl_iterate_phdr(find_text, NULL);
    told = at;
}

// Counts a call that returns to this place, and says whether it is refused.
static bool refuses(void *place) {
    uintptr_t code = (uintptr_t)place;
    if (!told || code < text_start || code >= text_end) return false;
    uint64_t number = atomic_fetch_add(&told->calls, 1);
    if (number < from || number >= up_to) return false;
    atomic_fetch_add(&told->refused, 1);
    errno = ENOMEM;
    return true;
}

void *malloc(size_t size) {
    return refuses(__builtin_return_address(0)) ? NULL : __libc_malloc(size);
}

void *calloc(size_t count, size_t size) {
    return refuses(__builtin_return_address(0)) ? NULL : __libc_calloc(count, size);
}

void *realloc(void *old, size_t size) {
    return refuses(__builtin_return_address(0)) ? NULL : __libc_realloc(old, size);
}

void *aligned_alloc(size_t alignment, size_t size) {
    return refuses(__builtin_return_address(0)) ? NULL : __libc_memalign(alignment, size);
}

int posix_memalign(void **at, size_t alignment, size_t size) {
    if (refuses(__builtin_return_address(0))) return ENOMEM;
    void *found = __libc_memalign(alignment, size);
    if (!found) return ENOMEM;
    *at = found;
    return 0;
}
