/* A library to preload: refuses one call for memory, counted from 1 over malloc, calloc, realloc and posix_memalign, as if none were
 * left. REFUSE_AT tells which (none or 0: no call is refused). Where COUNT_TO names a file of eight bytes, the number of calls so far is
 * kept in it, however the program ends. Calls before the program's own code begins aren't counted. Built and used by tools/try-memory. */
#include <errno.h>
#include <fcntl.h>
#include <stdatomic.h>
#include <stddef.h>
#include <stdlib.h>
#include <sys/mman.h>
#include <unistd.h>

extern void *__libc_malloc(size_t size);
extern void *__libc_calloc(size_t count, size_t size);
extern void *__libc_realloc(void *old, size_t size);
extern void *__libc_memalign(size_t alignment, size_t size);

static atomic_ulong own_count;
static atomic_ulong *calls = &own_count;
static unsigned long refused_call;
static atomic_int has_begun;

static int is_refused(void) {
    if (!atomic_load(&has_begun)) {
        return 0;
    }
    return atomic_fetch_add(calls, 1) + 1 == refused_call;
}

static void count_in(const char *name) {
    int file = open(name, O_RDWR);
    if (file < 0) {
        return;
    }
    void *shared = mmap(NULL, sizeof(atomic_ulong), PROT_READ | PROT_WRITE, MAP_SHARED, file, 0);
    close(file);
    if (shared != MAP_FAILED) {
        calls = shared;
    }
}

__attribute__((constructor)) static void begin(void) {
    const char *at = getenv("REFUSE_AT");
    const char *name = getenv("COUNT_TO");
    refused_call = at ? strtoul(at, NULL, 10) : 0;
    if (name) {
        count_in(name);
    }
    atomic_store(&has_begun, 1);
}

void *malloc(size_t size) {
    if (is_refused()) {
        errno = ENOMEM;
        return NULL;
    }
    return __libc_malloc(size);
}

void *calloc(size_t count, size_t size) {
    if (is_refused()) {
        errno = ENOMEM;
        return NULL;
    }
    return __libc_calloc(count, size);
}

void *realloc(void *old, size_t size) {
    if (is_refused()) {
        errno = ENOMEM;
        return NULL;
    }
    return __libc_realloc(old, size);
}

int posix_memalign(void **place, size_t alignment, size_t size) {
    void *found = is_refused() ? NULL : __libc_memalign(alignment, size);
    if (!found) {
        return ENOMEM;
    }
    *place = found;
    return 0;
}
