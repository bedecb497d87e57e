/* Preloaded, it refuses the allocation of the number that STARVE has, counted from 1, and says so on standard error. Where
   STARVE_FROM names a file, they are counted from the first one on at which it is there. */
#define _GNU_SOURCE
#include <dlfcn.h>
#include <errno.h>
#include <stdatomic.h>
#include <stdlib.h>
#include <unistd.h>

/* The number of the next allocation, and of the one that is refused. */
static atomic_long next_one = 1;
static atomic_long refused = -1;

/* Whether they are counted by now. */
static int counts(void) {
    static atomic_int begun;
    const char *from;
    if (begun) return 1;
    from = getenv("STARVE_FROM");
    if (from && access(from, F_OK) != 0) return 0;
    begun = 1;
    return 1;
}

static int refuses(void) {
    if (refused < 0) {
        const char *number = getenv("STARVE");
        refused = number ? atol(number) : 0;
    }
    if (refused == 0 || !counts() || atomic_fetch_add(&next_one, 1) != refused) return 0;
    (void)!write(2, "starved\n", 8);
    errno = ENOMEM;
    return 1;
}

void *malloc(size_t size) {
    static void *(*next)(size_t);
    if (!next) next = dlsym(RTLD_NEXT, "malloc");
    return refuses() ? NULL : next(size);
}

void *realloc(void *old, size_t size) {
    static void *(*next)(void *, size_t);
    if (!next) next = dlsym(RTLD_NEXT, "realloc");
    return refuses() ? NULL : next(old, size);
}

void *aligned_alloc(size_t align, size_t size) {
    static void *(*next)(size_t, size_t);
    if (!next) next = dlsym(RTLD_NEXT, "aligned_alloc");
    return refuses() ? NULL : next(align, size);
}

int posix_memalign(void **out, size_t align, size_t size) {
    static int (*next)(void **, size_t, size_t);
    if (!next) next = dlsym(RTLD_NEXT, "posix_memalign");
    return refuses() ? ENOMEM : next(out, align, size);
}
