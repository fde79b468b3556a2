/* Loaded before a program: refuses its allocation of the number REFUSE, from 1, and says so on standard error. */
#define _GNU_SOURCE
#include <dlfcn.h>
#include <stdatomic.h>
#include <stddef.h>
#include <stdlib.h>
#include <unistd.h>

static atomic_long made;

static int is_refused(void) {
    if (atomic_fetch_add(&made, 1) + 1 != atol(getenv("REFUSE")))
        return 0;
    return write(2, "refused\n", 8) == 8;
}

void *malloc(size_t bytes) {
    void *(*real)(size_t) = (void *(*)(size_t))dlsym(RTLD_NEXT, "malloc");
    return is_refused() ? NULL : real(bytes);
}

void *realloc(void *old, size_t bytes) {
    void *(*real)(void *, size_t) = (void *(*)(void *, size_t))dlsym(RTLD_NEXT, "realloc");
    return is_refused() ? NULL : real(old, bytes);
}
