// Makes one allocation of the program that it is loaded into fail: the one whose number, from 1, stands in FAILING_ALLOCATION.
// When that allocation comes, one byte goes to the file descriptor in FAILING_ALLOCATION_TELLS.
#define _GNU_SOURCE
#include <dlfcn.h>
#include <stddef.h>
#include <stdlib.h>
#include <unistd.h>

static void *(*real_malloc)(size_t);
static void *(*real_realloc)(void *, size_t);
static long left;
static int tells;

static long number(const char *name) {
    const char *text = getenv(name);
    return text ? atol(text) : 0;
}

__attribute__((constructor)) static void begin(void) {
    real_malloc = (void *(*)(size_t))dlsym(RTLD_NEXT, "malloc");
    real_realloc = (void *(*)(void *, size_t))dlsym(RTLD_NEXT, "realloc");
    tells = (int)number("FAILING_ALLOCATION_TELLS");
    left = number("FAILING_ALLOCATION");
}

static int fails(void) {
    if (left == 0 || --left > 0)
        return 0;
    return write(tells, "!", 1) == 1;
}

void *malloc(size_t size) {
    if (!real_malloc)
        begin();
    return fails() ? NULL : real_malloc(size);
}

void *realloc(void *old, size_t size) {
    return fails() ? NULL : real_realloc(old, size);
}
