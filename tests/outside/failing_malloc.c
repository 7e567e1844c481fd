/* A shim over malloc, calloc and realloc: the call with the number FAIL_AT, counted from 1, finds no memory; with 0 none
   fails. The number of calls stands in the file that CALLS_FILE names, as 8 bytes, also where the program ends at once. */
#define _GNU_SOURCE
#include <dlfcn.h>
#include <errno.h>
#include <fcntl.h>
#include <stdatomic.h>
#include <stddef.h>
#include <stdlib.h>
#include <sys/mman.h>
#include <unistd.h>

static atomic_long own_calls;
static atomic_long *calls = &own_calls;
static long fail_at;
static void *(*real_malloc)(size_t);
static void *(*real_calloc)(size_t, size_t);
static void *(*real_realloc)(void *, size_t);

/* The counter in the file of this name. */
static atomic_long *counter_in(const char *name) {
    int file = open(name, O_CREAT | O_TRUNC | O_RDWR, 0644);
    if (file < 0 || ftruncate(file, sizeof(atomic_long)) != 0) return &own_calls;
    void *place = mmap(NULL, sizeof(atomic_long), PROT_READ | PROT_WRITE, MAP_SHARED, file, 0);
    close(file);
    return place == MAP_FAILED ? &own_calls : place;
}

__attribute__((constructor)) static void begin(void) {
    const char *number = getenv("FAIL_AT"), *name = getenv("CALLS_FILE");
    real_malloc = dlsym(RTLD_NEXT, "malloc");
    real_calloc = dlsym(RTLD_NEXT, "calloc");
    real_realloc = dlsym(RTLD_NEXT, "realloc");
    if (name) calls = counter_in(name);
    atomic_store(calls, 0);
    fail_at = number ? atol(number) : 0;
}

static int fails(void) {
    if (atomic_fetch_add(calls, 1) + 1 != fail_at) return 0;
    errno = ENOMEM;
    return 1;
}

void *malloc(size_t size) {
    if (!real_malloc) real_malloc = dlsym(RTLD_NEXT, "malloc");
    return fails() ? NULL : real_malloc(size);
}

void *calloc(size_t count, size_t size) {
    if (!real_calloc) real_calloc = dlsym(RTLD_NEXT, "calloc");
    return fails() ? NULL : real_calloc(count, size);
}

void *realloc(void *old, size_t size) {
    if (!real_realloc) real_realloc = dlsym(RTLD_NEXT, "realloc");
    return fails() ? NULL : real_realloc(old, size);
}
