/* Put in front of the C library by LD_PRELOAD, this counts the calls of malloc and realloc, from 1, and refuses the one whose
   number REFUSED says. The file that COUNTED names has at each moment how many calls there were: a number of this machine, of
   8 bytes. */
#define _GNU_SOURCE
#include <dlfcn.h>
#include <errno.h>
#include <fcntl.h>
#include <stdatomic.h>
#include <stdint.h>
#include <stdlib.h>
#include <sys/mman.h>
#include <unistd.h>

static _Atomic uint64_t unnamed;
static _Atomic uint64_t *calls = &unnamed;
static uint64_t refused;
static void *(*next_malloc)(size_t);
static void *(*next_realloc)(void *, size_t);

/* The number in the file; where there is none, one that nobody sees. */
static _Atomic uint64_t *number_in(const char *name) {
    int file = name ? open(name, O_RDWR | O_CREAT | O_TRUNC, 0600) : -1;
    if (file < 0 || ftruncate(file, sizeof(uint64_t)) != 0)
        return &unnamed;
    void *page = mmap(NULL, sizeof(uint64_t), PROT_READ | PROT_WRITE, MAP_SHARED, file, 0);
    close(file);
    return page == MAP_FAILED ? &unnamed : page;
}

__attribute__((constructor)) static void begin(void) {
    next_malloc = dlsym(RTLD_NEXT, "malloc");
    next_realloc = dlsym(RTLD_NEXT, "realloc");
    calls = number_in(getenv("COUNTED"));
    const char *number = getenv("REFUSED");
    refused = number ? strtoull(number, NULL, 10) : 0;
}

static int is_refused(void) {
    if (atomic_fetch_add(calls, 1) + 1 != refused)
        return 0;
    errno = ENOMEM;
    return 1;
}

void *malloc(size_t size) {
    if (!next_malloc)
        next_malloc = dlsym(RTLD_NEXT, "malloc");
    return is_refused() ? NULL : next_malloc(size);
}

void *realloc(void *old, size_t size) {
    if (!next_realloc)
        next_realloc = dlsym(RTLD_NEXT, "realloc");
    return is_refused() ? NULL : next_realloc(old, size);
}
