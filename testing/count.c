/* Preloaded into a program: counts its calls of malloc and realloc, the bytes that they ask for, and the most bytes that
 * were allocated at once.
 *
 *   COUNTED=FILE        a file of 32 zeros, which become the three numbers and what is allocated, of eight bytes each
 */
#define _GNU_SOURCE
#include <dlfcn.h>
#include <fcntl.h>
#include <malloc.h>
#include <stdatomic.h>
#include <stdlib.h>
#include <sys/mman.h>

struct counts {
    atomic_ullong calls, bytes;
    atomic_llong most, now;
};

static struct counts unseen, *counts = &unseen;
static void *(*real_malloc)(size_t);
static void *(*real_realloc)(void *, size_t);
static void (*real_free)(void *);

#define REAL(call, name) (call ? call : (call = dlsym(RTLD_NEXT, name)))

/* The program may end without a word to its libraries, so the numbers stand in the file as they grow. */
__attribute__((constructor)) static void begin(void) {
    const char *name = getenv("COUNTED");
    int file = name ? open(name, O_RDWR) : -1;
    void *seen = mmap(NULL, sizeof unseen, PROT_READ | PROT_WRITE, MAP_SHARED, file, 0);
    if (seen == MAP_FAILED) abort();
    counts = seen;
}

static void count(size_t size) {
    atomic_fetch_add(&counts->calls, 1);
    atomic_fetch_add(&counts->bytes, size);
}

static long long size_of(void *at) {
    return at ? (long long)malloc_usable_size(at) : 0;
}

static void gain(long long size) {
    long long now = atomic_fetch_add(&counts->now, size) + size, most = atomic_load(&counts->most);
    while (most < now && !atomic_compare_exchange_weak(&counts->most, &most, now)) {
    }
}

void *malloc(size_t size) {
    count(size);
    void *at = REAL(real_malloc, "malloc")(size);
    gain(size_of(at));
    return at;
}

void *realloc(void *old, size_t size) {
    count(size);
    long long before = size_of(old);
    void *at = REAL(real_realloc, "realloc")(old, size);
    if (at) gain(size_of(at) - before);
    return at;
}

void free(void *at) {
    gain(-size_of(at));
    REAL(real_free, "free")(at);
}
