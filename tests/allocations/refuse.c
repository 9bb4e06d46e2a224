/* Refuses one allocation of a program, or none, and counts them. Loaded before the C library:
 *
 *     REFUSE=N COUNT=FILE LD_PRELOAD=./refuse.so PROGRAM
 *
 * The Nth call of malloc, calloc, realloc, aligned_alloc or posix_memalign finds no memory. FILE has the
 * number of these calls, as a `long` of the machine, however the program ends.
 */
#define _GNU_SOURCE
#include <dlfcn.h>
#include <errno.h>
#include <fcntl.h>
#include <stdlib.h>
#include <sys/mman.h>
#include <unistd.h>

static void *(*real_malloc)(size_t);
static void *(*real_calloc)(size_t, size_t);
static void *(*real_realloc)(void *, size_t);
static void *(*real_aligned_alloc)(size_t, size_t);
static int (*real_posix_memalign)(void **, size_t, size_t);

static long uncounted, wanted;
static long *calls = &uncounted;

/* dlsym itself may call calloc before real_calloc is known. */
static _Alignas(16) char early[65536];
static size_t early_used;

__attribute__((constructor)) static void begin(void) {
    if (real_malloc)
        return;
    real_malloc = dlsym(RTLD_NEXT, "malloc");
    real_calloc = dlsym(RTLD_NEXT, "calloc");
    real_realloc = dlsym(RTLD_NEXT, "realloc");
    real_aligned_alloc = dlsym(RTLD_NEXT, "aligned_alloc");
    real_posix_memalign = dlsym(RTLD_NEXT, "posix_memalign");
    const char *name = getenv("COUNT");
    int file = name ? open(name, O_RDWR | O_CREAT, 0600) : -1;
    if (file >= 0 && ftruncate(file, sizeof *calls) == 0) {
        long *shared = mmap(NULL, sizeof *calls, PROT_READ | PROT_WRITE, MAP_SHARED, file, 0);
        if (shared != MAP_FAILED)
            calls = shared;
        close(file);
    }
    const char *number = getenv("REFUSE");
    wanted = number ? atol(number) : 0;
}

static int is_refused(void) {
    begin();
    return __atomic_add_fetch(calls, 1, __ATOMIC_SEQ_CST) == wanted;
}

static void *no_memory(void) {
    errno = ENOMEM;
    return NULL;
}

void *malloc(size_t size) {
    return is_refused() ? no_memory() : real_malloc(size);
}

void *calloc(size_t count, size_t size) {
    if (!real_calloc) {
        void *place = early + early_used;
        early_used += (count * size + 15) & ~(size_t)15;
        return early_used <= sizeof early ? place : NULL;
    }
    return is_refused() ? no_memory() : real_calloc(count, size);
}

void *realloc(void *place, size_t size) {
    return is_refused() ? no_memory() : real_realloc(place, size);
}

void *aligned_alloc(size_t alignment, size_t size) {
    return is_refused() ? no_memory() : real_aligned_alloc(alignment, size);
}

int posix_memalign(void **place, size_t alignment, size_t size) {
    return is_refused() ? ENOMEM : real_posix_memalign(place, alignment, size);
}
