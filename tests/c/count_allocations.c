/* Counts the allocations of a program that is linked dynamically.
 *
 *     cc -shared -fPIC -O2 -o count.so tests/c/count_allocations.c
 *     ALLOCATIONS=counts LD_PRELOAD=./count.so PROGRAM
 *
 * When the program ends, the file that ALLOCATIONS names gets one line: `allocations N, of B bytes, freed F`.
 * N is how many calls of malloc, calloc, realloc, posix_memalign and aligned_alloc were passed on, B the bytes
 * that they asked for, and F how many calls of free gave a block back. A realloc counts once, with its whole new
 * size, whether the block moves or not. Without the variable nothing is written. */
#define _GNU_SOURCE
#include <dlfcn.h>
#include <errno.h>
#include <fcntl.h>
#include <stdint.h>
#include <stdio.h>
#include <stdlib.h>
#include <string.h>
#include <unistd.h>

static void *(*next_malloc)(size_t);
static void *(*next_calloc)(size_t, size_t);
static void *(*next_realloc)(void *, size_t);
static int (*next_posix_memalign)(void **, size_t, size_t);
static void *(*next_aligned_alloc)(size_t, size_t);
static void (*next_free)(void *);

static unsigned long allocations, bytes, freed;

/* Memory for the calls that dlsym itself makes, before the next functions are known. It is all zero, it is not
   counted, and it is never given back. */
static char early[16384] __attribute__((aligned(16)));
static size_t early_used;

static int is_early(const void *block) {
    return (uintptr_t)block - (uintptr_t)early < sizeof early;
}

static void *take_early(size_t size) {
    if (size > sizeof early - early_used)
        return NULL;
    void *block = early + early_used;
    early_used += (size + 15) / 16 * 16;
    return block;
}

/* Finds the next functions, once. False while that is under way: then the caller stands inside dlsym. */
static int found(void) {
    static enum { UNKNOWN, UNDER_WAY, FOUND } state = UNKNOWN;
    if (state == UNKNOWN) {
        state = UNDER_WAY;
        next_malloc = dlsym(RTLD_NEXT, "malloc");
        next_calloc = dlsym(RTLD_NEXT, "calloc");
        next_realloc = dlsym(RTLD_NEXT, "realloc");
        next_posix_memalign = dlsym(RTLD_NEXT, "posix_memalign");
        next_aligned_alloc = dlsym(RTLD_NEXT, "aligned_alloc");
        next_free = dlsym(RTLD_NEXT, "free");
        state = FOUND;
    }
    return state == FOUND;
}

static void count(size_t size) {
    __atomic_fetch_add(&allocations, 1, __ATOMIC_RELAXED);
    __atomic_fetch_add(&bytes, size, __ATOMIC_RELAXED);
}

void *malloc(size_t size) {
    if (!found())
        return take_early(size);
    return count(size), next_malloc(size);
}

void *calloc(size_t number, size_t size) {
    if (!found())
        return take_early(number * size);
    return count(number * size), next_calloc(number, size);
}

void *realloc(void *block, size_t size) {
    if (found() && !is_early(block))
        return count(size), next_realloc(block, size);
    /* How long an early block is was not kept: the copy may take what stands behind it too. */
    void *copy = malloc(size);
    if (copy != NULL && block != NULL) {
        size_t left = (size_t)(early + sizeof early - (char *)block);
        memmove(copy, block, size < left ? size : left);
    }
    return copy;
}

int posix_memalign(void **block, size_t alignment, size_t size) {
    if (!found())
        return ENOMEM;
    return count(size), next_posix_memalign(block, alignment, size);
}

void *aligned_alloc(size_t alignment, size_t size) {
    if (!found())
        return NULL;
    return count(size), next_aligned_alloc(alignment, size);
}

void free(void *block) {
    if (block == NULL || is_early(block) || !found())
        return;
    __atomic_fetch_add(&freed, 1, __ATOMIC_RELAXED);
    next_free(block);
}

__attribute__((destructor)) static void tell(void) {
    const char *path = getenv("ALLOCATIONS");
    int file = path == NULL ? -1 : open(path, O_WRONLY | O_CREAT | O_TRUNC, 0666);
    if (file < 0)
        return;
    dprintf(file, "allocations %lu, of %lu bytes, freed %lu\n", allocations, bytes, freed);
    close(file);
}
