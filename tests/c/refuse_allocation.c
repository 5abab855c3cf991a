/* Refuses one allocation of a program that is linked dynamically with the GNU C library, or some
 * of them by chance, and lists all.
 *
 *     cc -shared -fPIC -O2 -o refuse.so tests/c/refuse_allocation.c
 *     REFUSE=7 REFUSED=refused ALLOCATIONS=sizes LD_PRELOAD=./refuse.so PROGRAM
 *
 * The allocation of that number is refused, counted from 1 once this library was made ready, just before `main`: a call of malloc,
 * calloc, realloc, posix_memalign or aligned_alloc. Then the file that REFUSED names is made, with one byte.
 *
 * With REFUSE_ONE_IN=N each allocation behind the number that REFUSE names is refused with a chance of 1 in N, by number always the
 * same ones. The file gets a byte for each.
 *
 * When the program ends, the file that ALLOCATIONS names gets lines with the bytes that each allocation asked for, in order: one line up
 * to the first text that the program writes to standard output and that begins with `event `, and one more behind each of these. */
#define _GNU_SOURCE
#include <errno.h>
#include <fcntl.h>
#include <stddef.h>
#include <stdio.h>
#include <stdlib.h>
#include <string.h>
#include <sys/syscall.h>
#include <unistd.h>

/* The C library's own, under the names that no program takes from it. */
void *__libc_malloc(size_t);
void *__libc_calloc(size_t, size_t);
void *__libc_realloc(void *, size_t);
void *__libc_memalign(size_t, size_t);

/* How many allocations and texts are listed at most. */
enum { MOST = 1 << 16 };

/* Which allocation is refused, 0 for none, how many there were, and the bytes that the first ones asked for. */
static unsigned long refused, allocations, sizes[MOST];
/* Of how many allocations one is refused by chance, 0 for none, and the state of chance. */
static unsigned long one_in, chance = 88172645463325252;
/* How many texts there were, and how many allocations before each of the first ones. */
static unsigned long texts, before[MOST];

__attribute__((constructor)) static void begin(void) {
    const char *number = getenv("REFUSE");
    refused = number == NULL ? 0 : strtoul(number, NULL, 10);
    number = getenv("REFUSE_ONE_IN");
    one_in = number == NULL ? 0 : strtoul(number, NULL, 10);
}

/* Marsaglia's xorshift of 64 bits. */
static int is_refused_by_chance(void) {
    chance ^= chance << 13;
    chance ^= chance >> 7;
    chance ^= chance << 17;
    return allocations > refused && chance % one_in == 0;
}

static int is_refused(size_t size) {
    if (allocations < MOST)
        sizes[allocations] = size;
    allocations++;
    if (one_in != 0 ? !is_refused_by_chance() : allocations != refused)
        return 0;
    const char *path = getenv("REFUSED");
    if (path != NULL) {
        int file = open(path, O_WRONLY | O_CREAT | O_APPEND, 0666);
        syscall(SYS_write, file, ".", 1);
        close(file);
    }
    errno = ENOMEM;
    return 1;
}

void *malloc(size_t size) {
    return is_refused(size) ? NULL : __libc_malloc(size);
}

void *calloc(size_t number, size_t size) {
    return is_refused(number * size) ? NULL : __libc_calloc(number, size);
}

void *realloc(void *block, size_t size) {
    return is_refused(size) ? NULL : __libc_realloc(block, size);
}

void *aligned_alloc(size_t alignment, size_t size) {
    return is_refused(size) ? NULL : __libc_memalign(alignment, size);
}

int posix_memalign(void **block, size_t alignment, size_t size) {
    void *made = aligned_alloc(alignment, size);
    if (made == NULL)
        return ENOMEM;
    *block = made;
    return 0;
}

ssize_t write(int file, const void *bytes, size_t length) {
    static const char mark[] = "event ";
    if (file == STDOUT_FILENO && length >= sizeof mark - 1 && memcmp(bytes, mark, sizeof mark - 1) == 0 && texts < MOST)
        before[texts++] = allocations;
    return syscall(SYS_write, file, bytes, length);
}

__attribute__((destructor)) static void list(void) {
    const char *path = getenv("ALLOCATIONS");
    unsigned long count = allocations, text = 0;
    if (path == NULL || count > MOST)
        return;
    int file = open(path, O_WRONLY | O_CREAT | O_TRUNC, 0666);
    for (unsigned long i = 0; i < count; i++) {
        for (; text < texts && before[text] <= i; text++)
            dprintf(file, "\n");
        dprintf(file, "%lu ", sizes[i]);
    }
    for (; text < texts; text++)
        dprintf(file, "\n");
    close(file);
}
