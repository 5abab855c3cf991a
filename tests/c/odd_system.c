/* A system that does what no test can ask of a real one, to a program that is linked dynamically.
 *
 *     cc -shared -fPIC -O2 -o odd.so tests/c/odd_system.c
 *     ODD_SYSTEM=clock LD_PRELOAD=./odd.so PROGRAM
 *
 * With `clock` the system's clock is a second before 1970; with `port` no program may have a port; with `sync` each
 * fdatasync takes a fifth of a second more, and is a byte in the file that ODD_SYNCS names: once there is a file of that
 * name and `.fails`, one more is done and the others fail. Else the system is called itself, and not the C library: an
 * unproved program, whose checks are before the library, bears that alone. */
#define _GNU_SOURCE
#include <errno.h>
#include <fcntl.h>
#include <stdio.h>
#include <stdlib.h>
#include <string.h>
#include <sys/socket.h>
#include <sys/syscall.h>
#include <time.h>
#include <unistd.h>

static int is_odd(const char *what) {
    const char *wanted = getenv("ODD_SYSTEM");
    return wanted != NULL && strcmp(wanted, what) == 0;
}

int clock_gettime(clockid_t clock, struct timespec *moment) {
    if (clock != CLOCK_REALTIME || !is_odd("clock"))
        return syscall(SYS_clock_gettime, clock, moment);
    *moment = (struct timespec){.tv_sec = -1};
    return 0;
}

int bind(int stream, const struct sockaddr *address, socklen_t length) {
    if (!is_odd("port"))
        return syscall(SYS_bind, stream, address, length);
    errno = EACCES;
    return -1;
}

static int notes_sync(const char *name) {
    static int since_fails = 0;
    char fails[4096];
    int file = syscall(SYS_openat, AT_FDCWD, name, O_WRONLY | O_APPEND | O_CREAT, 0600);
    syscall(SYS_write, file, "s", 1);
    syscall(SYS_close, file);
    snprintf(fails, sizeof fails, "%s.fails", name);
    if (syscall(SYS_faccessat, AT_FDCWD, fails, F_OK) == 0)
        since_fails++;
    return since_fails < 2;
}

int fdatasync(int file) {
    const char *name = getenv("ODD_SYNCS");
    struct timespec fifth = {.tv_nsec = 200000000};
    if (!is_odd("sync") || name == NULL)
        return syscall(SYS_fdatasync, file);
    syscall(SYS_nanosleep, &fifth, NULL);
    if (notes_sync(name))
        return syscall(SYS_fdatasync, file);
    errno = EIO;
    return -1;
}
