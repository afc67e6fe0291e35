/* Preloaded into a program, it makes its streams worse. Where INTERRUPTED names a file, a signal comes every millisecond and breaks off
   what the program waits for; at its end the file gets the numbers of opens, reads and writes that were broken off. Where SHRINK is a
   number, a file is cut to nothing as soon as so many bytes of it were read. */
#define _GNU_SOURCE
#include <errno.h>
#include <fcntl.h>
#include <signal.h>
#include <stdio.h>
#include <stdlib.h>
#include <sys/syscall.h>
#include <sys/time.h>
#include <unistd.h>

static unsigned long opens, reads, writes;
static long left = -1;

static void nothing(int number) { (void)number; }

__attribute__((constructor)) static void begin(void) {
    struct sigaction action = {.sa_handler = nothing};
    struct itimerval each = {{0, 1000}, {0, 1000}};
    if (getenv("SHRINK")) left = atol(getenv("SHRINK"));
    if (!getenv("INTERRUPTED")) return;
    sigaction(SIGALRM, &action, NULL);
    setitimer(ITIMER_REAL, &each, NULL);
}

__attribute__((destructor)) static void tell(void) {
    struct itimerval never = {{0, 0}, {0, 0}};
    char *name = getenv("INTERRUPTED");
    setitimer(ITIMER_REAL, &never, NULL);
    FILE *file = name ? fopen(name, "w") : NULL;
    if (file) {
        fprintf(file, "%lu %lu %lu", opens, reads, writes);
        fclose(file);
    }
}

static long counted(long done, unsigned long *broken) {
    *broken += done < 0 && errno == EINTR;
    return done;
}

static void shrink(int file) {
    char path[32];
    snprintf(path, sizeof path, "/proc/self/fd/%d", file);
    if (truncate(path, 0) == 0) left = -1;
}

int open(const char *path, int flags, ...) { return counted(syscall(SYS_openat, AT_FDCWD, path, flags, 0), &opens); }

ssize_t read(int file, void *into, size_t size) {
    if (left == 0) shrink(file);
    if (left > 0 && size > (size_t)left) size = left;
    long done = counted(syscall(SYS_read, file, into, size), &reads);
    if (left > 0 && done > 0) left -= done;
    return done;
}

ssize_t write(int file, const void *from, size_t size) { return counted(syscall(SYS_write, file, from, size), &writes); }
