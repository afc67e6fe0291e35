/* Preloaded into a program, it refuses some of its requests for memory: REFUSE=K the one of that number, counted from 1, and REFUSE=K- all
   from that one on. A file that REQUESTS names gets the number of requests when the program ends. */
#include <errno.h>
#include <limits.h>
#include <stdio.h>
#include <stdlib.h>

extern void *__libc_malloc(size_t size);
extern void *__libc_realloc(void *old, size_t size);

static unsigned long requests, first = ULONG_MAX, last;

__attribute__((constructor)) static void begin(void) {
    char *word = getenv("REFUSE"), *end;
    if (word) {
        first = strtoul(word, &end, 10);
        last = *end == '-' ? ULONG_MAX : first;
    }
}

__attribute__((destructor)) static void tell(void) {
    unsigned long made = requests;
    FILE *file = getenv("REQUESTS") ? fopen(getenv("REQUESTS"), "w") : NULL;
    if (file) {
        fprintf(file, "%lu", made);
        fclose(file);
    }
}

static int refused(void) {
    requests++;
    if (requests < first || last < requests) return 0;
    errno = ENOMEM;
    return 1;
}

void *malloc(size_t size) { return refused() ? NULL : __libc_malloc(size); }

void *realloc(void *old, size_t size) { return refused() ? NULL : __libc_realloc(old, size); }
