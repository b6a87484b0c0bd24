/*
 * Refuses one request for memory of a program, by LD_PRELOAD.
 *
 * The requests are counted from the program's start; the one of the number in REFUSED_REQUEST is refused, and no other.
 * At the program's end the file named in REFUSAL_REPORT gets a line: "refused", or "unreached" where the program made
 * fewer requests; and behind it for each write to standard output how many had been made by then, and how many in all.
 */
#define _GNU_SOURCE
#include <dlfcn.h>
#include <errno.h>
#include <stdio.h>
#include <stdlib.h>
#include <unistd.h>

static void *(*real_malloc)(size_t);
static void *(*real_calloc)(size_t, size_t);
static void *(*real_realloc)(void *, size_t);
static int (*real_posix_memalign)(void **, size_t, size_t);
static void *(*real_aligned_alloc)(size_t, size_t);
static ssize_t (*real_write)(int, const void *, size_t);

static long wanted = -1;
static long counted = -1;
static int refused = 0;

/* The requests that came before each write to standard output. */
#define MOST_WRITES 1000000
static long behind[MOST_WRITES];
static int writes = 0;

__attribute__((constructor)) static void begin(void) {
    real_malloc = dlsym(RTLD_NEXT, "malloc");
    real_calloc = dlsym(RTLD_NEXT, "calloc");
    real_realloc = dlsym(RTLD_NEXT, "realloc");
    real_posix_memalign = dlsym(RTLD_NEXT, "posix_memalign");
    real_aligned_alloc = dlsym(RTLD_NEXT, "aligned_alloc");
    real_write = dlsym(RTLD_NEXT, "write");
    const char *number = getenv("REFUSED_REQUEST");
    if (number != NULL) wanted = atol(number);
    counted = 0;
}

__attribute__((destructor)) static void end(void) {
    long made = counted;
    wanted = -1;
    const char *path = getenv("REFUSAL_REPORT");
    FILE *report = path == NULL ? NULL : fopen(path, "w");
    if (report == NULL) return;
    fputs(refused ? "refused\n" : "unreached\n", report);
    for (int at = 0; at < writes; at++) fprintf(report, "%ld\n", behind[at]);
    fprintf(report, "%ld\n", made);
    fclose(report);
}

/* Whether this request is the one to refuse. */
static int refuses(void) {
    if (counted < 0) return 0;
    counted += 1;
    if (counted != wanted) return 0;
    refused = 1;
    errno = ENOMEM;
    return 1;
}

void *malloc(size_t size) {
    if (real_malloc == NULL) real_malloc = dlsym(RTLD_NEXT, "malloc");
    return refuses() ? NULL : real_malloc(size);
}

void *calloc(size_t items, size_t size) {
    /* The search for calloc may itself ask for memory: it gets none, which it takes. */
    static int searching = 0;
    if (real_calloc == NULL) {
        if (searching) return NULL;
        searching = 1;
        real_calloc = dlsym(RTLD_NEXT, "calloc");
        searching = 0;
    }
    return refuses() ? NULL : real_calloc(items, size);
}

void *realloc(void *old, size_t size) {
    if (real_realloc == NULL) real_realloc = dlsym(RTLD_NEXT, "realloc");
    return refuses() ? NULL : real_realloc(old, size);
}

int posix_memalign(void **place, size_t alignment, size_t size) {
    if (real_posix_memalign == NULL) real_posix_memalign = dlsym(RTLD_NEXT, "posix_memalign");
    return refuses() ? ENOMEM : real_posix_memalign(place, alignment, size);
}

void *aligned_alloc(size_t alignment, size_t size) {
    if (real_aligned_alloc == NULL) real_aligned_alloc = dlsym(RTLD_NEXT, "aligned_alloc");
    return refuses() ? NULL : real_aligned_alloc(alignment, size);
}

ssize_t write(int file, const void *bytes, size_t length) {
    if (real_write == NULL) real_write = dlsym(RTLD_NEXT, "write");
    if (file == STDOUT_FILENO) {
        if (writes == MOST_WRITES) abort();
        behind[writes++] = counted;
    }
    return real_write(file, bytes, length);
}

ssize_t __write(int file, const void *bytes, size_t length) {
    return write(file, bytes, length);
}
