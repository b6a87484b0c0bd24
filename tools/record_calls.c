/*
 * Records what a program asks of its device, by LD_PRELOAD, and lets one of those calls fail.
 *
 * Each opening, write at a place, sync, read at a place and write to standard output is appended to the file named in
 * CALLS_RECORDED: its kind (O, W, S, G or R), whether it was made to fail (0 or 1), its place and its length in eight bytes
 * each, the least one first, and the bytes of a W or an R. The place of an O is 1 where it empties the file, and else 0. What
 * is opened to hold the place of a closed standard stream isn't recorded. tools/calls_file.py reads all this.
 *
 * With CALL_FAILS=N the write or sync of number N, counted from 1, fails as a faulty device does; with CALL_KEEPS=K the
 * first K bytes of such a write go out before. With READ_FAILS=N the read of number N fails. With CALLS_SHORT=K no write and no
 * read moves more than K bytes.
 */
#define _GNU_SOURCE
#include <dlfcn.h>
#include <errno.h>
#include <fcntl.h>
#include <stdarg.h>
#include <stdint.h>
#include <stdlib.h>
#include <string.h>
#include <sys/types.h>
#include <unistd.h>

static int record = -1;
static long calls = 0, failing_call = 0, kept_bytes = 0, reads = 0, failing_read = 0, most = 0;
static ssize_t (*real_write)(int, const void *, size_t);
static ssize_t (*real_pwrite)(int, const void *, size_t, off_t);
static ssize_t (*real_pread)(int, void *, size_t, off_t);
static int (*real_fdatasync)(int);
static int (*real_open)(const char *, int, ...);

static long number_in(const char *name) {
    const char *text = getenv(name);
    return text == NULL ? 0 : atol(text);
}

__attribute__((constructor)) static void begin(void) {
    real_write = dlsym(RTLD_NEXT, "write");
    real_pwrite = dlsym(RTLD_NEXT, "pwrite");
    real_pread = dlsym(RTLD_NEXT, "pread");
    real_fdatasync = dlsym(RTLD_NEXT, "fdatasync");
    real_open = dlsym(RTLD_NEXT, "open");
    failing_call = number_in("CALL_FAILS");
    kept_bytes = number_in("CALL_KEEPS");
    failing_read = number_in("READ_FAILS");
    most = number_in("CALLS_SHORT");
    const char *path = getenv("CALLS_RECORDED");
    if (path != NULL) record = real_open(path, O_WRONLY | O_CREAT | O_APPEND | O_CLOEXEC, 0600);
}

static void put(const void *bytes, size_t length) {
    if (real_write(record, bytes, length) != (ssize_t)length) abort();
}

static void note(char kind, int fails, uint64_t place, uint64_t length, const void *bytes) {
    unsigned char head[18] = {(unsigned char)kind, (unsigned char)fails};
    if (record < 0) return;
    for (int at = 0; at < 8; at++) {
        head[2 + at] = (unsigned char)(place >> (8 * at));
        head[10 + at] = (unsigned char)(length >> (8 * at));
    }
    put(head, sizeof head);
    if (bytes != NULL && length > 0) put(bytes, length);
}

static size_t moved(size_t length) {
    return most > 0 && length > (size_t)most ? (size_t)most : length;
}

static int fault(void) {
    errno = EIO;
    return -1;
}

int open(const char *path, int flags, ...) {
    va_list words;
    va_start(words, flags);
    mode_t mode = (flags & O_CREAT) ? va_arg(words, mode_t) : 0;
    va_end(words);
    if (strcmp(path, "/dev/null") != 0) note('O', 0, (flags & O_TRUNC) != 0, 0, NULL);
    return real_open(path, flags, mode);
}

ssize_t pwrite(int file, const void *bytes, size_t length, off_t place) {
    int fails = ++calls == failing_call;
    length = moved(length);
    note('W', fails, (uint64_t)place, length, bytes);
    if (!fails) return real_pwrite(file, bytes, length, place);
    if (kept_bytes > 0 && real_pwrite(file, bytes, (size_t)kept_bytes, place) != kept_bytes) abort();
    return fault();
}

ssize_t pwrite64(int file, const void *bytes, size_t length, off_t place) {
    return pwrite(file, bytes, length, place);
}

int fdatasync(int file) {
    int fails = ++calls == failing_call;
    note('S', fails, 0, 0, NULL);
    return fails ? fault() : real_fdatasync(file);
}

/* No call of the store syncs a file's times, or changes its length otherwise than by a write. */
int fsync(int file) {
    (void)file;
    abort();
}

int ftruncate(int file, off_t length) {
    (void)file, (void)length;
    abort();
}

ssize_t pread(int file, void *bytes, size_t length, off_t place) {
    int fails = ++reads == failing_read;
    length = moved(length);
    note('G', fails, (uint64_t)place, length, NULL);
    return fails ? fault() : real_pread(file, bytes, length, place);
}

ssize_t pread64(int file, void *bytes, size_t length, off_t place) {
    return pread(file, bytes, length, place);
}

ssize_t write(int file, const void *bytes, size_t length) {
    if (file == STDOUT_FILENO) note('R', 0, 0, length, bytes);
    return real_write(file, bytes, length);
}

ssize_t __write(int file, const void *bytes, size_t length) {
    return write(file, bytes, length);
}
