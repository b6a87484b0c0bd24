/*
 * Answers each line with the device calls of a commit, and does nothing else: so it is the limit
 * for a program that takes lines from a pipe.
 *
 * usage: bare_program FILE FIRST
 *
 * For each line of the standard input it writes the 4,096 bytes after a slot's gate in FILE, makes
 * an fdatasync, writes the gate's byte, makes an fdatasync, and writes a reply "ok N" to the
 * standard output. FILE has the length of a store. 128 slots of each half are used in turn, as a
 * store uses them whose records take a slot each and whose checkpoints begin at 128; FIRST is the
 * number of the first one, from 0. The status is 0 at the end of the input.
 */
#define _GNU_SOURCE
#include <err.h>
#include <fcntl.h>
#include <stdio.h>
#include <stdlib.h>
#include <string.h>
#include <unistd.h>

enum { PAGE = 4096, FIRST_PAGE = 2, PAGES_OF_HALF = 256, USED_OF_HALF = 128, READ = 8192 };

static const unsigned char OPEN_GATE = 0xA5;

static void put(int file, const void *bytes, size_t length, off_t at) {
    if (pwrite(file, bytes, length, at) != (ssize_t)length) err(1, "write");
    if (fdatasync(file) != 0) err(1, "sync");
}

/* Writes a record whose bytes are the line, and opens its gate. */
static void commit(int file, long number, const char *line, size_t length) {
    static unsigned char record[PAGE];
    long page = FIRST_PAGE + number / USED_OF_HALF % 2 * PAGES_OF_HALF + number % USED_OF_HALF;
    off_t gate = (off_t)PAGE * page;
    memset(record, 0, sizeof record);
    for (int at = 0; at < 8; at++) record[at] = (unsigned char)(number >> (56 - 8 * at));
    record[11] = (unsigned char)length;
    memcpy(record + 12, line, length < PAGE - 12 ? length : PAGE - 12);
    put(file, record, sizeof record, gate + 1);
    put(file, &OPEN_GATE, 1, gate);
}

static void answer(long number) {
    char reply[32];
    int length = snprintf(reply, sizeof reply, "ok %ld\n", number);
    if (write(STDOUT_FILENO, reply, (size_t)length) != length) err(1, "reply");
}

int main(int count, char **words) {
    static char text[READ];
    if (count != 3) errx(2, "usage: bare_program FILE FIRST");
    int file = open(words[1], O_RDWR);
    if (file < 0) err(1, "%s", words[1]);
    long number = atol(words[2]);
    for (size_t kept = 0;;) {
        ssize_t added = read(STDIN_FILENO, text + kept, sizeof text - kept);
        if (added < 0) err(1, "read");
        if (added == 0) return 0;
        char *line = text, *end = text + kept + added, *feed;
        while ((feed = memchr(line, '\n', (size_t)(end - line))) != NULL) {
            commit(file, number, line, (size_t)(feed - line));
            answer(++number);
            line = feed + 1;
        }
        kept = (size_t)(end - line);
        memmove(text, line, kept);
    }
}
