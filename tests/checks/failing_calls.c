/* Fails calls of the C library by their number. It is preloaded before a program, behind many_starts.c, and told by the environment:

     FAIL_CALL    which calls: memory, input (reads of standard input) or output (writes to standard output)
     FAIL_FIRST   the number of the first of them that fails, from 1; where it isn't there, none does
     FAIL_LAST    the number of the last that fails; where it isn't there, each from the first on
     FAIL_EMPTY   where it is there, a failing write takes no byte in place of an error
     FAIL_SHORT   where it is there, reads and writes move one byte at most
     FAIL_NOTES   the number of an open file, to which goes a line for each call that fails, and for what follows it:
                  'failed', 'again' (the next such call), 'more' (each later one), each with the size that was asked
                  for; and the line 'reading N' at the first read, after N requests for memory */
#define _GNU_SOURCE
#include <dlfcn.h>
#include <errno.h>
#include <stdio.h>
#include <stdlib.h>
#include <string.h>
#include <sys/syscall.h>
#include <unistd.h>

static const char *failing = "";
static long first, last, requests, calls, failed_at;
static int ready, empty, one_byte, reading, notes = -1;

static void note(const char *word, long number) {
    char line[64];
    int length = snprintf(line, sizeof line, "%s %ld\n", word, number);
    if (notes >= 0)
        syscall(SYS_write, notes, line, length);
}

static void begin(void) {
    const char *text;
    if ((text = getenv("FAIL_CALL")))
        failing = text;
    if ((text = getenv("FAIL_FIRST")))
        first = atol(text);
    if ((text = getenv("FAIL_LAST")))
        last = atol(text);
    if ((text = getenv("FAIL_NOTES")))
        notes = atoi(text);
    empty = getenv("FAIL_EMPTY") != NULL;
    one_byte = getenv("FAIL_SHORT") != NULL;
    ready = 1;
}

typedef int Main(int, char **, char **);
typedef void Hook(void);
typedef int Start(Main *, int, char **, Hook *, Hook *, Hook *, void *);

/* Begins at each start, before the program's own code, but after the loader's: what that asks for isn't counted. */
int __libc_start_main(Main *main, int count, char **words, Hook *init, Hook *fini, Hook *end, void *stack) {
    Start *next = (Start *)dlsym(RTLD_NEXT, "__libc_start_main");
    begin();
    return next(main, count, words, init, fini, end, stack);
}

/* Whether this call, of so many bytes, is one that fails. */
static int fails(const char *call, long size) {
    if (!ready || strcmp(call, failing) != 0)
        return 0;
    calls++;
    if (first > 0 && calls >= first && (last == 0 || calls <= last)) {
        failed_at = calls;
        note("failed", size);
        return 1;
    }
    if (failed_at > 0)
        note(calls == failed_at + 1 ? "again" : "more", size);
    return 0;
}

static int refused(long size) {
    requests += ready;
    if (!fails("memory", size))
        return 0;
    errno = ENOMEM;
    return 1;
}

void *malloc(size_t size) {
    static void *(*next)(size_t);
    if (!next)
        next = dlsym(RTLD_NEXT, "malloc");
    return refused(size) ? NULL : next(size);
}

void *calloc(size_t count, size_t size) {
    static void *(*next)(size_t, size_t);
    if (!next)
        next = dlsym(RTLD_NEXT, "calloc");
    return refused(count * size) ? NULL : next(count, size);
}

void *realloc(void *old, size_t size) {
    static void *(*next)(void *, size_t);
    if (!next)
        next = dlsym(RTLD_NEXT, "realloc");
    return refused(size) ? NULL : next(old, size);
}

void *aligned_alloc(size_t alignment, size_t size) {
    static void *(*next)(size_t, size_t);
    if (!next)
        next = dlsym(RTLD_NEXT, "aligned_alloc");
    return refused(size) ? NULL : next(alignment, size);
}

int posix_memalign(void **place, size_t alignment, size_t size) {
    static int (*next)(void **, size_t, size_t);
    if (!next)
        next = dlsym(RTLD_NEXT, "posix_memalign");
    return refused(size) ? ENOMEM : next(place, alignment, size);
}

ssize_t read(int file, void *bytes, size_t size) {
    if (file == STDIN_FILENO) {
        if (!reading)
            note("reading", requests);
        reading = 1;
        if (fails("input", size)) {
            errno = EIO;
            return -1;
        }
        if (one_byte && size > 1)
            size = 1;
    }
    return syscall(SYS_read, file, bytes, size);
}

ssize_t write(int file, const void *bytes, size_t size) {
    if (file == STDOUT_FILENO) {
        if (fails("output", size)) {
            if (empty)
                return 0;
            errno = EIO;
            return -1;
        }
        if (one_byte && size > 1)
            size = 1;
    }
    return syscall(SYS_write, file, bytes, size);
}
