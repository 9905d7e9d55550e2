/* Starts a program many times, which is loaded once. It is preloaded before the program, and told by the environment:

     STARTS       the number of a socket, from which it takes a message for each start; where it isn't there, the program starts once

   A message has settings of the environment, an empty text, and the words of the command line, each with a zero byte behind it. Each
   start has the standard input, output and error of this process, which are files that it reads and writes from their begin, as is the
   one of notes (failing_calls.c). On the socket go back its status, as `wait` tells it, and up to which place it wrote the last three.

   All starts are made in one fork of this process, where the program would begin. When a start has ended, the fork's memory is put back:
   what can be written is as it was before, and what was asked for beyond it is gone. So a start finds nothing of an earlier one. Where
   the program ends by a signal, after PATIENCE seconds at the latest, or leaves memory that can't be put back so, the fork ends with
   it, this process tells the status, and the next start has a new fork. */
#define _GNU_SOURCE
#include <dlfcn.h>
#include <fcntl.h>
#include <malloc.h>
#include <setjmp.h>
#include <stdio.h>
#include <stdlib.h>
#include <string.h>
#include <sys/mman.h>
#include <sys/socket.h>
#include <sys/syscall.h>
#include <sys/wait.h>
#include <unistd.h>

#define PATIENCE 60
#define LONGEST 65536
#define MOST_PARTS 64
#define MOST_COPIED (1 << 22)

typedef int Main(int, char **, char **);
typedef void Hook(void);
typedef int Start(Main *, int, char **, Hook *, Hook *, Hook *, void *);

/* What isn't put back: it is shared memory. */
static struct {
    char message[LONGEST], *words[LONGEST], copies[MOST_COPIED];
    struct {
        char *at, *copy;
        long size;
    } parts[MOST_PARTS];
    int count, asks, files[4], is_running, status;
    long end;
    jmp_buf before;
} *kept;

/* Copies the private memory that can be written; of the stack only what begins here, the words and the environment of this process. */
static void keep_memory(char *stack) {
    char *line, *rest = kept->message, *copy = kept->copies, kind[5];
    unsigned long begin, end;
    long got, size = 0;
    const int maps = open("/proc/self/maps", O_RDONLY);
    while ((got = read(maps, rest + size, LONGEST - 1 - size)) > 0)
        size += got;
    close(maps);
    rest[size] = 0;
    kept->count = 0;
    while ((line = strsep(&rest, "\n"))) {
        if (sscanf(line, "%lx-%lx %4s", &begin, &end, kind) != 3 || strcmp(kind, "rw-p") != 0)
            continue;
        char *at = (char *)begin < stack && stack < (char *)end ? stack : (char *)begin;
        size = (char *)end - at;
        if (kept->count == MOST_PARTS || copy + size > kept->copies + MOST_COPIED)
            _exit(1);
        kept->parts[kept->count].at = at;
        kept->parts[kept->count].copy = memcpy(copy, at, size);
        kept->parts[kept->count++].size = size;
        copy += size;
    }
    if (kept->count == 0)
        _exit(1);
    kept->end = syscall(SYS_brk, 0);
}

static void put_memory_back(void) {
    for (int part = 0; part < kept->count; part++)
        memcpy(kept->parts[part].at, kept->parts[part].copy, kept->parts[part].size);
    syscall(SYS_brk, kept->end);
}

/* The last that a start's `exit` does. Memory that was mapped for it alone isn't found again: then the fork ends. */
static void ended(int status, void *nothing) {
    if (mallinfo2().hblks > 0)
        return;
    kept->status = (status & 255) << 8;
    longjmp(kept->before, 1);
}

static void tell(int status) {
    long answer[4] = {status};
    for (int at = 1; at < 4; at++)
        answer[at] = lseek(kept->files[at], 0, SEEK_CUR);
    kept->is_running = 0;
    if (send(kept->asks, answer, sizeof answer, MSG_NOSIGNAL) < 0)
        _exit(1);
}

/* Sets the environment and the words of a start by a message of so many bytes. Answers how many words there are. */
static int told(long length) {
    char *at = kept->message;
    int count = 0;
    at[length] = 0;
    for (; *at; at += strlen(at) + 1)
        putenv(at);
    for (at++; at < kept->message + length; at += strlen(at) + 1)
        kept->words[count++] = at;
    kept->words[count] = NULL;
    return count;
}

/* The next message, before which the files stand at their begin; where nothing more is asked, the fork ends. */
static long taken(void) {
    const long length = recv(kept->asks, kept->message, LONGEST - 1, 0);
    if (length <= 0)
        _exit(0);
    for (int at = 0; at < 4; at++)
        lseek(kept->files[at], 0, SEEK_SET);
    kept->is_running = 1;
    return length;
}

int __libc_start_main(Main *main, int count, char **given, Hook *init, Hook *fini, Hook *end, void *stack) {
    Start *next = (Start *)dlsym(RTLD_NEXT, "__libc_start_main");
    const char *starts = getenv("STARTS");
    int status;
    if (!starts)
        return next(main, count, given, init, fini, end, stack);
    kept = mmap(NULL, sizeof *kept, PROT_READ | PROT_WRITE, MAP_SHARED | MAP_ANONYMOUS, -1, 0);
    if (kept == MAP_FAILED)
        _exit(1);
    kept->asks = atoi(starts);
    for (int at = 0; at < 3; at++)
        kept->files[at] = at;
    kept->files[3] = atoi(getenv("FAIL_NOTES"));
    for (;;) {
        const pid_t child = fork();
        if (child == 0)
            break;
        if (waitpid(child, &status, 0) != child || !kept->is_running)
            _exit(1);
        tell(status);
    }
    keep_memory(stack);
    if (setjmp(kept->before)) {
        alarm(0);
        put_memory_back();
        tell(kept->status);
    }
    const long length = taken();
    alarm(PATIENCE);
    on_exit(ended, NULL);
    return next(main, told(length), kept->words, init, fini, end, stack);
}
