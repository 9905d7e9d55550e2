/* Runs a command, and breaks it at one of the system calls by which it, or any process that it starts, changes a file.

     failing_files KIND NUMBER NOTES COMMAND..

   KIND says what comes to pass at the call of this number, from 1:
     none   nothing
     kill   after the call, every process of the command is killed
     int, term, hup
            after the call, the command's process group gets this signal
     fail   the call fails, for want of room (ENOSPC), and no other does
     full   it fails so, and each later one that needs room; what gives room back, as a removal, doesn't
     replace
            after the call, if it changed an open file, another file with the same bytes takes that one's name, as `sed -i` does it
   NOTES is a file to which goes a line for each call, as it is made: its name, `room` where it needs room and else `-`, and the path,
   or the number of the open file, that it changes. What goes to pipes, terminals and devices counts for nothing. Where nothing is
   broken, a line `refused NUMBER -` follows for a call that the system refused, as a mkdir of a folder that is there.

   The status is the command's, or 128 and the number of the signal that ended it; 125 where nothing could be run so. Every process
   that the command started has ended by then. It is a tracer (ptrace), since the C library makes many of these calls from inside, as
   the writes of printf, where no preloaded library sees them. */
#define _GNU_SOURCE
#include <errno.h>
#include <fcntl.h>
#include <linux/filter.h>
#include <linux/seccomp.h>
#include <signal.h>
#include <stddef.h>
#include <stdio.h>
#include <stdlib.h>
#include <string.h>
#include <sys/prctl.h>
#include <sys/ptrace.h>
#include <sys/stat.h>
#include <sys/syscall.h>
#include <sys/uio.h>
#include <sys/user.h>
#include <sys/wait.h>
#include <unistd.h>

#define CLONE_OF_A_FILE 0x40049409
#define NOT_RUN 125

/* Which argument has what a call changes, and whether that is a path or an open file; and whether it needs room. */
typedef struct {
    long number;
    const char *name;
    int argument;
    int is_open;
    int needs_room;
} Call;

static const Call CALLS[] = {
    {SYS_open, "open", 0, 0, 1},
    {SYS_openat, "open", 1, 0, 1},
    {SYS_creat, "open", 0, 0, 1},
    {SYS_write, "write", 0, 1, 1},
    {SYS_pwrite64, "write", 0, 1, 1},
    {SYS_writev, "write", 0, 1, 1},
    {SYS_pwritev, "write", 0, 1, 1},
    {SYS_pwritev2, "write", 0, 1, 1},
    {SYS_sendfile, "write", 0, 1, 1},
    {SYS_splice, "write", 2, 1, 1},
    {SYS_copy_file_range, "write", 2, 1, 1},
    {SYS_ioctl, "write", 0, 1, 1},
    {SYS_fallocate, "write", 0, 1, 1},
    {SYS_truncate, "truncate", 0, 0, 1},
    {SYS_ftruncate, "truncate", 0, 1, 1},
    {SYS_mkdir, "mkdir", 0, 0, 1},
    {SYS_mkdirat, "mkdir", 1, 0, 1},
    {SYS_mknod, "mknod", 0, 0, 1},
    {SYS_mknodat, "mknod", 1, 0, 1},
    {SYS_link, "link", 1, 0, 1},
    {SYS_linkat, "link", 3, 0, 1},
    {SYS_symlink, "symlink", 1, 0, 1},
    {SYS_symlinkat, "symlink", 2, 0, 1},
    {SYS_rename, "rename", 1, 0, 0},
    {SYS_renameat, "rename", 3, 0, 0},
    {SYS_renameat2, "rename", 3, 0, 0},
    {SYS_unlink, "unlink", 0, 0, 0},
    {SYS_unlinkat, "unlink", 1, 0, 0},
    {SYS_rmdir, "rmdir", 0, 0, 0},
    {SYS_chmod, "chmod", 0, 0, 0},
    {SYS_fchmod, "chmod", 0, 1, 0},
    {SYS_fchmodat, "chmod", 1, 0, 0},
};
#define COUNT (sizeof CALLS / sizeof *CALLS)

static const char *kind;
static long number, seen, noted;
static FILE *notes;

/* The process that is stopped after the call at which the command is broken, and the open file that the call changed, or -1. */
static pid_t broken;
static int changed_file = -1;

/* The processes that are traced, and the number of the call that each is in; 0 where nobody waits for the call's end. */
typedef struct {
    pid_t process;
    long call;
} Traced;

static Traced *traced;
static size_t many, most;

static void stop(const char *what) {
    fprintf(stderr, "failing_files: %s: %s\n", what, strerror(errno));
    exit(NOT_RUN);
}

static int signal_of_kind(void) {
    return strcmp(kind, "int") == 0 ? SIGINT : strcmp(kind, "term") == 0 ? SIGTERM : strcmp(kind, "hup") == 0 ? SIGHUP : 0;
}

/* Has the system stop this process at each of these calls; of those that open a file, where they may make or empty one. */
static void filter_calls(void) {
    struct sock_filter lines[3 * COUNT + 16], *line = lines;
    struct sock_fprog program = {.filter = lines};
    *line++ = (struct sock_filter)BPF_STMT(BPF_LD | BPF_W | BPF_ABS, offsetof(struct seccomp_data, nr));
    for (size_t i = 0; i < COUNT; i++) {
        int flags = CALLS[i].number == SYS_open ? 1 : CALLS[i].number == SYS_openat ? 2 : 0;
        if (flags) {
            *line++ = (struct sock_filter)BPF_JUMP(BPF_JMP | BPF_JEQ | BPF_K, CALLS[i].number, 0, 4);
            *line++ = (struct sock_filter)BPF_STMT(BPF_LD | BPF_W | BPF_ABS, offsetof(struct seccomp_data, args[flags]));
            *line++ = (struct sock_filter)BPF_JUMP(BPF_JMP | BPF_JSET | BPF_K, O_CREAT | O_TRUNC, 0, 1);
            *line++ = (struct sock_filter)BPF_STMT(BPF_RET | BPF_K, SECCOMP_RET_TRACE);
            *line++ = (struct sock_filter)BPF_STMT(BPF_RET | BPF_K, SECCOMP_RET_ALLOW);
        } else {
            *line++ = (struct sock_filter)BPF_JUMP(BPF_JMP | BPF_JEQ | BPF_K, CALLS[i].number, 0, 1);
            *line++ = (struct sock_filter)BPF_STMT(BPF_RET | BPF_K, SECCOMP_RET_TRACE);
        }
    }
    *line++ = (struct sock_filter)BPF_STMT(BPF_RET | BPF_K, SECCOMP_RET_ALLOW);
    program.len = line - lines;
    if (prctl(PR_SET_NO_NEW_PRIVS, 1, 0, 0, 0) || prctl(PR_SET_SECCOMP, SECCOMP_MODE_FILTER, &program))
        _exit(NOT_RUN);
}

static pid_t start(char **words) {
    int gate[2];
    char byte;
    if (pipe2(gate, O_CLOEXEC))
        stop("pipe");
    pid_t child = fork();
    if (child < 0)
        stop("fork");
    if (child == 0) {
        close(gate[1]);
        setpgid(0, 0);
        if (read(gate[0], &byte, 1) != 1)
            _exit(NOT_RUN);
        filter_calls();
        execvp(words[0], words);
        fprintf(stderr, "failing_files: %s: %s\n", words[0], strerror(errno));
        _exit(NOT_RUN);
    }
    close(gate[0]);
    if (ptrace(PTRACE_SEIZE, child, 0, PTRACE_O_TRACESECCOMP | PTRACE_O_TRACEFORK | PTRACE_O_TRACEVFORK | PTRACE_O_TRACECLONE
                                           | PTRACE_O_TRACESYSGOOD | PTRACE_O_EXITKILL))
        stop("ptrace");
    if (write(gate[1], "", 1) != 1)
        stop("write");
    close(gate[1]);
    return child;
}

/* The text at this address of a process, as far as it can be read, and a page at most. */
static void text_of(pid_t process, unsigned long address, char *text, size_t room) {
    for (size_t length = 0; length < room; length++) {
        struct iovec here = {text + length, 1}, there = {(void *)(address + length), 1};
        if (length == room - 1 || process_vm_readv(process, &here, 1, &there, 1, 0) != 1)
            text[length] = 0;
        if (!text[length])
            return;
    }
}

/* Whether this open file of a process is one of a file system. */
static int is_file(pid_t process, int file) {
    char path[64];
    struct stat found;
    snprintf(path, sizeof path, "/proc/%d/fd/%d", process, file);
    return stat(path, &found) == 0 && S_ISREG(found.st_mode);
}

/* The call at which a process has stopped, if it changes a file; then it is noted. */
static const Call *change_of(pid_t process, const struct user_regs_struct *registers) {
    const unsigned long words[] = {registers->rdi, registers->rsi, registers->rdx, registers->r10};
    char path[4096];
    const Call *call = CALLS;
    while (call->number != (long)registers->orig_rax)
        if (++call == CALLS + COUNT)
            return NULL;
    unsigned long changed = words[call->argument];
    if (call->number == SYS_ioctl && words[1] != CLONE_OF_A_FILE)
        return NULL;
    if (call->is_open) {
        if (!is_file(process, changed))
            return NULL;
        snprintf(path, sizeof path, "%lu", changed);
    } else {
        text_of(process, changed, path, sizeof path);
        if (strncmp(path, "/dev/", 5) == 0 && strncmp(path, "/dev/shm/", 9) != 0)
            return NULL;
    }
    if (++noted == number)
        changed_file = call->is_open ? (int)changed : -1;
    fprintf(notes, "%s %s %s\n", call->name, call->needs_room ? "room" : "-", path);
    fflush(notes);
    return call;
}

/* Whether this call, the next one that changes a file, fails. */
static int fails(const Call *call) {
    return (strcmp(kind, "fail") == 0 && seen == number) || (strcmp(kind, "full") == 0 && seen >= number && call->needs_room);
}

/* A process among those that are traced, from now on. */
static Traced *traced_of(pid_t process) {
    for (size_t i = 0; i < many; i++)
        if (traced[i].process == process)
            return &traced[i];
    if (many == most && !(traced = realloc(traced, (most = 2 * most + 16) * sizeof *traced)))
        stop("memory");
    traced[many] = (Traced){process, 0};
    return &traced[many++];
}

/* Lets a process go on that has stopped before one of the calls. */
static void go_on(pid_t process) {
    struct user_regs_struct registers;
    if (ptrace(PTRACE_GETREGS, process, 0, &registers))
        return;
    const Call *call = change_of(process, &registers);
    seen += call != NULL;
    if (call && fails(call)) {
        registers.orig_rax = -1;
        registers.rax = -ENOSPC;
        ptrace(PTRACE_SETREGS, process, 0, &registers);
    } else if (call && seen == number && (strcmp(kind, "kill") == 0 || strcmp(kind, "replace") == 0 || signal_of_kind())) {
        broken = process;
        ptrace(PTRACE_SYSCALL, process, 0, 0);
        return;
    } else if (call && strcmp(kind, "none") == 0) {
        traced_of(process)->call = seen;
        ptrace(PTRACE_SYSCALL, process, 0, 0);
        return;
    }
    ptrace(PTRACE_CONT, process, 0, 0);
}

/* Notes a call that the system refused, after which its process has stopped. */
static void note_refusal(Traced *one) {
    struct user_regs_struct registers;
    if (ptrace(PTRACE_GETREGS, one->process, 0, &registers) == 0 && (long)registers.rax < 0) {
        fprintf(notes, "refused %ld -\n", one->call);
        fflush(notes);
    }
    one->call = 0;
}

static void forget(pid_t process) {
    for (size_t i = 0; i < many; i++)
        if (traced[i].process == process)
            traced[i--] = traced[--many];
}

/* Kills each process of the command, and waits for its end. */
static void kill_all(void) {
    pid_t process;
    int status;
    for (size_t i = 0; i < many; i++)
        kill(traced[i].process, SIGKILL);
    while ((process = waitpid(-1, &status, __WALL)) > 0 || (process < 0 && errno == EINTR))
        if (process > 0 && WIFSTOPPED(status))
            kill(process, SIGKILL);
}

/* Has another file with the same bytes take the name of the one that the call changed. */
static void replace(pid_t process) {
    char open_file[64], path[4096], beside[4200], block[4096];
    ssize_t length;
    snprintf(open_file, sizeof open_file, "/proc/%d/fd/%d", process, changed_file);
    if (changed_file < 0 || (length = readlink(open_file, path, sizeof path - 1)) < 0)
        return;
    path[length] = 0;
    snprintf(beside, sizeof beside, "%s.replacing", path);
    FILE *from = fopen(path, "re"), *to = from ? fopen(beside, "we") : NULL;
    if (!to)
        return;
    while ((length = fread(block, 1, sizeof block, from)) > 0)
        if (fwrite(block, 1, length, to) != (size_t)length)
            stop("write");
    fclose(from);
    if (fclose(to) || rename(beside, path))
        stop("rename");
}

/* Follows all processes of the command until the last has ended. Answers how the first one did. */
static int follow(pid_t first) {
    int status, end = 0;
    pid_t process;
    while ((process = waitpid(-1, &status, __WALL)) > 0 || errno == EINTR) {
        if (process < 0)
            continue;
        if (!WIFSTOPPED(status)) {
            forget(process);
            if (process == first)
                end = status;
            continue;
        }
        Traced *one = traced_of(process);
        int event = status >> 16, signal = WSTOPSIG(status);
        if (event == PTRACE_EVENT_SECCOMP) {
            go_on(process);
        } else if (signal == (SIGTRAP | 0x80) && process == broken) {
            broken = 0;
            if (strcmp(kind, "kill") == 0) {
                kill_all();
                return SIGKILL;
            }
            if (strcmp(kind, "replace") == 0)
                replace(process);
            else
                kill(-first, signal_of_kind());
            ptrace(PTRACE_CONT, process, 0, 0);
        } else if (signal == (SIGTRAP | 0x80) && one->call) {
            note_refusal(one);
            ptrace(PTRACE_CONT, process, 0, 0);
        } else {
            ptrace(PTRACE_CONT, process, 0, event || signal == (SIGTRAP | 0x80) ? 0 : signal);
        }
    }
    return end;
}

int main(int count, char **words) {
    if (count < 5) {
        fprintf(stderr, "failing_files KIND NUMBER NOTES COMMAND..\n");
        return NOT_RUN;
    }
    kind = words[1];
    number = atol(words[2]);
    if (!(notes = fopen(words[3], "we")))
        stop(words[3]);
    pid_t first = start(words + 4);
    traced_of(first);
    int end = follow(first);
    return WIFEXITED(end) ? WEXITSTATUS(end) : 128 + WTERMSIG(end);
}
