/* Runs a command and kills it at one of its calls on one file, or lets the call fail.
 *
 *     kill_at before N FILE COMMAND ARGUMENT..
 *     kill_at half N FILE COMMAND ARGUMENT..
 *     kill_at fail N FILE COMMAND ARGUMENT..
 *
 * Counted are the system calls that write to FILE, cut it or sync it, through whatever descriptor.
 * `before` kills the command by SIGKILL where it begins the N-th of them, so that this call does nothing.
 * `half` lets the N-th take only the first half of its bytes, and kills the command then; a call with under two bytes is not cut but not made.
 * `fail` does not make the N-th call, which answers that there was an error of the device (EIO), and lets the command go on to its end.
 *
 * One line tells the call. The status is 10 where the command was killed so, or ended with status 1 where a call failed;
 * 0 where it ended by itself with status 0 before its N-th call; and 1 for all else.
 * For Linux on x86-64, since it changes the arguments of a call. */
#define _GNU_SOURCE
#include <errno.h>
#include <signal.h>
#include <stdio.h>
#include <stdlib.h>
#include <string.h>
#include <sys/ptrace.h>
#include <sys/stat.h>
#include <sys/syscall.h>
#include <sys/types.h>
#include <sys/user.h>
#include <sys/wait.h>
#include <unistd.h>

#ifndef __x86_64__
#error "written for x86-64"
#endif

enum { CUT = 10, FAILED = 1 };

enum mode { BEFORE, HALF, FAIL };

/* A call that changes a file, and whether it has a count of bytes in its third argument. */
struct call {
    unsigned long long number;
    const char *name;
    int has_count;
};

static const struct call calls[] = {
    {SYS_write, "write", 1},       {SYS_pwrite64, "pwrite64", 1},   {SYS_writev, "writev", 0},
    {SYS_pwritev, "pwritev", 0},   {SYS_pwritev2, "pwritev2", 0},   {SYS_ftruncate, "ftruncate", 0},
    {SYS_fsync, "fsync", 0},       {SYS_fdatasync, "fdatasync", 0}, {SYS_fallocate, "fallocate", 0},
    {SYS_sendfile, "sendfile", 0}, {SYS_copy_file_range, "copy_file_range", 0},
};

static void fail(const char *what) {
    perror(what);
    exit(FAILED);
}

static const struct call *call_of(unsigned long long number) {
    for (size_t i = 0; i < sizeof calls / sizeof *calls; i++)
        if (calls[i].number == number)
            return &calls[i];
    return NULL;
}

/* Whether a descriptor of the process is open on the file. */
static int is_on(pid_t pid, unsigned long long fd, const struct stat *file) {
    char path[64];
    struct stat open_file;
    snprintf(path, sizeof path, "/proc/%d/fd/%llu", (int)pid, fd);
    return stat(path, &open_file) == 0 && open_file.st_dev == file->st_dev && open_file.st_ino == file->st_ino;
}

static int wait_for(pid_t pid) {
    int status;
    while (waitpid(pid, &status, 0) < 0)
        if (errno != EINTR)
            fail("waitpid");
    return status;
}

/* Lets the process run until it begins or ends a system call. Its status comes back where it ended instead. */
static int next_stop(pid_t pid, int *status) {
    int signal_number = 0;
    for (;;) {
        if (ptrace(PTRACE_SYSCALL, pid, 0, signal_number) < 0)
            fail("ptrace");
        *status = wait_for(pid);
        if (!WIFSTOPPED(*status))
            return 0;
        if (WSTOPSIG(*status) == (SIGTRAP | 0x80))
            return 1;
        signal_number = WSTOPSIG(*status) == SIGTRAP ? 0 : WSTOPSIG(*status);
    }
}

static void kill_now(pid_t pid) {
    kill(pid, SIGKILL);
    int status = wait_for(pid);
    while (!WIFSIGNALED(status) && !WIFEXITED(status))
        status = wait_for(pid);
    if (!WIFSIGNALED(status) || WTERMSIG(status) != SIGKILL) {
        fprintf(stderr, "kill_at: the command was not killed\n");
        exit(FAILED);
    }
}

static void tell(const char *what, const struct call *call, const struct user_regs_struct *regs) {
    printf("%s %s", what, call->name);
    if (call->has_count)
        printf(" of %llu bytes", regs->rdx);
    if (call->number == SYS_pwrite64)
        printf(" at %llu", regs->r10);
    printf("\n");
}

static void set_registers(pid_t pid, const struct user_regs_struct *regs) {
    if (ptrace(PTRACE_SETREGS, pid, 0, regs) < 0)
        fail("ptrace");
}

static void to_end_of_call(pid_t pid) {
    int status;
    if (!next_stop(pid, &status)) {
        fprintf(stderr, "kill_at: the command ended in the call\n");
        exit(FAILED);
    }
}

/* At the beginning of a call: kills the process there, or behind the first half of the call's bytes. */
static void cut(pid_t pid, const struct call *call, const struct user_regs_struct *regs, enum mode mode) {
    if (mode == HALF && call->has_count && regs->rdx >= 2) {
        struct user_regs_struct halved = *regs;
        halved.rdx = regs->rdx / 2;
        set_registers(pid, &halved);
        to_end_of_call(pid);
        kill_now(pid);
        tell("killed behind half of", call, regs);
    } else {
        kill_now(pid);
        tell("killed before", call, regs);
    }
}

/* At the beginning of a call: the call is not made, and answers an error. */
static void refuse(pid_t pid, const struct call *call, const struct user_regs_struct *regs) {
    struct user_regs_struct changed = *regs;
    changed.orig_rax = (unsigned long long)-1;
    set_registers(pid, &changed);
    to_end_of_call(pid);
    changed = *regs;
    changed.rax = (unsigned long long)-EIO;
    set_registers(pid, &changed);
    tell("failed", call, regs);
}

/* Follows the command to its end, or to its n-th call on the file. */
static int follow(pid_t pid, const struct stat *file, long n, enum mode mode) {
    int status, begins = 1;
    long seen = 0;
    while (next_stop(pid, &status)) {
        struct user_regs_struct regs;
        const struct call *call = NULL;
        if (begins) {
            if (ptrace(PTRACE_GETREGS, pid, 0, &regs) < 0)
                fail("ptrace");
            call = call_of(regs.orig_rax);
        }
        begins = !begins;
        if (!call || !is_on(pid, regs.rdi, file) || ++seen != n)
            continue;
        if (mode != FAIL) {
            cut(pid, call, &regs, mode);
            return CUT;
        }
        refuse(pid, call, &regs);
        begins = 1;
    }
    if (WIFEXITED(status) && WEXITSTATUS(status) == 0 && seen < n) {
        printf("ended after %ld calls\n", seen);
        return 0;
    }
    if (WIFEXITED(status) && WEXITSTATUS(status) == 1 && seen >= n)
        return CUT;
    fprintf(stderr, "kill_at: the command ended with status %d\n", status);
    return FAILED;
}

static enum mode mode_of(const char *word) {
    if (!strcmp(word, "before"))
        return BEFORE;
    if (!strcmp(word, "half"))
        return HALF;
    if (!strcmp(word, "fail"))
        return FAIL;
    fprintf(stderr, "kill_at: no mode is named %s\n", word);
    exit(FAILED);
}

int main(int argc, char **argv) {
    struct stat file;
    if (argc < 5 || atol(argv[2]) < 1) {
        fprintf(stderr, "usage: kill_at before|half|fail N FILE COMMAND ARGUMENT..\n");
        return FAILED;
    }
    enum mode mode = mode_of(argv[1]);
    if (stat(argv[3], &file) < 0)
        fail(argv[3]);
    pid_t pid = fork();
    if (pid < 0)
        fail("fork");
    if (pid == 0) {
        if (ptrace(PTRACE_TRACEME, 0, 0, 0) < 0)
            fail("ptrace");
        raise(SIGSTOP);
        execvp(argv[4], argv + 4);
        perror(argv[4]);
        _exit(127);
    }
    wait_for(pid);
    if (ptrace(PTRACE_SETOPTIONS, pid, 0, PTRACE_O_TRACESYSGOOD | PTRACE_O_EXITKILL | PTRACE_O_TRACEEXEC) < 0)
        fail("ptrace");
    return follow(pid, &file, atol(argv[2]), mode);
}
