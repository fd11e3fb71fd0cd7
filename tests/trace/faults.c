/* Runs a program as a CPU would that has MOVDIR64B and ENQCMD, on one that lacks them:
 *
 *     faults PROGRAM [ARGUMENTS]
 *
 * It traces the program and its children, and turns the signal of an unknown instruction into the one that the
 * instruction itself raises: MOVDIR64B a page fault at its destination, if that can't be written; ENQCMD, which has no
 * PASID, a general protection fault. The status is that of the program; how many signals were turned is printed. */
#include <errno.h>
#include <signal.h>
#include <stdio.h>
#include <stdlib.h>
#include <string.h>
#include <sys/ptrace.h>
#include <sys/uio.h>
#include <sys/user.h>
#include <sys/wait.h>
#include <unistd.h>

#include "decode.h"

enum { FAILED = 99 };

static void fail(const char *what)
{
    perror(what);
    exit(FAILED);
}

/* The instruction at which a thread has stopped; its destination is in *to. */
static enum kind instruction_of(pid_t thread, uint64_t *to)
{
    struct user_regs_struct u;
    struct instruction in;
    uint8_t code[16] = {0};
    if (ptrace(PTRACE_GETREGS, thread, NULL, &u))
        fail("PTRACE_GETREGS");
    const uint64_t registers[16] = {u.rax, u.rcx, u.rdx, u.rbx, u.rsp, u.rbp, u.rsi, u.rdi,
                                    u.r8, u.r9, u.r10, u.r11, u.r12, u.r13, u.r14, u.r15};
    const struct iovec here = {code, sizeof code - 1}, there = {(void *)u.rip, sizeof code - 1};
    if (process_vm_readv(thread, &here, 1, &there, 1, 0) < 1 || !decode(code, u.rip, registers, &in))
        return NO_INSTRUCTION;
    *to = in.is_narrow ? (uint32_t)registers[in.reg] : registers[in.reg];
    return in.kind;
}

/* 'w' if an address can be written, 'm' if something else is mapped there, and 0 if nothing is. */
static char access_of(pid_t thread, uint64_t address)
{
    char path[64], line[512], how[8];
    unsigned long low, high;
    char found = 0;
    snprintf(path, sizeof path, "/proc/%d/maps", (int)thread);
    FILE *maps = fopen(path, "r");
    if (!maps)
        fail(path);
    while (!found && fgets(line, sizeof line, maps))
        if (sscanf(line, "%lx-%lx %7s", &low, &high, how) == 3 && low <= address && address < high)
            found = how[1] == 'w' ? 'w' : 'm';
    fclose(maps);
    return found;
}

/* The signal that the thread gets in place of SIGILL. */
static int turned(pid_t thread)
{
    uint64_t to = 0;
    siginfo_t info = {.si_signo = SIGSEGV};
    const enum kind kind = instruction_of(thread, &to);
    const char access = kind == MOVDIR64B ? access_of(thread, to) : 0;
    if ((kind != MOVDIR64B && kind != ENQCMD) || access == 'w')
        return SIGILL; /* the library does stores to memory, and what else this CPU lacks */
    info.si_code = kind == ENQCMD ? SI_KERNEL : access ? SEGV_ACCERR : SEGV_MAPERR;
    info.si_addr = kind == ENQCMD ? NULL : (void *)to;
    if (ptrace(PTRACE_SETSIGINFO, thread, NULL, &info))
        fail("PTRACE_SETSIGINFO");
    return SIGSEGV;
}

int main(int argc, char **argv)
{
    const pid_t first = argc > 1 ? fork() : -1;
    int status, result = FAILED;
    unsigned long count = 0;
    if (first < 0)
        fail("faults");
    if (first == 0) {
        ptrace(PTRACE_TRACEME, 0, NULL, NULL);
        execv(argv[1], argv + 1);
        fail(argv[1]);
    }
    const long options = PTRACE_O_TRACECLONE | PTRACE_O_TRACEFORK | PTRACE_O_TRACEVFORK | PTRACE_O_EXITKILL;
    waitpid(first, &status, 0);
    if (ptrace(PTRACE_SETOPTIONS, first, NULL, options) || ptrace(PTRACE_CONT, first, NULL, NULL))
        fail("PTRACE_SETOPTIONS");
    for (pid_t thread; (thread = waitpid(-1, &status, __WALL)) > 0;) {
        if (!WIFSTOPPED(status)) {
            if (thread == first)
                result = WIFSIGNALED(status) ? 128 + WTERMSIG(status) : WEXITSTATUS(status);
            continue;
        }
        int number = status >> 16 || WSTOPSIG(status) == SIGSTOP || WSTOPSIG(status) == SIGTRAP ? 0 : WSTOPSIG(status);
        if (number == SIGILL)
            number = turned(thread);
        count += number == SIGSEGV && WSTOPSIG(status) == SIGILL;
        ptrace(PTRACE_CONT, thread, NULL, number);
    }
    printf("%lu signals turned\n", count);
    return result;
}
