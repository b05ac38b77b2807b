/* Stands between a program and the kernel: each system call of the kinds that TRAP_CALLS names, also one that the C library
   makes by itself, comes here first. The N-th of them fails, is cut short, or is the last before a SIGKILL; or threads sleep
   at random before their calls and anywhere between two instructions.

     TRAP_CALLS=read,write..   the kinds that are counted, from 1 on
     TRAP_LOG=FILE             a line with the kind of each counted call
     TRAP_AT=N                 the call that is meant; with TRAP_FROM=N this and all later ones
     TRAP_ERROR=E              it fails with this error
     TRAP_SHORT=B              it reads or writes B bytes at the most
     TRAP_KILL=1               it is not made, and the program is killed
     TRAP_SLEEP=SEED           sleeps at random

   Made into a shared object and loaded before the program by LD_PRELOAD. A filter of the kernel turns the calls into signals;
   only the call of this file passes it. Status 98 says that the kernel has no such filter. */
#define _GNU_SOURCE
#include <errno.h>
#include <fcntl.h>
#include <linux/audit.h>
#include <linux/filter.h>
#include <linux/seccomp.h>
#include <signal.h>
#include <stdatomic.h>
#include <stddef.h>
#include <stdint.h>
#include <stdlib.h>
#include <string.h>
#include <sys/mman.h>
#include <sys/prctl.h>
#include <sys/syscall.h>
#include <time.h>
#include <ucontext.h>
#include <unistd.h>

#define MOST_NS 300000 /* of one sleep */
#define SLEEPER (SIGRTMIN + 5)

static const struct kind { const char *name; int number; } KINDS[] = {
    {"read", SYS_read}, {"pread64", SYS_pread64}, {"readv", SYS_readv}, {"write", SYS_write}, {"pwrite64", SYS_pwrite64},
    {"writev", SYS_writev}, {"open", SYS_open}, {"openat", SYS_openat}, {"close", SYS_close}, {"fsync", SYS_fsync},
    {"fdatasync", SYS_fdatasync}, {"ftruncate", SYS_ftruncate}, {"rename", SYS_rename}, {"renameat", SYS_renameat},
    {"unlink", SYS_unlink}, {"statx", SYS_statx}, {"fstat", SYS_fstat}, {"newfstatat", SYS_newfstatat}, {"lseek", SYS_lseek},
    {"fcntl", SYS_fcntl}, {"fchmod", SYS_fchmod}, {"fchown", SYS_fchown}, {"readlink", SYS_readlink}, {"mmap", SYS_mmap},
    {"mremap", SYS_mremap}, {"munmap", SYS_munmap}, {"mprotect", SYS_mprotect}, {"brk", SYS_brk}, {"futex", SYS_futex},
    {"sched_yield", SYS_sched_yield}, {"getrandom", SYS_getrandom}, {"madvise", SYS_madvise},
    {"clock_nanosleep", SYS_clock_nanosleep}, {"set_robust_list", SYS_set_robust_list},
};
#define COUNT (sizeof KINDS / sizeof *KINDS)

static unsigned char meant[512];
static atomic_ulong calls, state;
static unsigned long at, from, error, most, kills, sleeps;
static int record = -1;
static __thread int has_timer __attribute__((tls_model("initial-exec")));

/* The one call that the filter lets through, by its address. */
long trapped_call(long number, long a, long b, long c, long d, long e, long f);
extern char trapped_call_end[];
__asm__(".text\n.globl trapped_call\n.globl trapped_call_end\n.type trapped_call,@function\ntrapped_call:\n"
        "mov %rdi,%rax\nmov %rsi,%rdi\nmov %rdx,%rsi\nmov %rcx,%rdx\nmov %r8,%r10\nmov %r9,%r8\nmov 8(%rsp),%r9\n"
        "syscall\ntrapped_call_end:\nret\n");

static long call(long number, long a, long b, long c) { return trapped_call(number, a, b, c, 0, 0, 0); }

static unsigned long number_of(const char *word) {
    const char *text = getenv(word);
    return text ? strtoul(text, NULL, 10) : 0;
}

static unsigned long drawn(void) {
    unsigned long x = atomic_fetch_add(&state, 0x9e3779b97f4a7c15ul) + 0x9e3779b97f4a7c15ul;
    x = (x ^ (x >> 30)) * 0xbf58476d1ce4e5b9ul;
    x = (x ^ (x >> 27)) * 0x94d049bb133111ebul;
    return x ^ (x >> 31);
}

/* Most often not at all, at times for some microseconds, seldom for long. */
static void sleep_at_random(void) {
    unsigned long now = drawn(), ns = (now >> 8) % MOST_NS;
    if (now % 8 < 4) return;
    if (now % 8 < 7) ns /= 32;
    struct timespec time = {0, (long)ns};
    call(SYS_nanosleep, (long)&time, 0, 0);
}

/* A signal to this very thread after up to a millisecond, and again after each. */
static void begin_timer(void) {
    struct sigevent event = {.sigev_notify = SIGEV_THREAD_ID, .sigev_signo = SLEEPER};
    event._sigev_un._tid = (int)call(SYS_gettid, 0, 0, 0);
    int timer;
    has_timer = 1;
    if (call(SYS_timer_create, CLOCK_MONOTONIC, (long)&event, (long)&timer)) return;
    unsigned long every = 20000 + drawn() % 1000000;
    struct itimerspec when = {{0, (long)every}, {0, (long)every}};
    trapped_call(SYS_timer_settime, timer, 0, (long)&when, 0, 0, 0);
}

static void on_timer(int number) {
    (void)number;
    int kept = errno;
    sleep_at_random();
    errno = kept;
}

static void tell(long number) {
    for (size_t i = 0; i < COUNT; i++) {
        if (KINDS[i].number != number) continue;
        char line[32];
        size_t length = strlen(KINDS[i].name);
        memcpy(line, KINDS[i].name, length);
        line[length] = '\n';
        call(SYS_write, record, (long)line, (long)length + 1);
    }
}

static int is_cut(long number) {
    return number == SYS_read || number == SYS_write || number == SYS_pread64 || number == SYS_pwrite64;
}

/* Masks go to the mask that the signal's end restores, and never hold this signal back. */
static long mask(ucontext_t *context, long how, const sigset_t *set, unsigned long *old) {
    unsigned long *now = (unsigned long *)&context->uc_sigmask;
    if (old) *old = *now;
    if (!set) return 0;
    unsigned long given = *(const unsigned long *)set;
    *now = how == SIG_BLOCK ? *now | given : how == SIG_UNBLOCK ? *now & ~given : given;
    *now &= ~(1ul << (SIGSYS - 1));
    return 0;
}

static long answer(ucontext_t *context, long number, greg_t *r) {
    if (number == SYS_rt_sigprocmask) return mask(context, r[REG_RDI], (const sigset_t *)r[REG_RSI], (unsigned long *)r[REG_RDX]);
    if (sleeps && !has_timer) begin_timer();
    long length = r[REG_RDX];
    if (number >= 0 && number < (long)sizeof meant && meant[number]) {
        unsigned long now = atomic_fetch_add(&calls, 1) + 1;
        if (record >= 0) tell(number);
        if (sleeps) sleep_at_random();
        if (now == at || (from && now >= from)) {
            if (kills) call(SYS_kill, call(SYS_getpid, 0, 0, 0), SIGKILL, 0);
            if (error && number == SYS_brk) return call(SYS_brk, 0, 0, 0); /* which tells a fault by the old end */
            if (error) return -(long)error;
            if (most && is_cut(number) && (unsigned long)length > most) length = (long)most;
        }
    }
    return trapped_call(number, r[REG_RDI], r[REG_RSI], length, r[REG_R10], r[REG_R8], r[REG_R9]);
}

static void on_call(int signal, siginfo_t *info, void *given) {
    (void)signal;
    int kept = errno;
    ucontext_t *context = given;
    context->uc_mcontext.gregs[REG_RAX] = answer(context, info->si_syscall, context->uc_mcontext.gregs);
    errno = kept;
}

static void choose(const char *names) {
    for (size_t i = 0; i < COUNT; i++) {
        size_t length = strlen(KINDS[i].name);
        for (const char *found = strstr(names, KINDS[i].name); found; found = strstr(found + 1, KINDS[i].name)) {
            int begins = found == names || found[-1] == ',';
            if (begins && (found[length] == ',' || !found[length])) meant[KINDS[i].number] = 1;
        }
    }
}

static void filter(void) {
    uint64_t end = (uint64_t)(uintptr_t)trapped_call_end;
    struct sock_filter steps[COUNT * 2 + 16];
    unsigned short n = 0;
    steps[n++] = (struct sock_filter)BPF_STMT(BPF_LD | BPF_W | BPF_ABS, offsetof(struct seccomp_data, instruction_pointer));
    steps[n++] = (struct sock_filter)BPF_JUMP(BPF_JMP | BPF_JEQ | BPF_K, (uint32_t)end, 0, 3);
    steps[n++] = (struct sock_filter)BPF_STMT(BPF_LD | BPF_W | BPF_ABS, offsetof(struct seccomp_data, instruction_pointer) + 4);
    steps[n++] = (struct sock_filter)BPF_JUMP(BPF_JMP | BPF_JEQ | BPF_K, (uint32_t)(end >> 32), 0, 1);
    steps[n++] = (struct sock_filter)BPF_STMT(BPF_RET | BPF_K, SECCOMP_RET_ALLOW);
    steps[n++] = (struct sock_filter)BPF_STMT(BPF_LD | BPF_W | BPF_ABS, offsetof(struct seccomp_data, nr));
    for (int number = 0; number < (int)sizeof meant; number++) {
        int first = sleeps && number == SYS_set_robust_list;
        if (!meant[number] && !first && number != SYS_rt_sigprocmask) continue;
        steps[n++] = (struct sock_filter)BPF_JUMP(BPF_JMP | BPF_JEQ | BPF_K, (uint32_t)number, 0, 1);
        steps[n++] = (struct sock_filter)BPF_STMT(BPF_RET | BPF_K, SECCOMP_RET_TRAP);
    }
    steps[n++] = (struct sock_filter)BPF_STMT(BPF_RET | BPF_K, SECCOMP_RET_ALLOW);
    struct sock_fprog program = {n, steps};
    if (prctl(PR_SET_NO_NEW_PRIVS, 1, 0, 0, 0) || prctl(PR_SET_SECCOMP, SECCOMP_MODE_FILTER, &program)) _exit(98);
}

__attribute__((constructor)) static void begin(void) {
    const char *names = getenv("TRAP_CALLS"), *file = getenv("TRAP_LOG");
    if (!names) return;
    choose(names);
    at = number_of("TRAP_AT");
    from = number_of("TRAP_FROM");
    error = number_of("TRAP_ERROR");
    most = number_of("TRAP_SHORT");
    kills = number_of("TRAP_KILL");
    sleeps = number_of("TRAP_SLEEP");
    atomic_store(&state, sleeps * 0x2545f4914f6cdd1dul);
    if (file) record = fcntl(open(file, O_WRONLY | O_CREAT | O_TRUNC | O_APPEND | O_CLOEXEC, 0600), F_DUPFD_CLOEXEC, 700);
    struct sigaction act = {.sa_sigaction = on_call, .sa_flags = SA_SIGINFO | SA_NODEFER};
    sigaction(SIGSYS, &act, NULL);
    struct sigaction timed = {.sa_handler = on_timer, .sa_flags = SA_RESTART};
    sigaction(SLEEPER, &timed, NULL);
    filter();
    if (sleeps) begin_timer();
}
