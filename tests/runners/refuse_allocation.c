/* Refuses one allocation: with REFUSE=N the N-th call of malloc, calloc, realloc, posix_memalign or aligned_alloc answers
   that there is no memory; with REFUSE_FROM=N each from the N-th on. The last count is written to the file that
   REFUSE_COUNT names. Built as a shared object and loaded before the program by LD_PRELOAD. */
#define _GNU_SOURCE
#include <dlfcn.h>
#include <errno.h>
#include <fcntl.h>
#include <stdatomic.h>
#include <stddef.h>
#include <stdio.h>
#include <stdlib.h>
#include <string.h>
#include <sys/syscall.h>
#include <unistd.h>

extern void *__libc_malloc(size_t);
extern void *__libc_calloc(size_t, size_t);
extern void *__libc_realloc(void *, size_t);
extern void *__libc_memalign(size_t, size_t);

static atomic_ulong calls;
static unsigned long one, from;

__attribute__((constructor)) static void begin(void) {
    const char *word = getenv("REFUSE");
    one = word ? strtoul(word, NULL, 10) : 0;
    word = getenv("REFUSE_FROM");
    from = word ? strtoul(word, NULL, 10) : 0;
    atomic_store(&calls, 0);
}

static void leave(int status) {
    for (;;) syscall(SYS_exit_group, status);
}

__attribute__((destructor)) static void end(void) {
    const char *name = getenv("REFUSE_COUNT");
    if (!name) return;
    int file = open(name, O_WRONLY | O_CREAT | O_TRUNC, 0600);
    if (file < 0) return;
    char text[32];
    int length = snprintf(text, sizeof text, "%lu\n", atomic_load(&calls));
    if (write(file, text, (size_t)length) < 0) leave(99);
    close(file);
}

/* A program that may have threads ends by this call, which runs no destructor. */
void _exit(int status) {
    end();
    leave(status);
    __builtin_unreachable();
}

static int is_refused(void) {
    unsigned long now = atomic_fetch_add(&calls, 1) + 1;
    if (now != one && (!from || now < from)) return 0;
    errno = ENOMEM;
    return 1;
}

void *malloc(size_t size) { return is_refused() ? NULL : __libc_malloc(size); }
void *calloc(size_t count, size_t size) { return is_refused() ? NULL : __libc_calloc(count, size); }
void *realloc(void *old, size_t size) { return is_refused() ? NULL : __libc_realloc(old, size); }
void *aligned_alloc(size_t align, size_t size) { return is_refused() ? NULL : __libc_memalign(align, size); }

int posix_memalign(void **into, size_t align, size_t size) {
    void *found = is_refused() ? NULL : __libc_memalign(align, size);
    if (!found) return ENOMEM;
    *into = found;
    return 0;
}
