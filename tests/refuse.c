/* Refuses the memory of a program at its allocations number REFUSE_FIRST to REFUSE_LAST, counted from 1, and writes to
   the descriptor REFUSE_TOLD how many it made. tests/memory and tests/query build it, and LD_PRELOAD puts it before the
   C library. */

#include <errno.h>
#include <stdatomic.h>
#include <stdlib.h>
#include <sys/syscall.h>
#include <unistd.h>

void *__libc_malloc(size_t size);
void *__libc_realloc(void *old, size_t size);

static atomic_ulong made;
static unsigned long first, last;

static unsigned long number(const char *name) {
    const char *text = getenv(name);
    return text ? strtoul(text, NULL, 10) : 0;
}

__attribute__((constructor)) static void begin(void) {
    first = number("REFUSE_FIRST");
    last = number("REFUSE_LAST");
    made = 0;
}

static void tell(void) {
    unsigned long told = made;
    if (write((int)number("REFUSE_TOLD"), &told, sizeof told) < 0) syscall(SYS_exit_group, 120);
}

__attribute__((destructor)) static void end(void) { tell(); }

/* A program that may start threads ends by this, and not by exit. */
void _exit(int status) {
    tell();
    for (;;) syscall(SYS_exit_group, status);
}

static int is_refused(void) {
    unsigned long at = atomic_fetch_add(&made, 1) + 1;
    if (at < first || at > last) return 0;
    errno = ENOMEM;
    return 1;
}

void *malloc(size_t size) { return is_refused() ? NULL : __libc_malloc(size); }

void *realloc(void *old, size_t size) { return is_refused() ? NULL : __libc_realloc(old, size); }
