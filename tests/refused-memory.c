/* Preloaded into a program: counts its requests for memory, and refuses the one that REFUSED names (from 1; 0: none), with a '+' behind
 * its number that one and all after it. At the end the count is written to the descriptor that COUNTS names. */
#include <limits.h>
#include <stdio.h>
#include <stdlib.h>
#include <errno.h>
#include <sys/syscall.h>
#include <unistd.h>

void *__libc_malloc(size_t);
void *__libc_calloc(size_t, size_t);
void *__libc_realloc(void *, size_t);
void *__libc_memalign(size_t, size_t);

static unsigned long asked, first, last;
static int counting, counts;

__attribute__((constructor)) static void begin(void) {
    const char *number = getenv("REFUSED");
    char *behind = "";
    first = number ? strtoul(number, &behind, 10) : 0;
    last = *behind == '+' ? ULONG_MAX : first;
    number = getenv("COUNTS");
    counts = number ? atoi(number) : -1;
    counting = 1;
}

__attribute__((destructor)) static void end(void) {
    char text[32];
    if (!counting) return;
    counting = 0;
    int length = snprintf(text, sizeof text, "%lu", asked);
    if (write(counts, text, length) < 0) return;
}

/* A program with threads ends so: no destructor is called then. */
void _exit(int status) {
    end();
    syscall(SYS_exit_group, status);
    __builtin_unreachable();
}

/* Whether the program gets this request, from whichever of its threads. */
static int given(void) {
    if (!counting) return 1;
    unsigned long number = __atomic_add_fetch(&asked, 1, __ATOMIC_RELAXED);
    if (number < first || number > last) return 1;
    errno = ENOMEM;
    return 0;
}

void *malloc(size_t size) { return given() ? __libc_malloc(size) : NULL; }
void *calloc(size_t count, size_t size) { return given() ? __libc_calloc(count, size) : NULL; }
void *realloc(void *old, size_t size) { return given() ? __libc_realloc(old, size) : NULL; }
void *memalign(size_t alignment, size_t size) { return given() ? __libc_memalign(alignment, size) : NULL; }
void *aligned_alloc(size_t alignment, size_t size) { return memalign(alignment, size); }

int posix_memalign(void **place, size_t alignment, size_t size) {
    void *found = memalign(alignment, size);
    if (!found) return ENOMEM;
    *place = found;
    return 0;
}
