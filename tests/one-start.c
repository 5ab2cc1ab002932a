/* Preloaded into a program that answers a document: the program starts once, and answers many documents. Just before it reads its standard input or
 * makes its first thread it stops, and for each document a copy of the process goes on from there, one copy after another. So the start, which knows
 * nothing of the document, isn't repeated.
 *
 * ONE_START is "DOCUMENTS ANSWERS": the descriptors of two files. In the first one each document comes after its length, in four bytes. It is the
 * copy's standard input, by a pipe. In the second one are the answers: the status, as `waitpid` gives it, and the lengths of standard output and of
 * standard error, in four bytes each, and then what was written there. */
#define _GNU_SOURCE
#include <dlfcn.h>
#include <errno.h>
#include <fcntl.h>
#include <pthread.h>
#include <stdint.h>
#include <stdio.h>
#include <stdlib.h>
#include <sys/mman.h>
#include <sys/stat.h>
#include <sys/syscall.h>
#include <sys/wait.h>
#include <unistd.h>

#define LONGEST (1 << 20) /* bytes of a document: as many as a pipe may have */
#define BROKEN 99         /* the status if something can't be had */

static int documents, answers, is_waiting;

__attribute__((constructor)) static void begin(void) {
    const char *text = getenv("ONE_START");
    is_waiting = text && sscanf(text, "%d %d", &documents, &answers) == 2;
}

static void end(int status) {
    syscall(SYS_exit_group, status);
    __builtin_unreachable();
}

static void need(int is_right) {
    if (!is_right) end(BROKEN);
}

/* Reads so many bytes of the documents. */
static void take(void *into, size_t length) {
    char *at = into;
    while (length) {
        long count = syscall(SYS_read, documents, at, length);
        need(count > 0);
        at += count, length -= count;
    }
}

static void give(const void *bytes, size_t length) {
    const char *at = bytes;
    while (length) {
        long count = syscall(SYS_write, answers, at, length);
        need(count > 0);
        at += count, length -= count;
    }
}

/* A pipe from which the next document can be read to its end; -1 after the last one. */
static int next_document(void) {
    static char bytes[LONGEST];
    uint32_t length;
    int ends[2];
    if (syscall(SYS_read, documents, &length, sizeof length) != sizeof length) return -1;
    need(length <= LONGEST && !pipe2(ends, O_CLOEXEC) && fcntl(ends[1], F_SETPIPE_SZ, length) >= (int)length);
    take(bytes, length);
    need(syscall(SYS_write, ends[1], bytes, (size_t)length) == length && !syscall(SYS_close, ends[1]));
    return ends[0];
}

/* What was written on a stream. It is empty again then. */
static void give_stream(int stream, size_t length) {
    void *bytes = length ? mmap(NULL, length, PROT_READ, MAP_SHARED, stream, 0) : NULL;
    need(bytes != MAP_FAILED);
    give(bytes, length);
    need(!length || !munmap(bytes, length));
    need(!ftruncate(stream, 0) && !syscall(SYS_lseek, stream, 0, SEEK_SET));
}

static size_t length_of(int stream) {
    struct stat found;
    need(!fstat(stream, &found));
    return found.st_size;
}

/* Returns in each copy, and never in the process that makes them. */
static void copy_for_each(void) {
    int streams[] = {memfd_create("output", MFD_CLOEXEC), memfd_create("error", MFD_CLOEXEC)}, input;
    need(streams[0] > STDERR_FILENO && streams[1] > STDERR_FILENO);
    while ((input = next_document()) >= 0) {
        pid_t copy = fork();
        need(copy >= 0);
        if (!copy) {
            need(dup2(input, 0) == 0 && dup2(streams[0], 1) == 1 && dup2(streams[1], 2) == 2);
            need(!syscall(SYS_close, input) && !syscall(SYS_close, streams[0]) && !syscall(SYS_close, streams[1]));
            need(!syscall(SYS_close, documents) && !syscall(SYS_close, answers));
            return;
        }
        int status;
        need(!syscall(SYS_close, input) && waitpid(copy, &status, 0) == copy);
        uint32_t head[] = {status, length_of(streams[0]), length_of(streams[1])};
        give(head, sizeof head);
        give_stream(streams[0], head[1]);
        give_stream(streams[1], head[2]);
    }
    end(0);
}

static void wait_here(void) {
    if (!is_waiting) return;
    is_waiting = 0;
    copy_for_each();
}

ssize_t read(int from, void *into, size_t length) {
    if (from == STDIN_FILENO) wait_here();
    return syscall(SYS_read, from, into, length);
}

int pthread_create(pthread_t *thread, const pthread_attr_t *how, void *(*begin)(void *), void *given) {
    int (*create)(pthread_t *, const pthread_attr_t *, void *(*)(void *), void *) = dlsym(RTLD_NEXT, "pthread_create");
    wait_here();
    return create(thread, how, begin, given);
}
