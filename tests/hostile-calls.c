/* Preloaded into a program: numbers its calls of files, streams, clocks and chance, from 1 on, reports them, and lets some of them go wrong.
 *
 * HOSTILE says which and how, as "FIRST LAST KIND END HOW": the calls from this number to that one, of this kind (* for any), of a file whose
 * path ends so (* for any). A write to a standard stream is of the kind "print". Some may stand there, with semicolons between them. HOW is a number,
 * with which the call fails as errno, or one of these words:
 *
 *   short       a read or a write passes half of its bytes
 *   lost        the call says that it has done all, and does nothing
 *   misplaced   a write goes one page further on, and says that it has done all
 *   flipped     one bit of what is read is another one
 *   kill-before, kill-within, kill-after   the process is killed; within a write, half of its bytes are written
 *   halt        the process halts before the call
 *
 * Each call is reported to the descriptor that CALLS names, with its answer, but for one that is lost. If TICK is there, each clock begins at
 * CLOCK seconds, and each look moves it by so many nanoseconds; with the seed JUMPS it also jumps. Random bytes come from the seed CHANCE. */
#define _GNU_SOURCE
#include <dlfcn.h>
#include <errno.h>
#include <fcntl.h>
#include <limits.h>
#include <pthread.h>
#include <signal.h>
#include <stdarg.h>
#include <stdint.h>
#include <stdio.h>
#include <stdlib.h>
#include <string.h>
#include <sys/stat.h>
#include <sys/syscall.h>
#include <sys/uio.h>
#include <time.h>
#include <unistd.h>

#define PAGE 4096
#define SECOND 1000000000

/* A call before it is made: as the system has it, and what is known of it. */
struct call {
    const char *kind, *path, *other; /* the paths that it names */
    int descriptor;                  /* or -1 */
    long system, words[5];
    char *into;        /* where what is read goes */
    const char *bytes; /* what is written */
    long length;       /* of either */
    int64_t at;        /* the place of a write, or -1; the length that a file gets; of an open, what `opens` says */
};

/* A call as it is reported. Then come its path, its other path, and the bytes that were written. */
struct report {
    uint32_t size;
    char kind[12];
    uint64_t number;
    int64_t answer; /* or -errno */
    uint64_t node;  /* the file's number in its file system */
    int64_t at;
    uint32_t path, other, bytes;
    int32_t descriptor;
};

static pthread_mutex_t lock = PTHREAD_MUTEX_INITIALIZER;
static struct rule {
    uint64_t first, last;
    char kind[12], end[64], how[16];
} rules[4];
static int rule_count, reports = -1;
static uint64_t count, ticks, jumps, chance, clocks[2];
static char *(*true_realpath)(const char *, char *);

static uint64_t number_of(const char *name) {
    const char *text = getenv(name);
    return text ? strtoull(text, NULL, 10) : 0;
}

__attribute__((constructor)) static void begin(void) {
    for (const char *text = getenv("HOSTILE"); text && rule_count < 4; text = strchr(text, ';')) {
        struct rule *rule = &rules[rule_count++];
        sscanf(text += *text == ';', "%lu %lu %11s %63s %15[^;]", &rule->first, &rule->last, rule->kind, rule->end, rule->how);
    }
    if (getenv("CALLS")) reports = (int)number_of("CALLS");
    ticks = number_of("TICK");
    clocks[0] = clocks[1] = number_of("CLOCK") * SECOND;
    jumps = number_of("JUMPS");
    chance = number_of("CHANCE");
    true_realpath = (char *(*)(const char *, char *))dlsym(RTLD_NEXT, "realpath");
}

static uint64_t next(uint64_t *seed) {
    *seed ^= *seed << 13;
    *seed ^= *seed >> 7;
    return *seed ^= *seed << 17;
}

/* Puts the path that a call names, or that of its open file, into this room. */
static void find_path(const struct call *call, char *room) {
    char name[32];
    if (call->path && *call->path) {
        snprintf(room, PATH_MAX, "%s", call->path);
        return;
    }
    snprintf(name, sizeof name, "/proc/self/fd/%d", call->descriptor);
    long length = syscall(SYS_readlink, name, room, PATH_MAX - 1);
    room[length < 0 ? 0 : length] = 0;
}

static int ends_so(const char *text, const char *part) {
    size_t whole = strlen(text), size = strlen(part);
    return whole >= size && !strcmp(text + whole - size, part);
}

/* How this call goes wrong; NULL if it doesn't. */
static const char *way_of(const struct call *call, const char *path) {
    for (struct rule *rule = rules; rule < rules + rule_count; rule++) {
        int is_kind = !strcmp(rule->kind, "*") || !strcmp(rule->kind, call->kind);
        int is_file = !strcmp(rule->end, "*") || ends_so(path, rule->end);
        if (count >= rule->first && count <= rule->last && is_kind && is_file) return rule->how;
    }
    return NULL;
}

/* What the system answers to a call of so many bytes, or -errno. */
static long made(const struct call *call, long length) {
    const long *words = call->words;
    long answer = syscall(call->system, words[0], words[1], call->length ? length : words[2], words[3], words[4]);
    return answer < 0 ? -errno : answer;
}

/* The signal goes to this thread, which then makes no call more, and stops or ends all others. */
static void end_by(int signal) { syscall(SYS_tgkill, syscall(SYS_getpid), syscall(SYS_gettid), signal); }

/* What the program is told of a call that goes wrong. A close that fails has closed the file. */
static long hostile(struct call *call, const char *how) {
    long half = (call->length + 1) / 2, error = atol(how);
    if (error && strcmp(call->kind, "close")) return -error;
    if (!strcmp(how, "lost")) return call->length;
    if (!strcmp(how, "short")) return made(call, half);
    if (!strcmp(how, "halt")) end_by(SIGSTOP);
    if (!strcmp(how, "kill-within") && call->bytes) made(call, half);
    if (!strcmp(how, "kill-before") || !strcmp(how, "kill-within")) end_by(SIGKILL);
    if (!strcmp(how, "misplaced")) call->words[3] += PAGE;
    long answer = made(call, call->length);
    if (!strcmp(how, "kill-after")) end_by(SIGKILL);
    if (!strcmp(how, "flipped") && call->into && answer > 0) call->into[answer / 2] ^= 1 << count % 8;
    return error ? -error : answer;
}

/* Where a write without a place begins; -1 of a stream. */
static int64_t place_in(int descriptor) {
    struct stat found;
    if (syscall(SYS_fstat, descriptor, &found) || !S_ISREG(found.st_mode)) return -1;
    if (syscall(SYS_fcntl, descriptor, F_GETFL) & O_APPEND) return found.st_size;
    return syscall(SYS_lseek, descriptor, 0, SEEK_CUR);
}

static void report(const struct call *call, const char *path, long answer) {
    struct stat found;
    const char *other = call->other ? call->other : "";
    int descriptor = answer >= 0 && !strcmp(call->kind, "open") ? (int)answer : call->descriptor;
    struct report head = {.number = count, .answer = answer, .at = call->at, .descriptor = descriptor};
    strncpy(head.kind, call->kind, sizeof head.kind - 1);
    head.node = descriptor >= 0 && !syscall(SYS_fstat, descriptor, &found) ? found.st_ino : 0;
    head.path = strlen(path), head.other = strlen(other), head.bytes = call->bytes && answer > 0 ? answer : 0;
    head.size = sizeof head + head.path + head.other + head.bytes;
    struct iovec parts[] = {{&head, sizeof head}, {(void *)path, head.path}, {(void *)other, head.other}, {(void *)call->bytes, head.bytes}};
    syscall(SYS_writev, reports, parts, 4);
}

/* Makes a call in its turn, or lets it go wrong. It answers as the C library does. */
static long pass(struct call call) {
    char path[PATH_MAX];
    pthread_mutex_lock(&lock);
    count++;
    find_path(&call, path);
    if (call.bytes && call.system == SYS_write) call.at = place_in(call.descriptor);
    const char *how = way_of(&call, path);
    long answer = how ? hostile(&call, how) : made(&call, call.length);
    if (reports >= 0 && !(how && !strcmp(how, "lost"))) report(&call, path, answer);
    pthread_mutex_unlock(&lock);
    if (answer >= 0) return answer;
    errno = (int)-answer;
    return -1;
}

/* ---- the calls */

#define OF_FILE(what, file, number, ...) {.kind = what, .descriptor = file, .system = number, .words = {__VA_ARGS__}}
#define OF_PATH(what, name, number, ...) {.kind = what, .path = name, .descriptor = -1, .system = number, .words = {__VA_ARGS__}}
#define CALL_OF_FILE(...) pass((struct call)OF_FILE(__VA_ARGS__))
#define CALL_OF_PATH(...) pass((struct call)OF_PATH(__VA_ARGS__))

/* Whether an open makes a file, 1, or empties one, 2; 4 of a folder. */
static int64_t opens(const char *path, int flags) {
    struct stat found;
    if (syscall(SYS_newfstatat, AT_FDCWD, path, &found, 0)) return flags & O_CREAT ? 1 : 0;
    return (flags & O_TRUNC ? 2 : 0) | (S_ISDIR(found.st_mode) ? 4 : 0);
}

int open(const char *path, int flags, ...) {
    va_list more;
    va_start(more, flags);
    mode_t mode = flags & O_CREAT ? va_arg(more, mode_t) : 0;
    va_end(more);
    struct call call = OF_PATH("open", path, SYS_open, (long)path, flags, mode);
    call.at = opens(path, flags);
    return pass(call);
}

static ssize_t any_read(struct call call, void *into, size_t length) {
    call.into = into, call.length = length;
    return pass(call);
}

static ssize_t any_write(struct call call, const void *bytes, size_t length, off_t at) {
    call.bytes = bytes, call.length = length, call.at = at;
    return pass(call);
}

ssize_t read(int from, void *into, size_t length) {
    return any_read((struct call)OF_FILE("read", from, SYS_read, from, (long)into, length), into, length);
}

ssize_t pread(int from, void *into, size_t length, off_t at) {
    return any_read((struct call)OF_FILE("read", from, SYS_pread64, from, (long)into, length, at), into, length);
}

ssize_t write(int to, const void *bytes, size_t length) {
    const char *kind = to <= STDERR_FILENO ? "print" : "write";
    return any_write((struct call)OF_FILE(kind, to, SYS_write, to, (long)bytes, length), bytes, length, -1);
}

ssize_t pwrite(int to, const void *bytes, size_t length, off_t at) {
    return any_write((struct call)OF_FILE("write", to, SYS_pwrite64, to, (long)bytes, length, at), bytes, length, at);
}

int ftruncate(int file, off_t length) {
    struct call call = OF_FILE("cut", file, SYS_ftruncate, file, length);
    call.at = length;
    return pass(call);
}

int rename(const char *path, const char *other) {
    struct call call = OF_PATH("rename", path, SYS_rename, (long)path, (long)other);
    call.other = other;
    return pass(call);
}

int fsync(int file) { return CALL_OF_FILE("sync", file, SYS_fsync, file); }
int fdatasync(int file) { return CALL_OF_FILE("sync", file, SYS_fdatasync, file); }
int close(int file) { return CALL_OF_FILE("close", file, SYS_close, file); }
int flock(int file, int what) { return CALL_OF_FILE("lock", file, SYS_flock, file, what); }
int fchmod(int file, mode_t mode) { return CALL_OF_FILE("mode", file, SYS_fchmod, file, mode); }
int fchown(int file, uid_t owner, gid_t group) { return CALL_OF_FILE("owner", file, SYS_fchown, file, owner, group); }
int unlink(const char *path) { return CALL_OF_PATH("unlink", path, SYS_unlink, (long)path); }
int mkdir(const char *path, mode_t mode) { return CALL_OF_PATH("mkdir", path, SYS_mkdir, (long)path, mode); }

int posix_fadvise(int file, off_t at, off_t length, int advice) {
    return CALL_OF_FILE("advise", file, SYS_fadvise64, file, at, length, advice) ? errno : 0;
}

int fcntl(int file, int what, ...) {
    va_list more;
    va_start(more, what);
    long word = va_arg(more, long);
    va_end(more);
    return CALL_OF_FILE(what == F_OFD_SETLK ? "lock" : "copy", file, SYS_fcntl, file, what, word);
}

int statx(int folder, const char *path, int flags, unsigned mask, struct statx *found) {
    struct call call = OF_PATH("look", path, SYS_statx, folder, (long)path, flags, mask, (long)found);
    call.descriptor = folder;
    return pass(call);
}

/* The C library resolves it by calls that aren't seen here: this one stands for them. */
char *realpath(const char *path, char *found) {
    struct stat room;
    if (CALL_OF_PATH("resolve", path, SYS_newfstatat, AT_FDCWD, (long)path, (long)&room) && errno != ENOENT) return NULL;
    return true_realpath(path, found);
}

int clock_gettime(clockid_t clock, struct timespec *found) {
    int answer = CALL_OF_FILE("clock", -1, SYS_clock_gettime, clock, (long)found), is_monotonic = clock != CLOCK_REALTIME;
    if (answer || !ticks) return answer;
    pthread_mutex_lock(&lock);
    uint64_t *now = &clocks[is_monotonic];
    *now += ticks;
    if (jumps && next(&jumps) % 3 == 0) *now += next(&jumps) % ((uint64_t)SECOND << 26) * (is_monotonic || jumps & 1 ? 1 : -1);
    *found = (struct timespec){(int64_t)*now / SECOND, (int64_t)*now % SECOND};
    pthread_mutex_unlock(&lock);
    return 0;
}

int getentropy(void *into, size_t length) {
    unsigned char *bytes = into;
    if (CALL_OF_FILE("random", -1, SYS_getrandom, (long)into, length) < 0) return -1;
    for (size_t at = 0; chance && at < length; at++) bytes[at] = next(&chance) >> 32;
    return 0;
}
