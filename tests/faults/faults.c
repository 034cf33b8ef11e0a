/* Makes one call of the C library fail, or all of them fall short, as a plan asks. sweep.py builds it and has it loaded
 * before the C library.
 *
 *   FAULT   the plan: words, of which the first is KIND:N, if one is:
 *           KIND:N   the call of this kind that comes as number N, from 1, is refused: allocation (memory is asked for),
 *                    open, read, write, sync, rename or thread (a thread is started)
 *           on-thread:THREAD:N   the Nth allocation on one thread is refused; threads are numbered from 1, in the order in
 *                    which they are started
 *           after    what is refused is done first, if it isn't an allocation or a thread, and answered as refused all the same
 *           end      in the place of the answer the process ends, with the status 70
 *           short    a read gives one byte, and a write takes one
 *   CALLS   a path: when the process ends, this file gets the number of calls of each kind, a line each
 *   TRACE   a path: this file gets a line for each open to write (open) and to read (look), read, write, sync, rename and
 *           removal, as it comes
 *
 * The process's own start is counted too, where the C library asks for memory before main.
 */
#define _GNU_SOURCE
#include <dlfcn.h>
#include <errno.h>
#include <fcntl.h>
#include <pthread.h>
#include <stdarg.h>
#include <stddef.h>
#include <stdint.h>
#include <stdio.h>
#include <stdlib.h>
#include <string.h>
#include <sys/syscall.h>
#include <unistd.h>

enum kind { ALLOCATION, OPEN, READ, WRITE, SYNC, RENAME, THREAD, KINDS };
static const char *const names[KINDS] = {"allocation", "open", "read", "write", "sync", "rename", "thread"};
static long counts[KINDS];

/* The C library's own, under the names that it keeps for those who stand before it. */
extern void *__libc_malloc(size_t);
extern void *__libc_calloc(size_t, size_t);
extern void *__libc_realloc(void *, size_t);
extern void *__libc_memalign(size_t, size_t);

/* The plan is read at the first call; getenv takes no memory. */
static const char *plan(void) {
    static const char *read_plan;
    if (!read_plan) {
        read_plan = getenv("FAULT");
        if (!read_plan) read_plan = "";
    }
    return read_plan;
}

static int asks(const char *word) { return strstr(plan(), word) != NULL; }

static int is_short(void) { return asks("short"); }

/* The number of this thread, which is 0 for the first one of the process, and of its allocations so far. */
static __thread long thread_number, own_allocations;

/* Counts an allocation on its thread, and returns whether it is the one that fails. */
static int fails_on_thread(void) {
    long thread, number;
    own_allocations++;
    return sscanf(plan(), "on-thread:%ld:%ld", &thread, &number) == 2 && thread == thread_number && number == own_allocations;
}

/* Counts a call, and returns whether it is the one that fails. */
static int fails(enum kind kind) {
    long number = __atomic_add_fetch(&counts[kind], 1, __ATOMIC_SEQ_CST);
    if (kind == ALLOCATION && strncmp(plan(), "on-thread:", 10) == 0) return fails_on_thread();
    size_t length = strlen(names[kind]);
    if (strncmp(plan(), names[kind], length) != 0 || plan()[length] != ':') return 0;
    return atol(plan() + length + 1) == number;
}

/* Writes to a file of the plan's, past the functions below. */
static void note(const char *variable, int flags, const char *text) {
    const char *path = getenv(variable);
    if (!path) return;
    long file = syscall(SYS_openat, AT_FDCWD, path, O_WRONLY | O_CREAT | flags, 0600);
    if (file < 0) return;
    syscall(SYS_write, file, text, strlen(text));
    syscall(SYS_close, file);
}

static void trace(const char *what, const char *first, const char *second) {
    char line[1024];
    snprintf(line, sizeof line, "%s %s %s\n", what, first, second);
    note("TRACE", O_APPEND, line);
}

/* The path of an open file. */
static const char *path_of(int file, char *path, size_t size) {
    char link[64];
    if (!getenv("TRACE")) return "";
    snprintf(link, sizeof link, "/proc/self/fd/%d", file);
    ssize_t length = readlink(link, path, size - 1);
    path[length < 0 ? 0 : length] = 0;
    return path;
}

__attribute__((destructor)) static void report(void) {
    char text[256];
    size_t used = 0;
    for (int kind = 0; kind < KINDS; kind++)
        used += (size_t)snprintf(text + used, sizeof text - used, "%s %ld\n", names[kind], counts[kind]);
    note("CALLS", O_TRUNC, text);
}

/* A program that may have threads ends by this, past all destructors. */
void _exit(int status) {
    report();
    for (;;) syscall(SYS_exit_group, status);
}

/* ---- memory */

/* Ends the process if the plan asks for it. */
static void end_here(void) {
    if (asks("end")) _exit(70);
}

static void *no_memory(void) {
    end_here();
    errno = ENOMEM;
    return NULL;
}

void *malloc(size_t size) { return fails(ALLOCATION) ? no_memory() : __libc_malloc(size); }

void *calloc(size_t count, size_t size) { return fails(ALLOCATION) ? no_memory() : __libc_calloc(count, size); }

void *realloc(void *old, size_t size) { return fails(ALLOCATION) ? no_memory() : __libc_realloc(old, size); }

void *memalign(size_t alignment, size_t size) {
    return fails(ALLOCATION) ? no_memory() : __libc_memalign(alignment, size);
}

void *aligned_alloc(size_t alignment, size_t size) { return memalign(alignment, size); }

int posix_memalign(void **place, size_t alignment, size_t size) {
    void *block = memalign(alignment, size);
    if (!block) return ENOMEM;
    *place = block;
    return 0;
}

/* ---- files */

static int refused(int why) {
    end_here();
    errno = why;
    return -1;
}

/* How a call that the plan names is refused: it does nothing, or it is done. */
enum refusal { NONE, BEFORE, AFTER };

static enum refusal refusal_of(enum kind kind) {
    if (!fails(kind)) return NONE;
    return asks("after") ? AFTER : BEFORE;
}

/* The answer of a call that is done: its own, or as if it weren't. */
static long answer(enum refusal how, long own, int why) { return how == AFTER ? refused(why) : own; }

static int open_at(int folder, const char *path, int flags, mode_t mode) {
    trace(flags & (O_WRONLY | O_RDWR) ? "open" : "look", path, "");
    enum refusal how = refusal_of(OPEN);
    if (how == BEFORE) return refused(EACCES);
    return (int)answer(how, syscall(SYS_openat, folder, path, flags, mode), EACCES);
}

/* Returns the fourth argument of an open, where there is one. */
#define MODE_OF(last, flags, mode)                                                                                     \
    mode_t mode = 0;                                                                                                   \
    if ((flags) & (O_CREAT | O_TMPFILE)) {                                                                             \
        va_list rest;                                                                                                  \
        va_start(rest, last);                                                                                          \
        mode = va_arg(rest, mode_t);                                                                                   \
        va_end(rest);                                                                                                  \
    }

int open(const char *path, int flags, ...) {
    MODE_OF(flags, flags, mode)
    return open_at(AT_FDCWD, path, flags, mode);
}

int open64(const char *path, int flags, ...) {
    MODE_OF(flags, flags, mode)
    return open_at(AT_FDCWD, path, flags, mode);
}

int openat(int folder, const char *path, int flags, ...) {
    MODE_OF(flags, flags, mode)
    return open_at(folder, path, flags, mode);
}

int openat64(int folder, const char *path, int flags, ...) {
    MODE_OF(flags, flags, mode)
    return open_at(folder, path, flags, mode);
}

ssize_t read(int file, void *buffer, size_t size) {
    char path[512];
    trace("read", path_of(file, path, sizeof path), "");
    enum refusal how = refusal_of(READ);
    if (how == BEFORE) return refused(EIO);
    if (is_short() && size > 1) size = 1;
    return answer(how, syscall(SYS_read, file, buffer, size), EIO);
}

ssize_t write(int file, const void *buffer, size_t size) {
    char path[512];
    trace("write", path_of(file, path, sizeof path), "");
    enum refusal how = refusal_of(WRITE);
    if (how == BEFORE) return refused(ENOSPC);
    if (is_short() && size > 1) size = 1;
    return answer(how, syscall(SYS_write, file, buffer, size), ENOSPC);
}

static ssize_t read_at(int file, void *buffer, size_t size, off64_t place) {
    char path[512];
    trace("read", path_of(file, path, sizeof path), "");
    enum refusal how = refusal_of(READ);
    if (how == BEFORE) return refused(EIO);
    if (is_short() && size > 1) size = 1;
    return answer(how, syscall(SYS_pread64, file, buffer, size, place), EIO);
}

ssize_t pread(int file, void *buffer, size_t size, off_t place) { return read_at(file, buffer, size, place); }

ssize_t pread64(int file, void *buffer, size_t size, off64_t place) { return read_at(file, buffer, size, place); }

static ssize_t write_at(int file, const void *buffer, size_t size, off64_t place) {
    char path[512];
    trace("write", path_of(file, path, sizeof path), "");
    enum refusal how = refusal_of(WRITE);
    if (how == BEFORE) return refused(ENOSPC);
    if (is_short() && size > 1) size = 1;
    return answer(how, syscall(SYS_pwrite64, file, buffer, size, place), ENOSPC);
}

ssize_t pwrite(int file, const void *buffer, size_t size, off_t place) { return write_at(file, buffer, size, place); }

ssize_t pwrite64(int file, const void *buffer, size_t size, off64_t place) { return write_at(file, buffer, size, place); }

static int synced(int file, long call) {
    char path[512];
    trace("sync", path_of(file, path, sizeof path), "");
    enum refusal how = refusal_of(SYNC);
    if (how == BEFORE) return refused(EIO);
    return (int)answer(how, syscall(call, file), EIO);
}

int fsync(int file) { return synced(file, SYS_fsync); }

int fdatasync(int file) { return synced(file, SYS_fdatasync); }

static int renamed(int from_folder, const char *from, int to_folder, const char *to) {
    trace("rename", from, to);
    enum refusal how = refusal_of(RENAME);
    if (how == BEFORE) return refused(EACCES);
    return (int)answer(how, syscall(SYS_renameat, from_folder, from, to_folder, to), EACCES);
}

int rename(const char *from, const char *to) { return renamed(AT_FDCWD, from, AT_FDCWD, to); }

int renameat(int from_folder, const char *from, int to_folder, const char *to) {
    return renamed(from_folder, from, to_folder, to);
}

static int removed(int folder, const char *path, int flags) {
    trace("remove", path, "");
    return (int)syscall(SYS_unlinkat, folder, path, flags);
}

int unlink(const char *path) { return removed(AT_FDCWD, path, 0); }

int unlinkat(int folder, const char *path, int flags) { return removed(folder, path, flags); }

/* ---- threads */

/* What each thread runs, by its number. */
static struct thread_start {
    void *(*start)(void *);
    void *with;
} starts[64];

static void *begin(void *number) {
    thread_number = (long)number;
    return starts[thread_number].start(starts[thread_number].with);
}

int pthread_create(pthread_t *thread, const pthread_attr_t *how, void *(*start)(void *), void *with) {
    static int (*own)(pthread_t *, const pthread_attr_t *, void *(*)(void *), void *);
    if (!own) *(void **)&own = dlsym(RTLD_NEXT, "pthread_create");
    if (!fails(THREAD)) {
        long number = counts[THREAD];
        if (number >= (long)(sizeof starts / sizeof *starts)) abort();
        starts[number] = (struct thread_start){start, with};
        return own(thread, how, begin, (void *)number);
    }
    end_here();
    return EAGAIN;
}
