// Holds a thread of a program in one call until the pipe `hold` in its folder has been opened for writing and closed again.
// holding.py builds it as a library and preloads it.
//
//   HOLD     the call: `sync` (before an fsync), `lock` (before a lock of a file), `rename` (after a rename), `look` (after
//            a query of a file's state that found no file) or `thread` (a thread, before it does anything)
//   HOLD_AT  which of these calls, or which thread in the order in which they are started, from 1
#define _GNU_SOURCE
#include <dlfcn.h>
#include <errno.h>
#include <fcntl.h>
#include <pthread.h>
#include <stdlib.h>
#include <string.h>
#include <sys/syscall.h>
#include <unistd.h>

struct statx;

static void hold(void) {
    int pipe = open("hold", O_RDONLY | O_CLOEXEC);
    char byte;
    while (pipe >= 0 && read(pipe, &byte, 1) > 0) {}
    if (pipe >= 0) close(pipe);
}

// Whether the call that is held is of this kind, and has this number.
static int is_held(const char *kind, int number) {
    const char *wanted = getenv("HOLD"), *at = getenv("HOLD_AT");
    return wanted && strcmp(wanted, kind) == 0 && number == (at ? atoi(at) : 1);
}

// Counts a call of a kind, and holds it if it is the one.
static void count(const char *kind, int *calls) {
    if (is_held(kind, __atomic_add_fetch(calls, 1, __ATOMIC_SEQ_CST))) hold();
}

int fsync(int file) {
    static int calls;
    count("sync", &calls);
    return syscall(SYS_fsync, file);
}

int flock(int file, int operation) {
    static int calls;
    count("lock", &calls);
    return syscall(SYS_flock, file, operation);
}

int rename(const char *from, const char *to) {
    static int calls;
    int answer = syscall(SYS_renameat, AT_FDCWD, from, AT_FDCWD, to);
    int error = errno;
    count("rename", &calls);
    errno = error;
    return answer;
}

int statx(int folder, const char *path, int flags, unsigned mask, struct statx *found) {
    static int calls;
    int answer = syscall(SYS_statx, folder, path, flags, mask, found);
    int error = errno;
    if (answer < 0 && error == ENOENT) count("look", &calls);
    errno = error;
    return answer;
}

// What each thread runs, by its number.
static struct {
    void *(*start)(void *);
    void *with;
} starts[64];

static void *begin(void *number) {
    int thread = (int)(long)number;
    if (is_held("thread", thread)) hold();
    return starts[thread].start(starts[thread].with);
}

int pthread_create(pthread_t *made, const pthread_attr_t *how, void *(*start)(void *), void *with) {
    static int (*own)(pthread_t *, const pthread_attr_t *, void *(*)(void *), void *);
    static int threads;
    if (!own) *(void **)&own = dlsym(RTLD_NEXT, "pthread_create");
    int number = __atomic_add_fetch(&threads, 1, __ATOMIC_SEQ_CST);
    if (number >= (int)(sizeof starts / sizeof *starts)) abort();
    starts[number].start = start;
    starts[number].with = with;
    return own(made, how, begin, (void *)(long)number);
}
