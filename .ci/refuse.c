// Preloaded into a program: refuses one of its requests, for memory, to read, to write, to start a thread, to open, sync or
// name a file, or all from one on; or each request for more than so many bytes of memory at once; or kills it at one of its
// requests that have to do with files. REFUSE says which, as in "memory 5", "thread 5..", "interrupt write 5", "sync 1",
// "kill 5" and "large 5", and REFUSE_COUNT names a file of eight bytes in which the requests of that kind are counted.
#define _GNU_SOURCE
#include <dlfcn.h>
#include <errno.h>
#include <fcntl.h>
#include <pthread.h>
#include <signal.h>
#include <stdarg.h>
#include <stddef.h>
#include <stdlib.h>
#include <string.h>
#include <sys/mman.h>
#include <sys/syscall.h>
#include <unistd.h>

void *__libc_malloc(size_t), *__libc_calloc(size_t, size_t), *__libc_realloc(void *, size_t);

static char kind;
static long at;
static int from, error = EIO;
static long *count;
static int (*start_thread)(pthread_t *, const pthread_attr_t *, void *(*)(void *), void *);

__attribute__((constructor)) static void begin(void) {
    *(void **)&start_thread = dlsym(RTLD_NEXT, "pthread_create");
    const char *order = getenv("REFUSE"), *file = getenv("REFUSE_COUNT");
    int fd = order && file ? open(file, O_RDWR) : -1;
    if (fd < 0) return;
    at = atol(strrchr(order, ' '));
    if (strncmp(order, "interrupt ", 10) == 0) {
        error = EINTR;
        order += 10;
    }
    from = strstr(order, "..") != NULL;
    void *shared = mmap(NULL, sizeof *count, PROT_READ | PROT_WRITE, MAP_SHARED, fd, 0);
    close(fd);
    if (shared == MAP_FAILED) _exit(99);
    count = shared;
    kind = order[0];
}

static int refused(char asked) {
    if (asked != kind) return 0;
    long number = __atomic_add_fetch(count, 1, __ATOMIC_SEQ_CST);
    return from ? number >= at : number == at;
}

// Of those that have to do with files.
static int refused_at(char asked) {
    if (kind == 'k' && __atomic_add_fetch(count, 1, __ATOMIC_SEQ_CST) == at) kill(getpid(), SIGKILL);
    if (!refused(asked)) return 0;
    errno = error;
    return 1;
}

static int no_room(size_t size) { return kind == 'l' ? size > (size_t)at : refused('m'); }

static void *no_memory(void) {
    errno = ENOMEM;
    return NULL;
}

void *malloc(size_t size) { return no_room(size) ? no_memory() : __libc_malloc(size); }

void *calloc(size_t items, size_t size) { return no_room(items * size) ? no_memory() : __libc_calloc(items, size); }

void *realloc(void *block, size_t size) { return no_room(size) ? no_memory() : __libc_realloc(block, size); }

ssize_t read(int fd, void *bytes, size_t most) {
    return refused_at('r') ? -1 : syscall(SYS_read, fd, bytes, most);
}

ssize_t write(int fd, const void *bytes, size_t most) {
    // What is told on standard error is not refused.
    return fd != 2 && refused_at('w') ? -1 : syscall(SYS_write, fd, bytes, most);
}

int open(const char *path, int how, ...) {
    va_list rest;
    va_start(rest, how);
    int mode = how & O_CREAT ? va_arg(rest, int) : 0;
    va_end(rest);
    return refused_at('o') ? -1 : syscall(SYS_openat, AT_FDCWD, path, how, mode);
}

int fsync(int fd) { return refused_at('s') ? -1 : syscall(SYS_fsync, fd); }

int rename(const char *from, const char *to) {
    return refused_at('n') ? -1 : syscall(SYS_renameat2, AT_FDCWD, from, AT_FDCWD, to, 0);
}

int pthread_create(pthread_t *thread, const pthread_attr_t *how, void *(*work)(void *), void *given) {
    return refused('t') ? EAGAIN : start_thread(thread, how, work, given);
}
