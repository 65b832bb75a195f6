/* Loaded before the C library (LD_PRELOAD), so that single calls of a run go wrong on purpose:
   FAIL_ALLOC=N   the Nth request for memory is refused          FAIL_READ=N  FAIL_WRITE=N   the Nth read or write fails
   FAIL_ALLOC_FROM=N  so is each from the Nth on
   SHORT_READ=N   the Nth read gives one byte at most            SHORT_WRITE=N               the Nth write takes one byte at most
                  (-1: each of them)
   FAIL_THREAD=N  the Nth start of a thread is refused (-1: each of them)
   FAIL_SYNC=N    the Nth fsync fails                            FAIL_OWNER=1                no file can be given another owner or group
   TELL_NAMES=FILE  a line for each fsync and each rename, in their order
   INTERRUPT_READ=N  INTERRUPT_WRITE=N   each read or write is interrupted N times before it is made (-1: always)
   COUNT_CALLS=FILE  tells how often memory was asked for, how many reads and writes were made, and how many threads were to start. */
#define _GNU_SOURCE
#include <dlfcn.h>
#include <errno.h>
#include <fcntl.h>
#include <pthread.h>
#include <stdio.h>
#include <stdlib.h>
#include <string.h>
#include <unistd.h>

static long allocs, reads, writes, threads, syncs, interrupted_reads, interrupted_writes;

static long wanted(const char *name) {
    const char *text = getenv(name);
    return text ? atol(text) : 0;
}

/* The program may end without the library's last rites, so the counts are told as they grow. */
static long one_more(long *count) {
    long now = __atomic_add_fetch(count, 1, __ATOMIC_RELAXED);
    const char *name = getenv("COUNT_CALLS");
    if (name) {
        char text[100];
        int length = snprintf(text, sizeof text, "%020ld %020ld %020ld %020ld\n", allocs, reads, writes, threads);
        int file = open(name, O_WRONLY | O_CREAT, 0600);
        if (file >= 0) {
            (void)!pwrite(file, text, (size_t)length, 0);
            close(file);
        }
    }
    return now;
}

static int refused(void) {
    long number = one_more(&allocs), first = wanted("FAIL_ALLOC_FROM");
    return number == wanted("FAIL_ALLOC") || (first > 0 && number >= first);
}

void *malloc(size_t size) {
    static void *(*real)(size_t);
    if (!real) real = (void *(*)(size_t))dlsym(RTLD_NEXT, "malloc");
    return refused() ? NULL : real(size);
}

void *realloc(void *old, size_t size) {
    static void *(*real)(void *, size_t);
    if (!real) real = (void *(*)(void *, size_t))dlsym(RTLD_NEXT, "realloc");
    return refused() ? NULL : real(old, size);
}

int posix_memalign(void **out, size_t align, size_t size) {
    static int (*real)(void **, size_t, size_t);
    if (!real) real = (int (*)(void **, size_t, size_t))dlsym(RTLD_NEXT, "posix_memalign");
    return refused() ? ENOMEM : real(out, align, size);
}

void *aligned_alloc(size_t align, size_t size) {
    static void *(*real)(size_t, size_t);
    if (!real) real = (void *(*)(size_t, size_t))dlsym(RTLD_NEXT, "aligned_alloc");
    return refused() ? NULL : real(align, size);
}

/* 1 where this turn of a call is to be interrupted */
static int interrupts(const char *name, long *so_far) {
    long times = wanted(name);
    if (times < 0 || *so_far < times) {
        (*so_far)++;
        errno = EINTR;
        return 1;
    }
    *so_far = 0;
    return 0;
}

static size_t shortened(const char *name, long number, size_t size) {
    long which = wanted(name);
    return size > 1 && (which < 0 || which == number) ? 1 : size;
}

ssize_t read(int fd, void *buf, size_t size) {
    static ssize_t (*real)(int, void *, size_t);
    if (!real) real = (ssize_t (*)(int, void *, size_t))dlsym(RTLD_NEXT, "read");
    if (interrupts("INTERRUPT_READ", &interrupted_reads)) return -1;
    long number = one_more(&reads);
    if (number == wanted("FAIL_READ")) {
        errno = EIO;
        return -1;
    }
    return real(fd, buf, shortened("SHORT_READ", number, size));
}

ssize_t write(int fd, const void *buf, size_t size) {
    static ssize_t (*real)(int, const void *, size_t);
    if (!real) real = (ssize_t (*)(int, const void *, size_t))dlsym(RTLD_NEXT, "write");
    if (interrupts("INTERRUPT_WRITE", &interrupted_writes)) return -1;
    long number = one_more(&writes);
    if (number == wanted("FAIL_WRITE")) {
        errno = EIO;
        return -1;
    }
    return real(fd, buf, shortened("SHORT_WRITE", number, size));
}

int pthread_create(pthread_t *thread, const pthread_attr_t *how, void *(*start)(void *), void *with) {
    static int (*real)(pthread_t *, const pthread_attr_t *, void *(*)(void *), void *);
    if (!real) real = (int (*)(pthread_t *, const pthread_attr_t *, void *(*)(void *), void *))dlsym(RTLD_NEXT, "pthread_create");
    long number = one_more(&threads), which = wanted("FAIL_THREAD");
    return which < 0 || which == number ? EAGAIN : real(thread, how, start, with);
}

static void tell(const char *line) {
    const char *name = getenv("TELL_NAMES");
    int file = name ? open(name, O_WRONLY | O_CREAT | O_APPEND, 0600) : -1;
    if (file >= 0) {
        static ssize_t (*real)(int, const void *, size_t);
        if (!real) real = (ssize_t (*)(int, const void *, size_t))dlsym(RTLD_NEXT, "write");
        (void)!real(file, line, strlen(line));
        close(file);
    }
}

int fsync(int fd) {
    static int (*real)(int);
    if (!real) real = (int (*)(int))dlsym(RTLD_NEXT, "fsync");
    tell("fsync\n");
    if (__atomic_add_fetch(&syncs, 1, __ATOMIC_RELAXED) == wanted("FAIL_SYNC")) {
        errno = EIO;
        return -1;
    }
    return real(fd);
}

int rename(const char *from, const char *to) {
    static int (*real)(const char *, const char *);
    if (!real) real = (int (*)(const char *, const char *))dlsym(RTLD_NEXT, "rename");
    tell("rename\n");
    return real(from, to);
}

int fchown(int fd, uid_t owner, gid_t group) {
    static int (*real)(int, uid_t, gid_t);
    if (!real) real = (int (*)(int, uid_t, gid_t))dlsym(RTLD_NEXT, "fchown");
    if (wanted("FAIL_OWNER")) {
        errno = EPERM;
        return -1;
    }
    return real(fd, owner, group);
}
