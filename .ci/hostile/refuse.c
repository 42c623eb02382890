/* Preloaded into the built program: refuses memory and threads, and cuts or fails what it reads and writes.
 *
 * The environment says what. Calls are counted from 1; a number that isn't set refuses nothing.
 *   REFUSE_AT       the malloc or realloc of this number is refused
 *   REFUSE_FROM     this one is, and all behind it
 *   REFUSE_THREADS  each thread is
 *   REFUSE_TELL     each malloc or realloc writes a byte to this file descriptor, so that they can be counted
 *   PIECE           a read from 0 and a write to 1 take at most so many bytes
 *   READ_AT         the read from 0 of this number fails; WRITE_AT the write to 1
 */
#define _GNU_SOURCE
#include <dlfcn.h>
#include <errno.h>
#include <pthread.h>
#include <stdatomic.h>
#include <stdlib.h>
#include <sys/syscall.h>
#include <unistd.h>

static void *(*real_malloc)(size_t);
static void *(*real_realloc)(void *, size_t);
static int (*real_create)(pthread_t *, const pthread_attr_t *, void *(*)(void *), void *);
static long refuse_at, refuse_from, refuse_threads, tell, piece, read_at, write_at;
static atomic_long asked, reads, writes;
static atomic_int begun;

static long number_of(const char *name) {
    const char *value = getenv(name);
    return value ? atol(value) : 0;
}

__attribute__((constructor)) static void begin(void) {
    real_malloc = dlsym(RTLD_NEXT, "malloc");
    real_realloc = dlsym(RTLD_NEXT, "realloc");
    real_create = dlsym(RTLD_NEXT, "pthread_create");
    refuse_at = number_of("REFUSE_AT");
    refuse_from = number_of("REFUSE_FROM");
    refuse_threads = number_of("REFUSE_THREADS");
    tell = number_of("REFUSE_TELL");
    piece = number_of("PIECE");
    read_at = number_of("READ_AT");
    write_at = number_of("WRITE_AT");
    begun = 1;
}

static int is_refused(void) {
    if (!begun) return 0;
    long number = atomic_fetch_add(&asked, 1) + 1;
    if (tell) syscall(SYS_write, tell, "m", 1);
    return number == refuse_at || (refuse_from && number >= refuse_from);
}

void *malloc(size_t size) {
    extern void *__libc_malloc(size_t);
    if (is_refused()) { errno = ENOMEM; return NULL; }
    return real_malloc ? real_malloc(size) : __libc_malloc(size);
}

void *realloc(void *old, size_t size) {
    extern void *__libc_realloc(void *, size_t);
    if (is_refused()) { errno = ENOMEM; return NULL; }
    return real_realloc ? real_realloc(old, size) : __libc_realloc(old, size);
}

int pthread_create(pthread_t *thread, const pthread_attr_t *how, void *(*work)(void *), void *with) {
    return refuse_threads ? EAGAIN : real_create(thread, how, work, with);
}

ssize_t read(int from, void *into, size_t size) {
    if (from == 0 && begun) {
        if (atomic_fetch_add(&reads, 1) + 1 == read_at) { errno = EIO; return -1; }
        if (piece && size > (size_t)piece) size = piece;
    }
    return syscall(SYS_read, from, into, size);
}

static ssize_t put(int to, const void *from, size_t size) {
    if (to == 1 && begun) {
        if (atomic_fetch_add(&writes, 1) + 1 == write_at) { errno = EIO; return -1; }
        if (piece && size > (size_t)piece) size = piece;
    }
    return syscall(SYS_write, to, from, size);
}

ssize_t write(int to, const void *from, size_t size) { return put(to, from, size); }
ssize_t __write(int to, const void *from, size_t size) { return put(to, from, size); }
