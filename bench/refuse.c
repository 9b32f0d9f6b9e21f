/* Loaded before a program: refuses its allocation number REFUSE, counted from 1, or refuses to start its thread number REFUSE_THREAD, or with
   REFUSE_REST that one and each behind it, and tells that by a byte on descriptor REFUSE_TELLS. With REFUSE_IN only allocations are counted that
   are asked for in a shared library whose path has that word. A refused block that was to grow stays as it was. All other allocations and
   threads are the C library's. */
#define _GNU_SOURCE
#include <dlfcn.h>
#include <errno.h>
#include <pthread.h>
#include <stdatomic.h>
#include <stddef.h>
#include <stdlib.h>
#include <string.h>
#include <unistd.h>

void *__libc_malloc(size_t size);
void *__libc_calloc(size_t count, size_t size);
void *__libc_realloc(void *block, size_t size);

typedef int starter(pthread_t *, const pthread_attr_t *, void *(*)(void *), void *);

static atomic_long blocks;
static atomic_long threads;
static const char *in;
static int is_rest;
static int tells = -1;
static starter *start;

static long number(const char *name, long missing) {
    const char *word = getenv(name);
    return word ? atol(word) : missing;
}

__attribute__((constructor)) static void begin(void) {
    start = (starter *)dlsym(RTLD_NEXT, "pthread_create");
    tells = (int)number("REFUSE_TELLS", -1);
    in = getenv("REFUSE_IN");
    is_rest = number("REFUSE_REST", 0) != 0;
    threads = number("REFUSE_THREAD", 0);
    blocks = number("REFUSE", 0);
}

/* Tells that something was refused. */
static void tell(void) {
    if (tells >= 0 && write(tells, "r", 1) != 1) {
        abort();
    }
}

/* Whether code of the library that is meant stands at an address; any library is where none is named. */
static int is_in(const void *address) {
    Dl_info found;
    return !in || (dladdr(address, &found) && strstr(found.dli_fname, in));
}

/* Counts an allocation by its caller, and tells whether it is the one. */
static int is_refused(const void *caller) {
    if (blocks <= 0 || !is_in(caller) || atomic_fetch_sub(&blocks, 1) != 1) {
        return 0;
    }
    tell();
    errno = ENOMEM;
    return 1;
}

/* Counts a thread, and tells whether it is the one, or comes behind it. */
static int is_refused_thread(void) {
    if (threads <= 0) {
        return 0;
    }
    if (is_rest && threads == 1) {
        tell();
        return 1;
    }
    if (atomic_fetch_sub(&threads, 1) != 1) {
        return 0;
    }
    tell();
    return 1;
}

void *malloc(size_t size) {
    return is_refused(__builtin_return_address(0)) ? NULL : __libc_malloc(size);
}

void *calloc(size_t count, size_t size) {
    return is_refused(__builtin_return_address(0)) ? NULL : __libc_calloc(count, size);
}

void *realloc(void *block, size_t size) {
    return is_refused(__builtin_return_address(0)) ? NULL : __libc_realloc(block, size);
}

int pthread_create(pthread_t *thread, const pthread_attr_t *how, void *(*what)(void *), void *with) {
    return is_refused_thread() ? EAGAIN : start(thread, how, what, with);
}
