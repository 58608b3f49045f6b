/* A library between the package and the real one. It aborts the program if a
** call breaks what the header asks of its callers. owed.py writes calls.h, with
** all functions of the header. */
#include <dlfcn.h>
#include <pthread.h>
#include <stdio.h>
#include <stdlib.h>

#include "sourcemap.h"

#define HANDLES 64

static pthread_mutex_t lock = PTHREAD_MUTEX_INITIALIZER;
static const void *in_use[HANDLES];
static long calls;

static void check(bool holds, const char *name, const char *what) {
    if (!holds) {
        fprintf(stderr, "%s: %s\n", name, what);
        abort();
    }
}

static void *function(const char *name) {
    void *library = dlopen(getenv("OWED_TO"), RTLD_NOW | RTLD_LOCAL);
    check(library != NULL, name, "there is no real library");
    return dlsym(library, name);
}

static bool are_zeros(const void *start, size_t size) {
    const unsigned char *bytes = start;
    while (size > 0 && bytes[size - 1] == 0) {
        size--;
    }
    return size == 0;
}

static bool are_apart(const void *one, size_t size, const void *other, size_t other_size) {
    return (const char *)one + size <= (const char *)other || (const char *)other + other_size <= (const char *)one;
}

/* Replaces `from` by `to` in the list of handles in use, if it is there. */
static bool replace(const void *from, const void *to) {
    for (int i = 0; i < HANDLES; i++) {
        if (in_use[i] == from) {
            in_use[i] = to;
            return true;
        }
    }
    return false;
}

static void begin(const void *handle, const char *name) {
    pthread_mutex_lock(&lock);
    calls++;
    check(!replace(handle, handle), name, "the handle is in use");
    check(replace(NULL, handle), name, "too many handles are in use");
    pthread_mutex_unlock(&lock);
}

static void end(const void *handle) {
    pthread_mutex_lock(&lock);
    replace(handle, NULL);
    pthread_mutex_unlock(&lock);
}

__attribute__((destructor)) static void report(void) {
    fprintf(stderr, "%ld uses of handles were checked\n", calls);
}

#include "calls.h"
