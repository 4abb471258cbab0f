/* Refuses one call of a program that is preloaded with this: the call of number REFUSE, from 1, of
 * the kind that REFUSE_KIND names, `memory` (malloc and realloc) or `thread` (pthread_create). With
 * REFUSE 0 it refuses none. It counts them in the first eight bytes of the file REFUSE_COUNT, since a
 * program that ends by _exit runs nothing more. trials/refuse compiles it. */
#define _GNU_SOURCE
#include <dlfcn.h>
#include <errno.h>
#include <fcntl.h>
#include <pthread.h>
#include <stdatomic.h>
#include <stdlib.h>
#include <string.h>
#include <sys/mman.h>
#include <unistd.h>

static void *(*next_malloc)(size_t);
static void *(*next_realloc)(void *, size_t);
static int (*next_create)(pthread_t *, const pthread_attr_t *, void *(*)(void *), void *);
static atomic_long *calls;
static long refused;
static int of_memory;

__attribute__((constructor)) static void begin(void) {
    const char *kind = getenv("REFUSE_KIND");
    const char *number = getenv("REFUSE");
    const char *path = getenv("REFUSE_COUNT");
    int file = path == NULL ? -1 : open(path, O_RDWR);
    next_malloc = (void *(*)(size_t))dlsym(RTLD_NEXT, "malloc");
    next_realloc = (void *(*)(void *, size_t))dlsym(RTLD_NEXT, "realloc");
    next_create = (int (*)(pthread_t *, const pthread_attr_t *, void *(*)(void *), void *))
        dlsym(RTLD_NEXT, "pthread_create");
    of_memory = kind == NULL || strcmp(kind, "thread") != 0;
    refused = number == NULL ? 0 : atol(number);
    if (file >= 0) {
        void *page = mmap(NULL, sizeof *calls, PROT_READ | PROT_WRITE, MAP_SHARED, file, 0);
        close(file);
        calls = page == MAP_FAILED ? NULL : page;
    }
}

static int is_refused(int memory) {
    return calls != NULL && memory == of_memory && atomic_fetch_add(calls, 1) + 1 == refused;
}

void *malloc(size_t size) {
    if (next_malloc == NULL)
        next_malloc = (void *(*)(size_t))dlsym(RTLD_NEXT, "malloc");
    if (is_refused(1)) {
        errno = ENOMEM;
        return NULL;
    }
    return next_malloc(size);
}

void *realloc(void *old, size_t size) {
    if (next_realloc == NULL)
        next_realloc = (void *(*)(void *, size_t))dlsym(RTLD_NEXT, "realloc");
    if (is_refused(1)) {
        errno = ENOMEM;
        return NULL;
    }
    return next_realloc(old, size);
}

int pthread_create(pthread_t *thread, const pthread_attr_t *attr, void *(*run)(void *), void *arg) {
    if (is_refused(0))
        return EAGAIN;
    return next_create(thread, attr, run, arg);
}
