// Loaded before the system's library: refuses the thread of the number NO_THREAD and all behind it.
#define _GNU_SOURCE
#include <dlfcn.h>
#include <errno.h>
#include <pthread.h>
#include <stdatomic.h>
#include <stdlib.h>

typedef int creates(pthread_t *, const pthread_attr_t *, void *(*)(void *), void *);

int pthread_create(pthread_t *id, const pthread_attr_t *how, void *(*start)(void *), void *argument) {
    static atomic_int asked;
    const char *from = getenv("NO_THREAD");
    if (from && atomic_fetch_add(&asked, 1) + 1 >= atoi(from)) return EAGAIN;
    return ((creates *)dlsym(RTLD_NEXT, "pthread_create"))(id, how, start, argument);
}
