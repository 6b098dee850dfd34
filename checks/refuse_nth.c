// Refuses one growth: the call of malloc or realloc with the number that the environment gives as REFUSE. It then
// makes the file that is named there as REFUSED. With REFUSE_THREAD it refuses the thread of that number too.
#define _GNU_SOURCE
#include <dlfcn.h>
#include <errno.h>
#include <fcntl.h>
#include <pthread.h>
#include <stdlib.h>
#include <unistd.h>

static void tell(void) {
    close(open(getenv("REFUSED"), O_CREAT | O_WRONLY, 0600));
}

static int refused(void) {
    static long calls, nth = -1;
    if (nth < 0) nth = atol(getenv("REFUSE"));
    calls += 1;
    if (calls != nth) return 0;
    tell();
    errno = ENOMEM;
    return 1;
}

void *malloc(size_t size) {
    static void *(*next)(size_t);
    if (!next) next = dlsym(RTLD_NEXT, "malloc");
    return refused() ? NULL : next(size);
}

void *realloc(void *old, size_t size) {
    static void *(*next)(void *, size_t);
    if (!next) next = dlsym(RTLD_NEXT, "realloc");
    return refused() ? NULL : next(old, size);
}

int pthread_create(pthread_t *thread, const pthread_attr_t *attributes, void *(*run)(void *), void *given) {
    static int (*next)(pthread_t *, const pthread_attr_t *, void *(*)(void *), void *);
    static long calls;
    const char *nth = getenv("REFUSE_THREAD");
    if (!next) next = dlsym(RTLD_NEXT, "pthread_create");
    if (nth && __atomic_add_fetch(&calls, 1, __ATOMIC_SEQ_CST) == atol(nth)) {
        tell();
        return EAGAIN;
    }
    return next(thread, attributes, run, given);
}
