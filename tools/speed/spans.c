/* Loaded before the C library by tools/speed/measure_runs.py: when a thread was joined, writes into standard error how many
   nanoseconds ago the first thread was made, so that the last line tells how long all threads of a run took. */
#define _GNU_SOURCE
#include <dlfcn.h>
#include <pthread.h>
#include <stdio.h>
#include <time.h>
#include <unistd.h>

typedef int Create(pthread_t *, const pthread_attr_t *, void *(*)(void *), void *);
typedef int Join(pthread_t, void **);

static long long began;

static long long now(void) {
    struct timespec moment;
    clock_gettime(CLOCK_MONOTONIC, &moment);
    return moment.tv_sec * 1000000000LL + moment.tv_nsec;
}

int pthread_create(pthread_t *thread, const pthread_attr_t *kind, void *(*work)(void *), void *with) {
    Create *create = (Create *)dlsym(RTLD_NEXT, "pthread_create");
    if (!began) began = now();
    return create(thread, kind, work, with);
}

int pthread_join(pthread_t thread, void **left) {
    Join *join = (Join *)dlsym(RTLD_NEXT, "pthread_join");
    int told = join(thread, left);
    char line[32];
    int length = snprintf(line, sizeof line, "%lld\n", now() - began);
    if (write(STDERR_FILENO, line, (size_t)length) < 0) return told;
    return told;
}
