/* Loaded before the C library by tools/tests/system_calls.py: writes a byte into standard error for each yield of a thread, and
   another one for each sleep. */
#define _GNU_SOURCE
#include <dlfcn.h>
#include <time.h>
#include <unistd.h>

typedef int Yield(void);
typedef int Sleep(const struct timespec *, struct timespec *);

int sched_yield(void) {
    Yield *yield = (Yield *)dlsym(RTLD_NEXT, "sched_yield");
    return write(STDERR_FILENO, "y", 1) < 0 ? -1 : yield();
}

int nanosleep(const struct timespec *asked, struct timespec *left) {
    Sleep *sleep = (Sleep *)dlsym(RTLD_NEXT, "nanosleep");
    return write(STDERR_FILENO, "s", 1) < 0 ? -1 : sleep(asked, left);
}
