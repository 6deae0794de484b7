/* Runs the main function of uses.c, so each call of mu.h, on a thread whose stack has MU_STACK bytes:
 *
 *     cc -std=c11 -pthread -Ic -Dmain=uses_main -c c/uses.c -o uses.o
 *     cc -std=c11 -pthread -Ic c/small_stack.c uses.o out/libmu.a -o small_stack && ./small_stack */
#include "mu.h"

#include <pthread.h>
#include <stdio.h>

int uses_main(void);

static void *run(void *status)
{
    *(int *)status = uses_main();
    return NULL;
}

int main(void)
{
    pthread_attr_t attributes;
    pthread_t thread;
    int status = 1;

    if (pthread_attr_init(&attributes) != 0 || pthread_attr_setstacksize(&attributes, MU_STACK) != 0
        || pthread_create(&thread, &attributes, run, &status) != 0 || pthread_join(thread, NULL) != 0) {
        puts("there is no such thread");
        return 1;
    }
    pthread_attr_destroy(&attributes);
    return status;
}
