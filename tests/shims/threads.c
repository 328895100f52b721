/* Refuses every thread behind the first THREADS_ALLOWED, as a system that has no room for one more. Tells each other one:
   a line with its number, at the end of the file that THREADS_TOLD names. A thread that is made while there is a file
   THREADS_HELD begins once that has gone. Each variable may be absent. */
#define _GNU_SOURCE
#include <dlfcn.h>
#include <errno.h>
#include <pthread.h>
#include <stdatomic.h>
#include <stdio.h>
#include <stdlib.h>
#include <time.h>
#include <unistd.h>

struct held {
    void *(*run)(void *);
    void *given;
};

static atomic_int asked;

static void tell(const char *name, int number) {
    FILE *told = fopen(name, "a");
    if (told) {
        fprintf(told, "%d\n", number);
        fclose(told);
    }
}

static void *run_later(void *held) {
    struct held thread = *(struct held *)held;
    const struct timespec pause = {0, 10000000};
    free(held);
    while (access(getenv("THREADS_HELD"), F_OK) == 0)
        nanosleep(&pause, NULL);
    return thread.run(thread.given);
}

int pthread_create(pthread_t *thread, const pthread_attr_t *attributes, void *(*run)(void *), void *given) {
    int (*create)(pthread_t *, const pthread_attr_t *, void *(*)(void *), void *) = dlsym(RTLD_NEXT, "pthread_create");
    int number = atomic_fetch_add(&asked, 1);
    const char *allowed = getenv("THREADS_ALLOWED"), *told = getenv("THREADS_TOLD");
    if (allowed && number >= atoi(allowed))
        return EAGAIN;
    if (told)
        tell(told, number);
    if (getenv("THREADS_HELD")) {
        struct held *held = malloc(sizeof *held);
        *held = (struct held){run, given};
        return create(thread, attributes, run_later, held);
    }
    return create(thread, attributes, run, given);
}
