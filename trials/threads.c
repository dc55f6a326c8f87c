/*
 * A library put before the C library. It counts the threads that are started: the count stands in the file that THREADS names,
 * once there is one.
 */
#define _GNU_SOURCE
#include <dlfcn.h>
#include <pthread.h>
#include <stdio.h>
#include <stdlib.h>

typedef int create_type(pthread_t *, const pthread_attr_t *, void *(*)(void *), void *);

static pthread_mutex_t turn = PTHREAD_MUTEX_INITIALIZER;
static int started;

static void count(void) {
    FILE *file;

    pthread_mutex_lock(&turn);
    file = fopen(getenv("THREADS"), "w");
    if (!file || fprintf(file, "%d\n", ++started) < 0 || fclose(file))
        abort();
    pthread_mutex_unlock(&turn);
}

int pthread_create(pthread_t *thread, const pthread_attr_t *attributes, void *(*run)(void *), void *given) {
    create_type *create = (create_type *)dlsym(RTLD_NEXT, "pthread_create");

    count();
    return create(thread, attributes, run, given);
}
