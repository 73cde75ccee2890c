// Pins a program's threads, where it is preloaded (LD_PRELOAD): the first one to the first processor of the list in PINS, each further
// one to the next, round and round behind the first. Without that four workers often run as two.
#define _GNU_SOURCE
#include <dlfcn.h>
#include <pthread.h>
#include <sched.h>
#include <stdlib.h>
#include <string.h>

static int processors[64], count, made;
static int (*create)(pthread_t *, const pthread_attr_t *, void *(*)(void *), void *);

static cpu_set_t only(int processor) {
    cpu_set_t set;
    CPU_ZERO(&set);
    CPU_SET(processor, &set);
    return set;
}

__attribute__((constructor)) static void begin(void) {
    create = dlsym(RTLD_NEXT, "pthread_create");
    char *list = getenv("PINS");
    if (!list || !(list = strdup(list))) return;
    for (char *word = strtok(list, ","); word && count < 64; word = strtok(0, ",")) processors[count++] = atoi(word);
    if (!count) return;
    cpu_set_t set = only(processors[0]);
    sched_setaffinity(0, sizeof set, &set);
}

int pthread_create(pthread_t *thread, const pthread_attr_t *how, void *(*body)(void *), void *with) {
    int failed = create(thread, how, body, with);
    if (!failed && count > 1) {
        cpu_set_t set = only(processors[1 + __sync_fetch_and_add(&made, 1) % (count - 1)]);
        pthread_setaffinity_np(*thread, sizeof set, &set);
    }
    return failed;
}
