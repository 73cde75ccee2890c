/* test_threads.c: four threads ask one machine, under a mutex, whatever fits or not, and judge texts beside that. Its record is legal at
   the end. It is for the thread sanitizer: it prints the first check that fails, and ends with 1 then, else with 0. */
#include "check.h"
#include "zellunkay.h"

#include <pthread.h>
#include <stdio.h>
#include <stdlib.h>
#include <string.h>

enum { THREADS = 4, STEPS = 4000 };

static zk_machine *machine;
static pthread_mutex_t lock = PTHREAD_MUTEX_INITIALIZER;
static uint32_t accepted;

static uint32_t next(uint32_t *seed, uint32_t below) {
    *seed = *seed * 1664525u + 1013904223u;
    return (*seed >> 8) % below;
}

static void *ask(void *argument) {
    uint32_t by = *(uint32_t *)argument, seed = by + 1;
    static const uint8_t TEXT[] = "tprecord 2\npool 1 1 unbounded keep 0 abort\nend 0\n";
    for (int i = 0; i < STEPS; i++) {
        uint8_t room[256];
        size_t needed;
        if (i % 16 == 0) CHECK(zk_audit(TEXT, sizeof TEXT - 1, room, sizeof room, &needed) == ZK_DONE);
        pthread_mutex_lock(&lock);
        zk_answer answer;
        zk_pool_view view;
        CHECK(zk_view(machine, &view) == ZK_DONE);
        uint32_t what = 1 + next(&seed, 13), first = what == ZK_SUBMIT ? next(&seed, 2) : next(&seed, view.submitted % 8 + 4);
        uint64_t of = what >= 2 && what <= 7 && view.submitted > 4 ? view.submitted - 1 - first % 4 : first;
        uint32_t status = zk_step(machine, by, what, of, 0, 0, &answer);
        CHECK(status != ZK_WRONG_ASK && status != ZK_NULL);
        accepted += status == ZK_DONE;
        pthread_mutex_unlock(&lock);
    }
    return NULL;
}

int main(void) {
    static const uint8_t LINE[] = "pool 2 3 bounded 2 keep 0 own limit 100000";
    CHECK(zk_open(LINE, sizeof LINE - 1, ZK_FULL_RECORD, &machine) == ZK_DONE);
    pthread_t threads[THREADS];
    uint32_t numbers[THREADS];
    for (uint32_t i = 0; i < THREADS; i++) {
        numbers[i] = i;
        CHECK(pthread_create(&threads[i], NULL, ask, &numbers[i]) == 0);
    }
    for (int i = 0; i < THREADS; i++) CHECK(pthread_join(threads[i], NULL) == 0);
    size_t needed = 0, judged = 0;
    CHECK(zk_record(machine, NULL, 0, &needed) == ZK_TOO_SMALL);
    uint8_t *text = malloc(needed), room[512];
    CHECK(text && zk_record(machine, text, needed, &needed) == ZK_DONE);
    CHECK(zk_audit(text, needed, room, sizeof room, &judged) == ZK_DONE);
    printf("%u steps accepted of %d, %zu bytes of a legal record\n", accepted, THREADS * STEPS, needed);
    free(text);
    return zk_close(machine) != ZK_DONE;
}
