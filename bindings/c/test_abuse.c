/* test_abuse.c ROWS [open|closed]: what a caller does wrong, and the library can tell. `closed` are calls on a closed machine, which a
   sanitizer ends, `open` all others; with neither both are made. It prints the first check that fails, and ends with 1 then, else with 0. */
#include "check.h"
#include "zellunkay.h"

#include <stdio.h>
#include <stdlib.h>
#include <string.h>

static const uint8_t LINE[] = "pool 1 1 bounded 1 keep 0 abort";

static zk_machine *opened(uint32_t recorder) {
    zk_machine *machine = NULL;
    CHECK(zk_open(LINE, sizeof LINE - 1, recorder, &machine) == ZK_DONE && machine);
    return machine;
}

/* Each call on what is no machine answers ZK_WRONG_KIND, and writes nothing. */
static void is_no_machine(zk_machine *machine) {
    zk_answer answer = {.what = 77}, same = answer;
    zk_pool_view view = {.state = 77};
    zk_task_view task = {.place = 77};
    uint32_t handed = 77;
    uint8_t room[8] = {77};
    size_t needed = 77;
    CHECK(zk_step(machine, 0, ZK_SUBMIT, ZK_PLAIN, 0, 0, &answer) == ZK_WRONG_KIND && memcmp(&answer, &same, sizeof same) == 0);
    CHECK(zk_view(machine, &view) == ZK_WRONG_KIND && view.state == 77);
    CHECK(zk_task(machine, 0, &task) == ZK_WRONG_KIND && task.place == 77);
    CHECK(zk_handed(machine, 0, &handed) == ZK_WRONG_KIND && handed == 77);
    CHECK(zk_record(machine, room, sizeof room, &needed) == ZK_WRONG_KIND && room[0] == 77 && needed == 77);
    CHECK(zk_release(machine, 0) == ZK_WRONG_KIND);
    CHECK(zk_close(machine) == ZK_WRONG_KIND);
}

/* A machine that is closed, once and again. */
static void closed(void) {
    for (uint32_t recorder = ZK_FULL_RECORD; recorder <= ZK_TALLY; recorder++) {
        zk_machine *machine = opened(recorder);
        CHECK(zk_close(machine) == ZK_DONE);
        is_no_machine(machine);
    }
}

/* Memory that never held one, and memory of other bytes. */
static void wrong_pointers(void) {
    uint8_t *memory = calloc(1, 4096);
    CHECK(memory);
    is_no_machine((zk_machine *)memory);
    memset(memory, 0xFF, 4096);
    is_no_machine((zk_machine *)memory);
    free(memory);
}

/* Each status of the table has a text of its own, and no other number has one. */
static void texts(void) {
    const char *none = zk_status_text(1000);
    for (uint32_t i = 0; i < 100; i++)
        for (uint32_t j = 0; j < i; j++)
            CHECK(strcmp(zk_status_text(i), zk_status_text(j)) || zk_status_text(i) == none);
    CHECK(zk_status_text(ZK_NULL) != none && strcmp(zk_status_text(ZK_FLAW), "the record has a flaw") == 0);
    CHECK(zk_version() == ZK_VERSION);
}

int main(int count, char **words) {
    const char *which = count > 2 ? words[2] : "";
    if (strcmp(which, "closed")) {
        wrong_pointers();
        texts();
    }
    if (strcmp(which, "open")) closed();
    printf("what is done wrong is told\n");
    return 0;
}
