/* example.c: one worker's machine runs a task, and its record is judged. */
#include <stdio.h>
#include <zellunkay.h>

static const char LINE[] = "pool 1 1 bounded 8 keep 0 abort";

/* One step: what it answers, or an end of the program. */
static zk_answer step(zk_machine *machine, uint32_t ask, uint64_t first) {
    zk_answer answer;
    uint32_t status = zk_step(machine, 0, ask, first, 0, 0, &answer);
    if (status) fprintf(stderr, "%s\n", zk_status_text(status)), exit(1);
    return answer;
}

int main(void) {
    zk_machine *machine = NULL;
    uint32_t status = zk_open((const uint8_t *)LINE, sizeof LINE - 1, ZK_FULL_RECORD, &machine);
    if (status) return fprintf(stderr, "%s\n", zk_status_text(status)), 1;
    uint64_t slot = step(machine, ZK_SUBMIT, ZK_PLAIN).slot; /* a slot is reserved for the first task .. */
    step(machine, ZK_OPEN, slot);                            /* .. and its worker is made: it takes the task, begins it, and ends it */
    step(machine, ZK_TAKE, slot);
    printf("task %u runs\n", step(machine, ZK_BEGIN, slot).task);
    step(machine, ZK_END, slot);
    uint8_t record[1024], judged[1024];
    size_t length, told;
    zk_record(machine, record, sizeof record, &length);
    zk_audit(record, length, judged, sizeof judged, &told);
    printf("%.*s%.*s", (int)length, (const char *)record, (int)told, (const char *)judged);
    return (int)zk_close(machine);
}
