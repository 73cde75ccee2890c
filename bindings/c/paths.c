/* paths.c: steps that say what a submitter asks next, and several steps in one call, over zk_step. Python and Java call them.

   Each step is one of zk_step, and what is proved of that holds of it. Which step follows is told by next_of, which is tested and not proved:
   it says again what crates/tp_protocols/src/paths.rt says and proves. A library of version 2 has these calls itself, as zk_step, zk_enter and
   zk_turn, of the same layout and proved; this file goes then. */
#include "zellunkay.h"

#ifndef ZK_PATH_API
#define ZK_PATH_API
#endif

/* An answer, and by which ask the task's submitter goes on: ZK_OPEN where a worker is to be made for the slot, and ZK_FAIL instead where none
   was made; 0 where its submission has ended. */
typedef struct zk_told {
    zk_answer answer;
    uint32_t next;
    uint32_t spare;
} zk_told;

/* An answer in which `what` is 0 is of a step that was not made. */
typedef struct zk_path_entered {
    zk_told submitted, offered, seconded;
} zk_path_entered;

typedef struct zk_path_turned {
    zk_told ended, took, begun;
} zk_path_turned;

static const zk_told zk_untold = {{0, 0, ZK_NO_TASK, 0, ZK_NO_SLOT}, 0, 0};

static uint32_t next_of(uint32_t ask, uint32_t what) {
    switch (what) {
    case ZK_A_RESERVE:
    case ZK_A_STAY_RESERVE: return ask == ZK_PRESTART || ask == ZK_LEAVE ? 0 : ZK_OPEN;
    case ZK_A_QUEUE:
    case ZK_A_OFFER: return ZK_OFFER;
    case ZK_A_QUEUED:
    case ZK_A_HAND: return ZK_SECOND;
    case ZK_A_FULL: return ZK_GROW;
    case ZK_A_REFUSE:
    case ZK_A_BACK: return ZK_VERDICT;
    case ZK_A_RETRY:
    case ZK_A_RETRY_DROP: return ZK_LOOK;
    case ZK_A_CALLER: return ZK_CALLER_END;
    default: return 0;
    }
}

/* zk_step, with what is asked next. */
ZK_PATH_API uint32_t zk_path_step(zk_machine *machine, uint32_t by, uint32_t ask, uint64_t first, uint64_t second, int64_t value, zk_told *told) {
    uint32_t status = zk_step(machine, by, ask, first, second, value, &told->answer);
    if (status == ZK_DONE) told->next = next_of(ask, told->answer.what);
    return status;
}

/* Submits a task, offers it where that is asked next, and looks a second time where the offer was taken. The status is that of the last. */
ZK_PATH_API uint32_t zk_path_enter(zk_machine *machine, uint32_t by, uint32_t kind, uint32_t group, uint32_t priority, zk_path_entered *entered) {
    entered->submitted = entered->offered = entered->seconded = zk_untold;
    uint32_t status = zk_path_step(machine, by, ZK_SUBMIT, kind, group, priority, &entered->submitted);
    if (status != ZK_DONE || entered->submitted.next != ZK_OFFER) return status;
    status = zk_path_step(machine, by, ZK_OFFER, entered->submitted.answer.task, 0, 0, &entered->offered);
    if (status != ZK_DONE || entered->offered.next != ZK_SECOND) return status;
    return zk_path_step(machine, by, ZK_SECOND, entered->submitted.answer.task, 0, 0, &entered->seconded);
}

/* Ends a worker's task where it `ends`, which is forgotten where that may be; then takes the next one, and begins it where there is one. */
ZK_PATH_API uint32_t zk_path_turn(zk_machine *machine, uint32_t by, uint32_t ends, uint64_t slot, uint64_t fault, int64_t value, zk_path_turned *turned) {
    turned->ended = turned->took = turned->begun = zk_untold;
    if (ends) {
        uint32_t status = zk_path_step(machine, by, ZK_END, slot, fault, value, &turned->ended);
        if (status != ZK_DONE) return status;
        zk_release(machine, turned->ended.answer.task);
    }
    uint32_t status = zk_path_step(machine, by, ZK_TAKE, slot, 0, 0, &turned->took);
    if (status != ZK_DONE || (turned->took.answer.what != ZK_A_HELD && turned->took.answer.what != ZK_A_HEAD)) return status;
    return zk_path_step(machine, by, ZK_BEGIN, slot, 0, 0, &turned->begun);
}
