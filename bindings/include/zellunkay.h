/* zellunkay.h: the proved core of a thread pool, for C.

   A machine is a pool's rules as one value: who has threads and a lock of their own asks it at each step, and does what it answers.
   `zk_audit` judges a record, `zk_steps` plays a scenario, `zk_explore` tells to what all interleavings of some callers lead, and
   `zk_now` what a pool was like after an entry of its record, each from bytes to bytes. The library starts no thread, takes no lock,
   reads no clock and no file, and calls nothing of yours.

   Link with libzellunkay, of which `python3 tools/bindings.py package` makes a package; or with libtp_c.a, which `rt lib` makes in
   crates/tp_c/out, and with the kit's liblibc_c.a, by which the library calls malloc, realloc and free. See docs/BINDINGS.md.

   What is proved of each call stands behind "Proved:". What C has to keep, and nothing checks, stands behind "Keep:". For all calls:
   Keep: a pointer with a length leads to that many bytes; of two buffers of one call that it writes, or that it reads and writes,
   no byte is shared; no call is made from a signal handler, or from the forked child of a process with threads; malloc, realloc and
   free are of one allocator and align as malloc does. A call in which a pointer is NULL that has to lead somewhere answers ZK_NULL
   and does nothing: the functions below test it, before they call the library.

   The functions below are `static inline` in C. libzellunkay has each of them under its name too, for what calls by name: LuaJIT, JNI,
   ctypes (bindings/c/zellunkay.c). */
#ifndef ZELLUNKAY_H
#define ZELLUNKAY_H

#define ZK_VERSION 1 /* of the calls that this header declares: zk_version() tells that of the library */

#include <stddef.h>
#include <stdint.h>
#include <stdlib.h>

#ifndef ZK_API
#define ZK_API static inline
#endif

#ifdef __cplusplus
extern "C" {
#endif

/* ---- How a call ends. 1 to 26 are the refusals of the pool, with their numbers (docs/TROUBLE.md). Each row has a name, a number and a
   text. `tools/bindings.py` compares the other languages' names with these. */
#define ZK_STATUSES(row) \
    row(DONE, 0, "done") \
    row(BAD_SIZES, 1, "the maximum is 0, above 1024, or below the core size") \
    row(BAD_CAPACITY, 2, "the queue's capacity is 0 or above 65536") \
    row(BAD_LIMIT, 3, "the limit of the record is below 64 or above 1048576") \
    row(NO_MEMORY, 4, "there was no memory: nothing has changed") \
    row(BOOK_FULL, 5, "the record has no room for another task") \
    row(UNKNOWN_TASK, 6, "no task has this number") \
    row(UNKNOWN_SLOT, 7, "no slot has this number") \
    row(NOT_THERE, 8, "the task or the worker is elsewhere on its path") \
    row(NOT_FUTURE, 9, "the task is plain: it has no future to cancel") \
    row(CLOCK_BACK, 10, "the moment lies before the pool's") \
    row(KEEP_ZERO, 11, "core workers may not time out with a keep-alive of 0") \
    row(TORN_RECORD, 22, "an outcome is not as its task promised") \
    row(BAD_LINE, 23, "a line says no pool, or nothing that can be asked") \
    row(BAD_ENTRY, 24, "a line is none of a record") \
    row(READ_FAILED, 25, "the text has more than 1048576 bytes") \
    row(FLAW, 32, "the record has a flaw") \
    row(TOO_SMALL, 33, "the room for the answer is too small: nothing was written to it") \
    row(WRONG_KIND, 34, "there is no machine here, or one of the other recorder") \
    row(WRONG_ASK, 35, "these numbers are those of no ask") \
    row(NULL, 36, "a pointer is NULL") \
    row(TOO_MANY, 37, "more states are reached than may be kept")

enum zk_status {
#define ZK_ROW(name, number, text) ZK_##name = number,
    ZK_STATUSES(ZK_ROW)
#undef ZK_ROW
};

/* The text of a status, for a person; "no status" of a number that is none. */
ZK_API const char *zk_status_text(uint32_t status) {
    switch (status) {
#define ZK_ROW(name, number, text) \
    case number: return text;
        ZK_STATUSES(ZK_ROW)
#undef ZK_ROW
    default: return "no status";
    }
}

/* ---- What can be asked, and its arguments. An argument that an ask does not have is 0; else the ask is wrong (ZK_WRONG_ASK). */
enum zk_ask {
    ZK_SUBMIT = 1,        /* first: kind; second: group, for ZK_GROUP; value: priority */
    ZK_LOOK = 2,          /* first: task */
    ZK_OFFER = 3,         /* first: task */
    ZK_SECOND = 4,        /* first: task */
    ZK_GROW = 5,          /* first: task */
    ZK_VERDICT = 6,       /* first: task; second: verdict */
    ZK_CALLER_END = 7,    /* first: task; second: 1 for a fault, else 0; value: the value, or the fault's code */
    ZK_OPEN = 8,          /* first: slot */
    ZK_FAIL = 9,          /* first: slot */
    ZK_TAKE = 10,         /* first: slot */
    ZK_BEGIN = 11,        /* first: slot */
    ZK_END = 12,          /* first: slot; second, value: as ZK_CALLER_END */
    ZK_LEAVE = 13,        /* first: slot */
    ZK_SHUTDOWN = 14,
    ZK_STOP = 15,
    ZK_TIDY = 16,
    ZK_ENDED = 17,
    ZK_REMOVE = 18,       /* first: task */
    ZK_PURGE = 19,
    ZK_CANCEL = 20,       /* first: task; second: 1 where its cancel flag is to be set, else 0 */
    ZK_TAKE_DONE = 21,    /* first: group */
    ZK_CORE = 22,         /* first: workers */
    ZK_MAXIMUM = 23,      /* first: workers */
    ZK_KEEP = 24,         /* first: ticks */
    ZK_CORE_TIMEOUT = 25, /* first: 1 or 0 */
    ZK_TICK = 26,         /* first: the moment, in ticks */
    ZK_PRESTART = 27
};

enum zk_kind { ZK_PLAIN = 0, ZK_FUTURE = 1, ZK_GROUP = 2 };
enum zk_verdict { ZK_ABORT = 0, ZK_CALLER_RUNS = 1, ZK_DISCARD = 2, ZK_DISCARD_OLDEST = 3 };
enum zk_recorder { ZK_FULL_RECORD = 0, ZK_TALLY = 1 };

/* ---- What a step answers. */
enum zk_what {
    ZK_A_DONE = 0,          /* nothing more is to be said; of ZK_TAKE_DONE, the task */
    ZK_A_RESERVE = 1,       /* a slot is reserved: its worker is to be made */
    ZK_A_QUEUE = 2,         /* the task is to be offered */
    ZK_A_REFUSE = 3,        /* the task is refused: a verdict is to be asked */
    ZK_A_QUEUED = 4,        /* the task is in the queue */
    ZK_A_HAND = 5,          /* the slot's worker has the task, and is to be woken */
    ZK_A_FULL = 6,          /* the queue has no room */
    ZK_A_STAY = 7,          /* the task stays */
    ZK_A_STAY_RESERVE = 8,  /* the same, and a slot is reserved */
    ZK_A_BACK = 9,          /* the task is out of the queue again, and refused */
    ZK_A_REJECTED = 10,     /* the task is gone, rejected */
    ZK_A_CALLER = 11,       /* its submitter runs it */
    ZK_A_SKIP = 12,         /* the task was cancelled, and is gone */
    ZK_A_DISCARDED = 13,    /* the task is gone, discarded */
    ZK_A_RETRY = 14,        /* the task is to look again */
    ZK_A_RETRY_DROP = 15,   /* the same, and this task, the queue's head, is gone */
    ZK_A_LIVE = 16,         /* the slot is live */
    ZK_A_GIVEN_UP = 17,     /* the slot is freed */
    ZK_A_NOTHING = 18,      /* there was no task; no slot is reserved */
    ZK_A_OFFER = 19,        /* the slot's task is to be offered */
    ZK_A_HELD = 20,         /* the worker has the task that its slot held */
    ZK_A_HEAD = 21,         /* the worker has the queue's head */
    ZK_A_LEAVE = 22,        /* the worker leaves */
    ZK_A_IDLE = 23,         /* the worker is idle */
    ZK_A_RUN = 24,          /* the task begins */
    ZK_A_ENDED = 25,        /* the task ended */
    ZK_A_YES = 26,          /* it had effect */
    ZK_A_NO = 27,           /* it had none */
    ZK_A_COUNT = 28         /* so many */
};

#define ZK_NO_TASK UINT32_C(0xFFFFFFFF)           /* no task has this number */
#define ZK_NO_SLOT UINT64_C(0xFFFFFFFFFFFFFFFF)   /* no slot has this number */

typedef struct zk_answer {
    uint32_t what;   /* enum zk_what */
    uint32_t left;   /* 1 where the payload of `task` leaves the machine with this answer, else 0 */
    uint32_t task;   /* the task that the answer speaks of, or ZK_NO_TASK */
    uint32_t number; /* tasks handed back by a stop, or taken out by a purge; prestarts that a core size asks for */
    uint64_t slot;   /* the slot that the answer speaks of, or ZK_NO_SLOT */
} zk_answer;

/* ---- What is seen of a pool, all of one moment, and of a task. */
typedef struct zk_pool_view {
    uint32_t state; /* 0 running, 1 shutdown, 2 stop, 3 tidying, 4 terminated */
    uint32_t submitted, run, caller, rejected, discarded, handedback, removed, cancelled, completed, queued, live, largest;
    uint32_t core;
    uint64_t slots; /* reserved and live */
    uint64_t now;   /* in ticks */
    uint64_t steps; /* entries so far */
} zk_pool_view;

enum zk_place {
    ZK_LOOKING = 0, ZK_TO_OFFER = 1, ZK_TO_GROW = 2, ZK_REFUSED = 3, ZK_QUEUED = 4, ZK_HELD = 5, ZK_TAKEN = 6, ZK_RUNNING = 7,
    ZK_AT_CALLER = 8, ZK_GONE = 9
};

enum zk_fate {
    ZK_NO_FATE = 0, ZK_RUN = 1, ZK_RUN_BY_CALLER = 2, ZK_REJECTED = 3, ZK_DISCARDED = 4, ZK_HANDED_BACK = 5, ZK_REMOVED = 6,
    ZK_CANCELLED = 7
};

typedef struct zk_task_view {
    uint32_t place; /* enum zk_place */
    uint32_t fate;  /* enum zk_fate */
    uint64_t slot;  /* the slot that it is in, or ZK_NO_SLOT */
} zk_task_view;

/* ---- The library's own functions. Call them through those below, which test for NULL and keep the memory of a machine: `home` leads
   to zk_core_size() bytes aligned as malloc aligns, at which zk_core_init was called once. */
uint32_t zk_core_audit(const uint8_t *text, size_t length, uint8_t *room, size_t size, size_t *needed);
uint32_t zk_core_steps(const uint8_t *text, size_t length, uint8_t *room, size_t size, size_t *needed);
uint32_t zk_core_explore(const uint8_t *text, size_t length, size_t most, uint8_t *room, size_t size, size_t *needed);
uint32_t zk_core_now(const uint8_t *text, size_t length, uint64_t entry, uint8_t *room, size_t size, size_t *needed);
size_t zk_core_size(void);
void zk_core_init(uint8_t *home);
uint32_t zk_core_open(uint8_t *home, const uint8_t *line, size_t length, uint32_t recorder);
uint32_t zk_core_step(uint8_t *home, uint32_t by, uint32_t ask, uint64_t first, uint64_t second, int64_t value, zk_answer *answer);
uint32_t zk_core_view(uint8_t *home, zk_pool_view *view);
uint32_t zk_core_task(uint8_t *home, uint32_t task, zk_task_view *view);
uint32_t zk_core_handed(uint8_t *home, size_t index, uint32_t *task);
uint32_t zk_core_record(uint8_t *home, uint8_t *room, size_t size, size_t *needed);
uint32_t zk_core_release(uint8_t *home, uint32_t task);
uint32_t zk_core_close(uint8_t *home);

/* Which form of these calls the library has: ZK_VERSION, where it is of this header. */
ZK_API uint32_t zk_version(void) {
    return ZK_VERSION;
}

/* ---- Bytes in, bytes out. Nothing is kept between calls.

   `needed` is the length of the whole answer. It is written to the head of `room` where that is large enough, and the rest of the
   room stays as it was; else the status is ZK_TOO_SMALL and the whole room stays as it was. `room` may be NULL where `size` is 0, and
   `text` where `length` is 0. */

/* Judges the text of a record, as `poolrun audit` does. ZK_DONE where it is legal, ZK_FLAW, ZK_BAD_ENTRY where a line is wrong,
   ZK_READ_FAILED where it has more than 1,048,576 bytes, ZK_BAD_SIZES, ZK_BAD_CAPACITY, ZK_BAD_LIMIT or ZK_KEEP_ZERO, ZK_NO_MEMORY.
   Proved: the answer's bytes and the status are the judgment of exactly this text by the model alone, or its refusal with its line;
   what is said above of the room and of `needed`. */
ZK_API uint32_t zk_audit(const uint8_t *text, size_t length, uint8_t *room, size_t size, size_t *needed) {
    uint8_t none = 0;
    if (!needed || (!text && length) || (!room && size)) return ZK_NULL;
    return zk_core_audit(text ? text : &none, length, room ? room : &none, size, needed);
}

/* Plays a scenario, as `poolrun steps` does. ZK_DONE where it was played to its end; else the refusal that ended it, whose line stands
   at the end of the answer. Proved: the answer's bytes are what this text's run writes, and the status is how it ends; what is said
   above of the room and of `needed`. */
ZK_API uint32_t zk_steps(const uint8_t *text, size_t length, uint8_t *room, size_t size, size_t *needed) {
    uint8_t none = 0;
    if (!needed || (!text && length) || (!room && size)) return ZK_NULL;
    return zk_core_steps(text ? text : &none, length, room ? room : &none, size, needed);
}

#define ZK_THE_END UINT64_C(0xFFFFFFFFFFFFFFFF) /* the entry behind which nothing is left */

/* Explores all interleavings of the callers that a text says (docs/SCENARIOS.md), and tells their ends: a line with the numbers of states,
   steps, interleavings and ends, and then a line for each distinct end, with the number of its interleavings. At most `most` states are
   kept: ZK_TOO_MANY where more are reached, with an empty answer. ZK_BAD_LINE, ZK_BAD_SIZES, ZK_BAD_CAPACITY, ZK_BAD_LIMIT, ZK_KEEP_ZERO,
   ZK_READ_FAILED for a text of more than 1,048,576 bytes, ZK_NO_MEMORY.
   Proved: what is said above of the room and of `needed`. That these are all ends is proved of the call which it makes (docs/BINDINGS.md);
   their words are tested. */
ZK_API uint32_t zk_explore(const uint8_t *text, size_t length, size_t most, uint8_t *room, size_t size, size_t *needed) {
    uint8_t none = 0;
    if (!needed || (!text && length) || (!room && size)) return ZK_NULL;
    return zk_core_explore(text ? text : &none, length, most, room ? room : &none, size, needed);
}

/* Tells what the pool was like after the entry of this number of its record, 0 for the new pool and ZK_THE_END for the end: its settings,
   slots, queue and counters, what is owed, and what its end waits for. ZK_FLAW with the line of the first flaw, where that is not behind
   the entry; ZK_NOT_THERE where the record has no such entry; else as `zk_audit`.
   Proved: what is said above of the room and of `needed`. The words are tested. */
ZK_API uint32_t zk_now(const uint8_t *text, size_t length, uint64_t entry, uint8_t *room, size_t size, size_t *needed) {
    uint8_t none = 0;
    if (!needed || (!text && length) || (!room && size)) return ZK_NULL;
    return zk_core_now(text ? text : &none, length, entry, room ? room : &none, size, needed);
}

/* ---- Machines.

   Keep: a handle is one that `zk_open` gave and `zk_close` has not taken; its calls are made one at a time, each after the one before
   has returned, such as under one lock; nothing else reads or writes what it leads to.
   Proved, of each call: it reads and writes the machine alone, and what its other pointers lead to; after it the machine is whole again.
   Payloads stay with you, by the numbers of tasks: an answer names the task that it speaks of, and says whether its payload leaves. */

/* A mark says that a machine is open here: a call on one that is closed, or on memory that never held one, answers ZK_WRONG_KIND, as far as
   the mark can tell. Once the memory of a closed machine is used for another thing, nothing can. */
#define ZK_MARK UINT64_C(0x9B3D5AF14E7C2086)

typedef struct zk_machine {
    volatile uint64_t mark;
    uint64_t spare; /* so that what follows is aligned to 16 bytes */
} zk_machine;

ZK_API int zk_is_open(const zk_machine *machine) {
    return machine->mark == ZK_MARK;
}

/* Where the library's own functions find the machine. */
ZK_API uint8_t *zk_home(zk_machine *machine) {
    return (uint8_t *)(machine + 1);
}

/* Opens a pool of this pool line (docs/SCENARIOS.md), without a line feed, such as `pool 2 4 bounded 8 keep 5 abort`, which keeps its
   record (ZK_FULL_RECORD) or its length alone (ZK_TALLY). ZK_BAD_LINE, ZK_WRONG_KIND, ZK_BAD_SIZES, ZK_BAD_CAPACITY, ZK_BAD_LIMIT,
   ZK_KEEP_ZERO, ZK_NO_MEMORY: *machine stays as it was then.
   Proved: with ZK_DONE the machine has just these settings, its history is empty, and it is of the recorder that was asked for; a refused
   line says no pool, or one with settings that no pool can have, or there was no memory. */
ZK_API uint32_t zk_open(const uint8_t *line, size_t length, uint32_t recorder, zk_machine **machine) {
    if (!line || !machine) return ZK_NULL;
    zk_machine *made = (zk_machine *)malloc(sizeof(zk_machine) + zk_core_size());
    if (!made) return ZK_NO_MEMORY;
    zk_core_init(zk_home(made));
    uint32_t status = zk_core_open(zk_home(made), line, length, recorder);
    if (status == ZK_DONE) {
        made->mark = ZK_MARK;
        *machine = made;
    } else {
        free(made);
    }
    return status;
}

/* Makes one step, with the number of the pass that asks: any number that tells the threads apart. ZK_DONE, or the refusal of the step,
   or ZK_WRONG_ASK: nothing has changed then, and *answer stays as it was. Proved: with ZK_DONE the step is the one that the model gives
   for this ask at the machine's history, which has this one entry more then, and *answer are the numbers of what was done; a refusal is
   the model's, or ZK_NO_MEMORY where a step needs memory, or ZK_TORN_RECORD where an outcome is not as its task promised, which none
   is here. */
ZK_API uint32_t zk_step(zk_machine *machine, uint32_t by, uint32_t ask, uint64_t first, uint64_t second, int64_t value,
                               zk_answer *answer) {
    if (!machine || !answer) return ZK_NULL;
    if (!zk_is_open(machine)) return ZK_WRONG_KIND;
    return zk_core_step(zk_home(machine), by, ask, first, second, value, answer);
}

/* What is seen of the pool now. Proved: each number is that of the model's state after the machine's history. */
ZK_API uint32_t zk_view(zk_machine *machine, zk_pool_view *view) {
    if (!machine || !view) return ZK_NULL;
    if (!zk_is_open(machine)) return ZK_WRONG_KIND;
    return zk_core_view(zk_home(machine), view);
}

/* What is seen of a task now. ZK_UNKNOWN_TASK. Proved: as of `zk_view`; a task is unknown just where the model knows none of that number. */
ZK_API uint32_t zk_task(zk_machine *machine, uint32_t task, zk_task_view *view) {
    if (!machine || !view) return ZK_NULL;
    if (!zk_is_open(machine)) return ZK_WRONG_KIND;
    return zk_core_task(zk_home(machine), task, view);
}

/* The task that the last stop handed back at this index, in the queue's order. ZK_UNKNOWN_TASK where there is none. Proved: as it is kept in
   the machine's value; tests show that a stop keeps it so. */
ZK_API uint32_t zk_handed(zk_machine *machine, size_t index, uint32_t *task) {
    if (!machine || !task) return ZK_NULL;
    if (!zk_is_open(machine)) return ZK_WRONG_KIND;
    return zk_core_handed(zk_home(machine), index, task);
}

/* The text of the record, with the room as in `zk_audit`. ZK_WRONG_KIND where the machine keeps none, ZK_NO_MEMORY. Proved: it is the text,
   in the second form, of the record that the machine keeps under its settings. */
ZK_API uint32_t zk_record(zk_machine *machine, uint8_t *room, size_t size, size_t *needed) {
    uint8_t none = 0;
    if (!machine || !needed || (!room && size)) return ZK_NULL;
    if (!zk_is_open(machine)) return ZK_WRONG_KIND;
    return zk_core_record(zk_home(machine), room ? room : &none, size, needed);
}

/* Forgets a task that is gone and owes nothing, in a machine that keeps no record. ZK_WRONG_KIND where it keeps one, ZK_UNKNOWN_TASK,
   ZK_NOT_THERE: nothing has changed then. Proved: a task is forgotten only where the model allows it, and no other is. */
ZK_API uint32_t zk_release(zk_machine *machine, uint32_t task) {
    if (!machine) return ZK_NULL;
    if (!zk_is_open(machine)) return ZK_WRONG_KIND;
    return zk_core_release(zk_home(machine), task);
}

/* Closes the machine, and frees what it keeps. The handle is none any more: a second close answers ZK_WRONG_KIND, as far as the mark can tell.
   Proved: no machine is there after it. */
ZK_API uint32_t zk_close(zk_machine *machine) {
    if (!machine) return ZK_NULL;
    if (!zk_is_open(machine)) return ZK_WRONG_KIND;
    machine->mark = 0;
    uint32_t status = zk_core_close(zk_home(machine));
    free(machine);
    return status;
}

#ifdef __cplusplus
}
#endif

#endif
