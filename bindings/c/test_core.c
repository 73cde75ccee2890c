/* test_core.c ROWS: plays and judges each row of the folder through the library, and walks a machine through its life. It prints the
   first check that fails, and ends with 1 then, else with 0. */
#include "check.h"
#include "zellunkay.h"

#include <dirent.h>
#include <stdio.h>
#include <stdlib.h>
#include <string.h>

struct bytes {
    uint8_t *at;
    size_t length;
};

static struct bytes file_of(const char *folder, const char *name) {
    char path[4096];
    struct bytes read = {NULL, 0};
    snprintf(path, sizeof path, "%s/%s", folder, name);
    FILE *file = fopen(path, "rb");
    CHECK(file);
    CHECK(fseek(file, 0, SEEK_END) == 0);
    read.length = (size_t)ftell(file);
    rewind(file);
    read.at = malloc(read.length + 1);
    CHECK(read.at && fread(read.at, 1, read.length, file) == read.length);
    fclose(file);
    return read;
}

typedef uint32_t told(const uint8_t *, size_t, uint8_t *, size_t, size_t *);

/* The answer to a text: first with no room, then with one byte too few, then with just enough, and with a byte more, which stays. */
static struct bytes answer_of(told *call, struct bytes text, uint32_t *status) {
    struct bytes answer = {NULL, 0};
    size_t needed = 0;
    CHECK(call(text.at, text.length, NULL, 0, &answer.length) == ZK_TOO_SMALL);
    answer.at = malloc(answer.length + 1);
    CHECK(answer.at);
    memset(answer.at, 0xA5, answer.length + 1);
    CHECK(call(text.at, text.length, answer.at, answer.length - 1, &needed) == ZK_TOO_SMALL && needed == answer.length);
    for (size_t i = 0; i <= answer.length; i++) CHECK(answer.at[i] == 0xA5);
    *status = call(text.at, text.length, answer.at, answer.length, &needed);
    CHECK(needed == answer.length && answer.at[answer.length] == 0xA5);
    CHECK(call(text.at, text.length, answer.at, answer.length + 1, &needed) == *status && answer.at[answer.length] == 0xA5);
    return answer;
}

static uint32_t explored(const uint8_t *text, size_t length, uint8_t *room, size_t size, size_t *needed) {
    return zk_explore(text, length, 1000000, room, size, needed);
}

static uint64_t entry;

static uint32_t seen(const uint8_t *text, size_t length, uint8_t *room, size_t size, size_t *needed) {
    return zk_now(text, length, entry, room, size, needed);
}

/* The call for a row, by its file's name: `audit-..`, `steps-..`, `explore-..`, or `now-ENTRY-..`. */
static told *call_for(const char *name) {
    if (strncmp(name, "audit", 5) == 0) return zk_audit;
    if (strncmp(name, "explore", 7) == 0) return explored;
    if (strncmp(name, "now", 3) == 0) {
        entry = strtoull(name + 4, NULL, 10);
        return seen;
    }
    return zk_steps;
}

static int has_end(const char *name, const char *end) {
    size_t length = strlen(name), of = strlen(end);
    return length > of && strcmp(name + length - of, end) == 0;
}

static int rows(const char *folder) {
    DIR *dir = opendir(folder);
    CHECK(dir);
    int count = 0;
    for (struct dirent *found; (found = readdir(dir));) {
        if (!has_end(found->d_name, ".in")) continue;
        char name[512];
        snprintf(name, sizeof name, "%.*s.out", (int)(strlen(found->d_name) - 3), found->d_name);
        struct bytes text = file_of(folder, found->d_name), wanted = file_of(folder, name);
        uint32_t status;
        struct bytes told = answer_of(call_for(name), text, &status);
        /* A row of ends does not say how many states there are, which the answer's first line begins with. */
        size_t head = strncmp(name, "explore", 7) == 0 && told.length > wanted.length ? told.length - wanted.length : 0;
        if (told.length - head != wanted.length || memcmp(told.at + head, wanted.at, wanted.length)) {
            fprintf(stderr, "%s: another answer than %s\n%.*s", found->d_name, name, (int)told.length, (const char *)told.at);
            exit(1);
        }
        free(text.at), free(wanted.at), free(told.at);
        count++;
    }
    closedir(dir);
    return count;
}

static const uint8_t LINE[] = "pool 1 1 bounded 1 keep 0 discardoldest";

static zk_answer step(zk_machine *machine, uint32_t ask, uint64_t first, uint64_t second, int64_t value) {
    zk_answer answer;
    CHECK(zk_step(machine, 0, ask, first, second, value, &answer) == ZK_DONE);
    return answer;
}

static uint32_t refusal(zk_machine *machine, uint32_t ask, uint64_t first, uint64_t second, int64_t value) {
    zk_answer answer, before;
    zk_pool_view view, after;
    memset(&answer, 0x5A, sizeof answer);
    before = answer;
    CHECK(zk_view(machine, &view) == ZK_DONE);
    uint32_t status = zk_step(machine, 0, ask, first, second, value, &answer);
    CHECK(status != ZK_DONE && memcmp(&answer, &before, sizeof answer) == 0);
    CHECK(zk_view(machine, &after) == ZK_DONE && memcmp(&view, &after, sizeof view) == 0);
    return status;
}

/* One worker, one place, and a policy that drops the oldest: task 1 is dropped for task 2. */
static void life(uint32_t recorder) {
    zk_machine *machine = NULL;
    CHECK(zk_open(LINE, sizeof LINE - 1, recorder, &machine) == ZK_DONE && machine);
    zk_answer a = step(machine, ZK_SUBMIT, ZK_PLAIN, 0, 0);
    CHECK(a.what == ZK_A_RESERVE && a.task == 0 && a.slot == 0 && a.left == 0);
    CHECK(step(machine, ZK_OPEN, 0, 0, 0).what == ZK_A_LIVE);
    CHECK(step(machine, ZK_SUBMIT, ZK_FUTURE, 0, 0).what == ZK_A_QUEUE);
    CHECK(step(machine, ZK_OFFER, 1, 0, 0).what == ZK_A_QUEUED);
    CHECK(step(machine, ZK_SECOND, 1, 0, 0).what == ZK_A_STAY);
    CHECK(step(machine, ZK_SUBMIT, ZK_GROUP, 7, 3).what == ZK_A_QUEUE);
    CHECK(step(machine, ZK_OFFER, 2, 0, 0).what == ZK_A_FULL);
    CHECK(step(machine, ZK_GROW, 2, 0, 0).what == ZK_A_REFUSE);
    a = step(machine, ZK_VERDICT, 2, ZK_DISCARD_OLDEST, 0);
    CHECK(a.what == ZK_A_RETRY_DROP && a.task == 1 && a.left == 1);
    CHECK(step(machine, ZK_LOOK, 2, 0, 0).what == ZK_A_QUEUE);
    CHECK(step(machine, ZK_OFFER, 2, 0, 0).what == ZK_A_QUEUED);
    CHECK(step(machine, ZK_SECOND, 2, 0, 0).what == ZK_A_STAY);
    a = step(machine, ZK_TAKE, 0, 0, 0);
    CHECK(a.what == ZK_A_HELD && a.task == 0 && a.left == 0);
    a = step(machine, ZK_BEGIN, 0, 0, 0);
    CHECK(a.what == ZK_A_RUN && a.task == 0 && a.left == 1);

    CHECK(refusal(machine, ZK_BEGIN, 0, 0, 0) == ZK_NOT_THERE);
    CHECK(refusal(machine, ZK_TAKE, 5, 0, 0) == ZK_UNKNOWN_SLOT);
    CHECK(refusal(machine, ZK_CANCEL, 0, 0, 0) == ZK_NOT_FUTURE);
    CHECK(refusal(machine, ZK_MAXIMUM, 0, 0, 0) == ZK_BAD_SIZES);
    CHECK(refusal(machine, 0, 0, 0, 0) == ZK_WRONG_ASK);
    CHECK(refusal(machine, 28, 0, 0, 0) == ZK_WRONG_ASK);
    CHECK(refusal(machine, ZK_TAKE, 0, 1, 0) == ZK_WRONG_ASK);
    CHECK(refusal(machine, ZK_SUBMIT, 3, 0, 0) == ZK_WRONG_ASK);
    CHECK(refusal(machine, ZK_SUBMIT, 0, 0, -1) == ZK_WRONG_ASK);
    CHECK(refusal(machine, ZK_LOOK, UINT64_C(1) << 32, 0, 0) == ZK_WRONG_ASK);
    CHECK(refusal(machine, ZK_VERDICT, 2, 4, 0) == ZK_WRONG_ASK);
    CHECK(refusal(machine, ZK_END, 0, 2, 0) == ZK_WRONG_ASK);

    CHECK(step(machine, ZK_END, 0, 0, -5).what == ZK_A_ENDED);
    a = step(machine, ZK_STOP, 0, 0, 0);
    CHECK(a.what == ZK_A_COUNT && a.number == 1);
    uint32_t task = 9;
    CHECK(zk_handed(machine, 0, &task) == ZK_DONE && task == 2);
    CHECK(zk_handed(machine, 1, &task) == ZK_UNKNOWN_TASK && task == 2);
    zk_task_view seen;
    CHECK(zk_task(machine, 2, &seen) == ZK_DONE && seen.place == ZK_GONE && seen.fate == ZK_HANDED_BACK && seen.slot == ZK_NO_SLOT);
    CHECK(zk_task(machine, 3, &seen) == ZK_UNKNOWN_TASK);
    CHECK(step(machine, ZK_TAKE, 0, 0, 0).what == ZK_A_LEAVE);
    CHECK(step(machine, ZK_TIDY, 0, 0, 0).what == ZK_A_DONE);
    CHECK(step(machine, ZK_ENDED, 0, 0, 0).what == ZK_A_DONE);
    zk_pool_view view;
    CHECK(zk_view(machine, &view) == ZK_DONE);
    CHECK(view.state == 4 && view.submitted == 3 && view.run == 1 && view.discarded == 1 && view.handedback == 1 && view.live == 0 && view.largest == 1);

    size_t needed = 0;
    if (recorder == ZK_FULL_RECORD) {
        CHECK(zk_record(machine, NULL, 0, &needed) == ZK_TOO_SMALL && needed > 0);
        struct bytes text = {malloc(needed), needed};
        CHECK(text.at && zk_record(machine, text.at, needed, &needed) == ZK_DONE);
        uint32_t status;
        struct bytes judged = answer_of(zk_audit, text, &status);
        CHECK(status == ZK_DONE && judged.length > 6 && memcmp(judged.at, "legal ", 6) == 0);
        free(judged.at), free(text.at);
        CHECK(zk_release(machine, 0) == ZK_WRONG_KIND);
    } else {
        CHECK(zk_record(machine, NULL, 0, &needed) == ZK_WRONG_KIND);
        CHECK(zk_release(machine, 0) == ZK_DONE && zk_release(machine, 0) == ZK_UNKNOWN_TASK && zk_release(machine, 9) == ZK_UNKNOWN_TASK);
    }
    CHECK(zk_close(machine) == ZK_DONE);
}

static int refusal_of_none(zk_machine *machine) {
    zk_answer answer;
    zk_pool_view view;
    zk_task_view seen_task;
    size_t needed;
    uint32_t task;
    return zk_step(machine, 0, ZK_TIDY, 0, 0, 0, &answer) == ZK_WRONG_KIND && zk_view(machine, &view) == ZK_WRONG_KIND &&
           zk_task(machine, 0, &seen_task) == ZK_WRONG_KIND && zk_handed(machine, 0, &task) == ZK_WRONG_KIND &&
           zk_record(machine, NULL, 0, &needed) == ZK_WRONG_KIND && zk_release(machine, 0) == ZK_WRONG_KIND;
}

static void refused_opens(void) {
    static const struct {
        const char *line;
        uint32_t status;
    } LINES[] = {
        {"", ZK_BAD_LINE}, {"pool 1 1 unbounded keep 0 abort\n", ZK_BAD_LINE}, {"pool 2 1 unbounded keep 0 abort", ZK_BAD_SIZES},
        {"pool 1 1 bounded 0 keep 0 abort", ZK_BAD_CAPACITY}, {"pool 1 1 unbounded keep 0 abort limit 63", ZK_BAD_LIMIT},
        {"pool 1 1 unbounded keep 0 abort coretimeout", ZK_KEEP_ZERO},
    };
    zk_machine *machine = (zk_machine *)LINES;
    for (size_t i = 0; i < sizeof LINES / sizeof *LINES; i++) {
        CHECK(zk_open((const uint8_t *)LINES[i].line, strlen(LINES[i].line), ZK_FULL_RECORD, &machine) == LINES[i].status);
        CHECK(machine == (zk_machine *)LINES);
    }
    CHECK(zk_open(LINE, sizeof LINE - 1, 2, &machine) == ZK_WRONG_KIND && machine == (zk_machine *)LINES);
}

static void nulls(void) {
    zk_machine *machine = NULL;
    zk_answer answer;
    zk_pool_view view;
    zk_task_view seen;
    size_t needed = 7;
    uint32_t task;
    CHECK(zk_audit(NULL, 1, NULL, 0, &needed) == ZK_NULL && zk_audit(NULL, 0, NULL, 0, NULL) == ZK_NULL);
    CHECK(zk_explore(NULL, 1, 9, NULL, 0, &needed) == ZK_NULL && zk_now(NULL, 1, 0, NULL, 0, &needed) == ZK_NULL);
    CHECK(zk_steps(LINE, 1, NULL, 1, &needed) == ZK_NULL && needed == 7);
    CHECK(zk_steps(NULL, 0, NULL, 0, &needed) == ZK_TOO_SMALL && needed == 21);
    CHECK(zk_open(NULL, 0, 0, &machine) == ZK_NULL && zk_open(LINE, 1, 0, NULL) == ZK_NULL);
    CHECK(zk_step(NULL, 0, 1, 0, 0, 0, &answer) == ZK_NULL && zk_view(NULL, &view) == ZK_NULL && zk_task(NULL, 0, &seen) == ZK_NULL);
    CHECK(zk_handed(NULL, 0, &task) == ZK_NULL && zk_record(NULL, NULL, 0, &needed) == ZK_NULL && zk_release(NULL, 0) == ZK_NULL);
    CHECK(zk_close(NULL) == ZK_NULL);
    CHECK(zk_open(LINE, sizeof LINE - 1, 0, &machine) == ZK_DONE);
    CHECK(zk_step(machine, 0, 1, 0, 0, 0, NULL) == ZK_NULL && zk_view(machine, NULL) == ZK_NULL && zk_task(machine, 0, NULL) == ZK_NULL);
    CHECK(zk_handed(machine, 0, NULL) == ZK_NULL && zk_record(machine, NULL, 0, NULL) == ZK_NULL && zk_record(machine, NULL, 1, &needed) == ZK_NULL);
    CHECK(zk_close(machine) == ZK_DONE);
}

/* A machine that is not there: before it is opened, and after it is closed. */
static void homes(void) {
    zk_machine *machine = malloc(sizeof(zk_machine) + zk_core_size());
    CHECK(machine);
    /* With the mark alone, the library itself tells whether a machine is there. */
    machine->mark = ZK_MARK;
    uint8_t *home = zk_home(machine);
    zk_core_init(home);
    for (int i = 0; i < 2; i++) {
        CHECK(refusal_of_none(machine));
        CHECK(zk_core_open(home, LINE, sizeof LINE - 1, ZK_TALLY) == ZK_DONE);
        CHECK(step(machine, ZK_SUBMIT, ZK_PLAIN, 0, 0).what == ZK_A_RESERVE);
        CHECK(zk_core_open(home, LINE, sizeof LINE - 1, ZK_FULL_RECORD) == ZK_WRONG_KIND);
        CHECK(step(machine, ZK_OPEN, 0, 0, 0).what == ZK_A_LIVE);
        CHECK(zk_core_close(home) == ZK_DONE);
    }
    CHECK(refusal_of_none(machine));
    CHECK(zk_core_close(home) == ZK_DONE);
    free(machine);
}

/* The pool of no record, and behind the end of one. */
static void moments(void) {
    static const uint8_t TEXT[] = "tprecord 2\npool 1 1 unbounded keep 0 abort\nend 0\n";
    static const uint8_t FLAW[] = "tprecord 2\npool 1 1 unbounded keep 0 abort\n1 open w0 live\nend 1\n";
    uint8_t room[512];
    size_t needed, again;
    CHECK(zk_now(TEXT, sizeof TEXT - 1, 0, room, sizeof room, &needed) == ZK_DONE);
    CHECK(zk_now(TEXT, sizeof TEXT - 1, ZK_THE_END, room, sizeof room, &again) == ZK_DONE && again == needed);
    CHECK(zk_now(TEXT, sizeof TEXT - 1, 1, room, sizeof room, &needed) == ZK_NOT_THERE);
    CHECK(zk_now(FLAW, sizeof FLAW - 1, ZK_THE_END, room, sizeof room, &needed) == ZK_FLAW && memcmp(room, "flaw 1\n", needed) == 0);
    CHECK(zk_now(FLAW, sizeof FLAW - 1, 0, room, sizeof room, &needed) == ZK_DONE);
    CHECK(zk_now(LINE, sizeof LINE - 1, 0, room, sizeof room, &needed) == ZK_BAD_ENTRY);
    static const uint8_t CALLERS[] = "pool 0 1 unbounded keep 0 abort\ncaller a: execute 1\ncaller shutdown\n";
    CHECK(zk_explore(CALLERS, sizeof CALLERS - 1, 3, room, sizeof room, &needed) == ZK_TOO_MANY && needed == 0);
    CHECK(zk_explore(CALLERS, sizeof CALLERS - 1, 1000, room, sizeof room, &needed) == ZK_DONE);
    CHECK(zk_explore(LINE, 4, 1000, room, sizeof room, &needed) == ZK_BAD_LINE);
}

/* A text of one byte more than may be, and one of just as many. */
static void longest(void) {
    struct bytes text = {malloc(1048577), 1048577};
    CHECK(text.at);
    memset(text.at, '\n', text.length);
    uint32_t status;
    struct bytes told = answer_of(zk_steps, text, &status);
    CHECK(status == ZK_READ_FAILED && told.length == 22 && memcmp(told.at, "refused 25 ReadFailed\n", 22) == 0);
    free(told.at);
    text.length--;
    told = answer_of(zk_steps, text, &status);
    CHECK(status == ZK_BAD_LINE && told.length == 27 && memcmp(told.at, "refused 23 BadLine 1048577\n", 27) == 0);
    free(told.at), free(text.at);
}

int main(int count, char **words) {
    CHECK(count == 2);
    int played = rows(words[1]);
    CHECK(played > 0);
    life(ZK_FULL_RECORD);
    life(ZK_TALLY);
    refused_opens();
    homes();
    moments();
    nulls();
    longest();
    printf("%d rows, two lives of a machine\n", played);
    return 0;
}
