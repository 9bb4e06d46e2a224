/* A table, a task and a client in one program. It writes the line of each call to standard output, as the log that
 * `hourstable audit` judges (docs/AUDIT.md).
 *
 * In a service each process writes its own log, and each line before the reply leaves the process. */
#include "hourstable.h"

#include <stdio.h>
#include <stdlib.h>
#include <string.h>

#define JOB (const uint8_t *)"shop", 4
#define KEY (const uint8_t *)"apples", 6
#define TASK 1
#define CLERK 1

static const char job_line[] = "{\"job\":{\"redundancy\":1,\"skew\":10,\"guard\":100,\"bridge\":100,\"job\":1000,"
                               "\"numbers\":1000,\"assigners\":1,\"tasks\":2,\"clerks\":1}}";
static const struct hs_policy policy = {
    .low = 1, .high = 1, .skew = 10, .guard = 100, .bridge = 100, .job = 1000, .numbers = 1000};

/* A message that a call made or delivers. */
struct message {
    uint8_t bytes[512];
    size_t length;
};
static const struct message none = {{0}, 0};

/* Writes the line of a call. The ticket of this program is a counter. */
static void log_call(struct hs_logged_call *call, int32_t code, const struct message *message) {
    static uint64_t ticket;
    uint8_t line[1024];
    size_t length = 0;
    call->ticket = ++ticket;
    call->code = code;
    if (hs_log_line(JOB, call, message->bytes, message->length, line, sizeof line, &length) != HS_DONE)
        exit(1);
    fwrite(line, 1, length, stdout);
}

static struct hs_place new_place(void) {
    struct hs_place place = {0};
    if (hs_place_new(&place) != HS_DONE)
        exit(1);
    return place;
}

/* Proposes and commits the assignment of a generation, in which one task owns all keys. */
static void move_to(struct hs_place *table, struct hs_place *clerk, uint64_t generation, uint64_t owner, uint64_t at) {
    struct hs_slice slice = {0, 1, {owner}};
    struct hs_logged_call proposed = {.call = HS_CALL_PROPOSE, .term = 1, .at = at};
    struct hs_logged_call committed = {.call = HS_CALL_COMMIT, .term = 1, .at = at};
    struct hs_logged_call learnt = {.call = HS_CALL_LEARN, .clerk = CLERK};
    struct message message;
    if (hs_assignment_new(JOB, generation, &slice, 1, message.bytes, sizeof message.bytes, &message.length) != HS_DONE)
        exit(1);
    log_call(&proposed, hs_table_propose(table, 1, message.bytes, message.length, at, &proposed.told), &message);
    int32_t code = hs_table_commit(table, 1, at, &committed.told);
    log_call(&committed, code, &none);
    if (code == HS_DONE)
        log_call(&learnt, hs_clerk_learn(clerk, message.bytes, message.length, &learnt.told), &message);
}

static void get_lease(struct hs_place *table, struct hs_place *task, uint64_t at) {
    struct hs_logged_call granted = {.call = HS_CALL_GRANT, .task = TASK, .life = 1, .at = at};
    struct hs_logged_call heard = {.call = HS_CALL_HEAR, .task = TASK, .at = at};
    struct message grant = none;
    int32_t code = hs_table_grant(table, TASK, 1, at, grant.bytes, sizeof grant.bytes, &grant.length);
    log_call(&granted, code, &grant);
    log_call(&heard, hs_slicelet_hear(task, grant.bytes, grant.length, at, &heard.told), &grant);
}

static void give_back(struct hs_place *table, struct hs_place *task, uint64_t at) {
    struct hs_logged_call released = {.call = HS_CALL_RELEASE, .task = TASK, .kind = HS_GUARD, .at = at};
    struct hs_logged_call freed = {.call = HS_CALL_FREE, .at = at};
    struct message note = none;
    int32_t code = hs_slicelet_release(task, HS_GUARD, at, note.bytes, sizeof note.bytes, &note.length);
    log_call(&released, code, &note);
    log_call(&freed, hs_table_free(table, note.bytes, note.length, at, &freed.count, &freed.told), &note);
}

static void serve(struct hs_place *task, uint64_t at) {
    struct hs_logged_call served = {.call = HS_CALL_SERVE, .task = TASK, .at = at, .slice_key = hs_slice_key(KEY)};
    log_call(&served, hs_slicelet_serve(task, KEY, at, &served.told), &none);
}

static void look(struct hs_place *clerk) {
    struct hs_logged_call looked = {.call = HS_CALL_LOOK, .clerk = CLERK, .slice_key = hs_slice_key(KEY)};
    log_call(&looked, hs_clerk_look(clerk, KEY, &looked.owners), &none);
}

/* The key moves from task 1 to task 2, which may serve it only when task 1 has given its lease back. */
static void play(struct hs_place *table, struct hs_place *task, struct hs_place *clerk) {
    struct hs_logged_call opened = {.call = HS_CALL_OPEN, .task = TASK};
    struct hs_logged_call started = {.call = HS_CALL_START, .task = TASK, .life = 1, .at = 1};
    struct hs_logged_call taken = {.call = HS_CALL_TAKE, .assigner = 1, .at = 1};
    struct hs_logged_call held = {.call = HS_CALL_HOLD, .task = TASK, .at = 6, .slice_key = hs_slice_key(KEY)};
    struct hs_logged_call checked = {.call = HS_CALL_CHECK, .task = TASK, .at = 9};
    log_call(&opened, hs_slicelet_open(task, JOB, TASK), &none);
    log_call(&started, hs_slicelet_start(task, 1, 1), &none);
    look(clerk);
    log_call(&taken, hs_table_take(table, 1, 1, &taken.job_term, &taken.told), &none);
    move_to(table, clerk, 1, TASK, 2);
    get_lease(table, task, 4);
    look(clerk);
    serve(task, 5);
    log_call(&held, hs_slicelet_hold(task, KEY, 6, &held.handle, &held.told), &none);
    checked.handle = held.handle;
    log_call(&checked, hs_slicelet_check(task, &checked.handle, 9), &none);
    move_to(table, clerk, 2, 2, 10);
    give_back(table, task, 12);
    serve(task, 13);
    checked.at = 13;
    log_call(&checked, hs_slicelet_check(task, &checked.handle, 13), &none);
}

int main(void) {
    struct hs_place table = new_place(), task = new_place(), clerk = new_place();
    if (hs_table_open(&table, JOB, &policy) != HS_DONE || hs_clerk_open(&clerk, JOB) != HS_DONE)
        return 1;
    puts(job_line);
    play(&table, &task, &clerk);
    hs_place_free(&table);
    hs_place_free(&task);
    hs_place_free(&clerk);
    return 0;
}
