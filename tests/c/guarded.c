/* Calls each function of hourstable.h with copies of what the caller passes. Each copy ends at the end of
 * its pages, so that an access past it is found. What the function writes is copied back, and what it
 * only reads must be unchanged. The checks call these by the names of the header. */
#define GUARDED_ITSELF
#include "checks.h"

#include <string.h>

#define MOST_LENT 8

static struct lent {
    const void *read;
    void *written;
    void *block;
    size_t length;
} lent[MOST_LENT];
static size_t lent_count;

static void *lend(const void *read, void *written, size_t length) {
    HOLDS(lent_count < MOST_LENT);
    lent[lent_count] = (struct lent){read, written, block_of(read, length), length};
    return lent[lent_count++].block;
}

/* Copies back what the call wrote, checks what it read, and drops the blocks. Returns the code. */
static int32_t returned(int32_t code) {
    while (lent_count) {
        struct lent *one = &lent[--lent_count];
        if (one->written && one->length)
            memcpy(one->written, one->block, one->length);
        else if (one->length)
            HOLDS(memcmp(one->read, one->block, one->length) == 0);
        drop_block(one->block);
    }
    return code;
}

#define READ(pointer) lend((pointer), NULL, sizeof *(pointer))
#define READ_ALL(pointer, count) lend((pointer), NULL, (count) * sizeof *(pointer)), (count)
#define WRITTEN(pointer) lend((pointer), (pointer), sizeof *(pointer))
#define WRITTEN_ALL(pointer, count) lend((pointer), (pointer), (count) * sizeof *(pointer)), (count)
#define PLACE WRITTEN(place)
#define READ_PLACE READ(place)
#define NAME READ_ALL(job, job_len)
#define KEY READ_ALL(key, key_len)
#define TOLD WRITTEN(told)
#define OUT WRITTEN_ALL(out, out_len), WRITTEN(needed)

void guarded_library_version(struct hs_library_version *out) {
    hs_library_version(WRITTEN(out));
    returned(HS_DONE);
}

uint64_t guarded_slice_key(const uint8_t *key, size_t key_len) {
    uint64_t found = hs_slice_key(KEY);
    returned(HS_DONE);
    return found;
}

int32_t guarded_place_new(struct hs_place *place) {
    return returned(hs_place_new(PLACE));
}

void guarded_place_free(struct hs_place *place) {
    hs_place_free(PLACE);
    returned(HS_DONE);
}

int32_t guarded_slicelet_close(struct hs_place *place) {
    return returned(hs_slicelet_close(PLACE));
}

int32_t guarded_clerk_close(struct hs_place *place) {
    return returned(hs_clerk_close(PLACE));
}

int32_t guarded_table_close(struct hs_place *place) {
    return returned(hs_table_close(PLACE));
}

int32_t guarded_load_book_close(struct hs_place *place) {
    return returned(hs_load_book_close(PLACE));
}

int32_t guarded_assigner_close(struct hs_place *place) {
    return returned(hs_assigner_close(PLACE));
}

int32_t guarded_slicelet_open(struct hs_place *place, const uint8_t *job, size_t job_len, uint64_t task) {
    return returned(hs_slicelet_open(PLACE, NAME, task));
}

int32_t guarded_slicelet_resume(struct hs_place *place, const uint8_t *job, size_t job_len, uint64_t task,
                                uint32_t life) {
    return returned(hs_slicelet_resume(PLACE, NAME, task, life));
}

int32_t guarded_ended_note(const uint8_t *job, size_t job_len, uint64_t task, uint32_t life, uint32_t kind,
                           uint8_t *out, size_t out_len, size_t *needed) {
    return returned(hs_ended_note(NAME, task, life, kind, OUT));
}

int32_t guarded_grant_read(const uint8_t *job, size_t job_len, const uint8_t *grant, size_t grant_len,
                           struct hs_grant *out, uint64_t *boundaries, size_t boundaries_len, size_t *needed) {
    return returned(hs_grant_read(NAME, READ_ALL(grant, grant_len), WRITTEN(out),
                                  WRITTEN_ALL(boundaries, boundaries_len), WRITTEN(needed)));
}

int32_t guarded_slicelet_held(const struct hs_place *place, uint32_t kind, struct hs_held_lease *out) {
    return returned(hs_slicelet_held(READ_PLACE, kind, WRITTEN(out)));
}

int32_t guarded_slicelet_permitted(const struct hs_place *place, uint64_t at, uint64_t *boundaries,
                                   size_t boundaries_len, size_t *needed) {
    return returned(hs_slicelet_permitted(READ_PLACE, at, WRITTEN_ALL(boundaries, boundaries_len), WRITTEN(needed)));
}

int32_t guarded_slicelet_next(const struct hs_place *place, const struct hs_phase *phase, uint64_t at,
                              uint32_t *action) {
    return returned(hs_slicelet_next(READ_PLACE, READ(phase), at, WRITTEN(action)));
}

int32_t guarded_slicelet_calls_left(const struct hs_place *place, uint64_t *left) {
    return returned(hs_slicelet_calls_left(READ_PLACE, WRITTEN(left)));
}

int32_t guarded_slicelet_start(struct hs_place *place, uint32_t life, uint64_t at) {
    return returned(hs_slicelet_start(PLACE, life, at));
}

int32_t guarded_slicelet_hear(struct hs_place *place, const uint8_t *grant, size_t grant_len, uint64_t at,
                              struct hs_told *told) {
    return returned(hs_slicelet_hear(PLACE, READ_ALL(grant, grant_len), at, TOLD));
}

int32_t guarded_slicelet_receive(struct hs_place *place, struct hs_task_clock *clock, uint64_t now,
                                 const struct hs_policy *policy, const uint8_t *grant, size_t grant_len,
                                 struct hs_receipt *receipt, uint8_t *out, size_t out_len, size_t *needed) {
    return returned(hs_slicelet_receive(PLACE, WRITTEN(clock), now, READ(policy), READ_ALL(grant, grant_len),
                                        WRITTEN(receipt), OUT));
}

int32_t guarded_slicelet_release(struct hs_place *place, uint32_t kind, uint64_t at, uint8_t *out, size_t out_len,
                                 size_t *needed) {
    return returned(hs_slicelet_release(PLACE, kind, at, OUT));
}

int32_t guarded_slicelet_serve(const struct hs_place *place, const uint8_t *key, size_t key_len, uint64_t at,
                               struct hs_told *told) {
    return returned(hs_slicelet_serve(READ_PLACE, KEY, at, TOLD));
}

int32_t guarded_slicelet_hold(const struct hs_place *place, const uint8_t *key, size_t key_len, uint64_t at,
                              struct hs_key_handle *out, struct hs_told *told) {
    return returned(hs_slicelet_hold(READ_PLACE, KEY, at, WRITTEN(out), TOLD));
}

int32_t guarded_slicelet_serve_at(const struct hs_place *place, uint64_t slice_key, uint64_t at, struct hs_told *told) {
    return returned(hs_slicelet_serve_at(READ_PLACE, slice_key, at, TOLD));
}

int32_t guarded_slicelet_hold_at(const struct hs_place *place, uint64_t slice_key, uint64_t at,
                                 struct hs_key_handle *out, struct hs_told *told) {
    return returned(hs_slicelet_hold_at(READ_PLACE, slice_key, at, WRITTEN(out), TOLD));
}

int32_t guarded_slicelet_token(const struct hs_place *place, uint64_t most, uint32_t epoch, const uint8_t *key,
                               size_t key_len, uint64_t at, struct hs_token *out) {
    return returned(hs_slicelet_token(READ_PLACE, most, epoch, KEY, at, WRITTEN(out)));
}

int32_t guarded_slicelet_token_at(const struct hs_place *place, uint64_t most, uint32_t epoch, uint64_t slice_key,
                                  uint64_t at, struct hs_token *out) {
    return returned(hs_slicelet_token_at(READ_PLACE, most, epoch, slice_key, at, WRITTEN(out)));
}

int32_t guarded_fence_accept(struct hs_token *greatest, const struct hs_token *token) {
    return returned(hs_fence_accept(WRITTEN(greatest), READ(token)));
}

int32_t guarded_slicelet_check(const struct hs_place *place, const struct hs_key_handle *handle, uint64_t at) {
    return returned(hs_slicelet_check(READ_PLACE, READ(handle), at));
}

int32_t guarded_slicelet_enter(const struct hs_place *place, struct hs_task_clock *clock, uint64_t now,
                               const uint8_t *key, size_t key_len, struct hs_block *block, uint8_t *out, size_t out_len,
                               size_t *needed) {
    return returned(hs_slicelet_enter(READ_PLACE, WRITTEN(clock), now, KEY, WRITTEN(block), OUT));
}

int32_t guarded_slicelet_enter_at(const struct hs_place *place, struct hs_task_clock *clock, uint64_t now,
                                  uint64_t slice_key, struct hs_block *block, uint8_t *out, size_t out_len,
                                  size_t *needed) {
    return returned(hs_slicelet_enter_at(READ_PLACE, WRITTEN(clock), now, slice_key, WRITTEN(block), OUT));
}

int32_t guarded_slicelet_leave(const struct hs_place *place, struct hs_task_clock *clock, uint64_t now,
                               struct hs_block *block, uint8_t *out, size_t out_len, size_t *needed) {
    return returned(hs_slicelet_leave(READ_PLACE, WRITTEN(clock), now, WRITTEN(block), OUT));
}

int32_t guarded_clerk_open(struct hs_place *place, const uint8_t *job, size_t job_len) {
    return returned(hs_clerk_open(PLACE, NAME));
}

int32_t guarded_clerk_learn(struct hs_place *place, const uint8_t *assignment, size_t assignment_len,
                            struct hs_told *told) {
    return returned(hs_clerk_learn(PLACE, READ_ALL(assignment, assignment_len), TOLD));
}

int32_t guarded_clerk_look(const struct hs_place *place, const uint8_t *key, size_t key_len, struct hs_owners *out) {
    return returned(hs_clerk_look(READ_PLACE, KEY, WRITTEN(out)));
}

int32_t guarded_clerk_look_at(const struct hs_place *place, uint64_t slice_key, struct hs_owners *out) {
    return returned(hs_clerk_look_at(READ_PLACE, slice_key, WRITTEN(out)));
}

int32_t guarded_clerk_forget(struct hs_place *place) {
    return returned(hs_clerk_forget(PLACE));
}

int32_t guarded_table_open(struct hs_place *place, const uint8_t *job, size_t job_len, const struct hs_policy *policy) {
    return returned(hs_table_open(PLACE, NAME, READ(policy)));
}

int32_t guarded_table_kept(const struct hs_place *place, uint8_t *out, size_t out_len, size_t *needed) {
    return returned(hs_table_kept(READ_PLACE, OUT));
}

int32_t guarded_table_save(const struct hs_place *place, const uint8_t *saved, size_t saved_len, uint64_t grants,
                           uint64_t ticks, uint8_t *out, size_t out_len, size_t *needed) {
    return returned(hs_table_save(READ_PLACE, READ_ALL(saved, saved_len), grants, ticks, OUT));
}

int32_t guarded_table_restore(struct hs_place *place, const uint8_t *job, size_t job_len,
                              const struct hs_policy *policy, const uint8_t *kept, size_t kept_len,
                              struct hs_told *told) {
    return returned(hs_table_restore(PLACE, NAME, READ(policy), READ_ALL(kept, kept_len), TOLD));
}

int32_t guarded_table_take(struct hs_place *place, uint64_t assigner, uint64_t at, struct hs_job_term *out,
                           struct hs_told *told) {
    return returned(hs_table_take(PLACE, assigner, at, WRITTEN(out), TOLD));
}

int32_t guarded_table_renew(struct hs_place *place, uint64_t number, uint64_t at, struct hs_job_term *out,
                            struct hs_told *told) {
    return returned(hs_table_renew(PLACE, number, at, WRITTEN(out), TOLD));
}

int32_t guarded_table_propose(struct hs_place *place, uint64_t number, const uint8_t *assignment, size_t assignment_len,
                              uint64_t at, struct hs_told *told) {
    return returned(hs_table_propose(PLACE, number, READ_ALL(assignment, assignment_len), at, TOLD));
}

int32_t guarded_table_commit(struct hs_place *place, uint64_t number, uint64_t at, struct hs_told *told) {
    return returned(hs_table_commit(PLACE, number, at, TOLD));
}

int32_t guarded_table_grant(struct hs_place *place, uint64_t task, uint32_t life, uint64_t at, uint8_t *out,
                            size_t out_len, size_t *needed) {
    return returned(hs_table_grant(PLACE, task, life, at, OUT));
}

int32_t guarded_table_free(struct hs_place *place, const uint8_t *note, size_t note_len, uint64_t at, uint64_t *freed,
                           struct hs_told *told) {
    return returned(hs_table_free(PLACE, READ_ALL(note, note_len), at, WRITTEN(freed), TOLD));
}

int32_t guarded_table_restart(struct hs_place *place, uint64_t *lost) {
    return returned(hs_table_restart(PLACE, WRITTEN(lost)));
}

int32_t guarded_table_phase(const struct hs_place *place, struct hs_phase *out) {
    return returned(hs_table_phase(READ_PLACE, WRITTEN(out)));
}

int32_t guarded_table_rows(const struct hs_place *place, struct hs_row *out, size_t out_len, size_t *needed) {
    return returned(hs_table_rows(READ_PLACE, OUT));
}

int32_t guarded_table_committed(const struct hs_place *place, uint8_t *out, size_t out_len, size_t *needed) {
    return returned(hs_table_committed(READ_PLACE, OUT));
}

int32_t guarded_assignment_new(const uint8_t *job, size_t job_len, uint64_t generation, const struct hs_slice *slices,
                               size_t slices_len, uint8_t *out, size_t out_len, size_t *needed) {
    return returned(hs_assignment_new(NAME, generation, READ_ALL(slices, slices_len), OUT));
}

int32_t guarded_assignment_read(const uint8_t *job, size_t job_len, const uint8_t *assignment, size_t assignment_len,
                                uint64_t *generation, struct hs_slice *out, size_t out_len, size_t *needed) {
    return returned(hs_assignment_read(NAME, READ_ALL(assignment, assignment_len), WRITTEN(generation), OUT));
}

int32_t guarded_assignment_slice(const uint8_t *job, size_t job_len, const uint8_t *assignment, size_t assignment_len,
                                 uint64_t slice_key, struct hs_slice *out) {
    return returned(hs_assignment_slice(NAME, READ_ALL(assignment, assignment_len), slice_key, WRITTEN(out)));
}

int32_t guarded_load_book_open(struct hs_place *place, const uint8_t *job, size_t job_len) {
    return returned(hs_load_book_open(PLACE, NAME));
}

int32_t guarded_load_book_gather(struct hs_place *place, const uint8_t *assignment, size_t assignment_len,
                                 uint64_t task, const struct hs_load_record *records, size_t records_len,
                                 uint64_t *loads, size_t loads_len, size_t *needed) {
    return returned(hs_load_book_gather(PLACE, READ_ALL(assignment, assignment_len), task,
                                        READ_ALL(records, records_len), WRITTEN_ALL(loads, loads_len),
                                        WRITTEN(needed)));
}

int32_t guarded_load_book_total(const struct hs_place *place, uint64_t task, uint64_t *total) {
    return returned(hs_load_book_total(READ_PLACE, task, WRITTEN(total)));
}

int32_t guarded_assigner_open(struct hs_place *place, uint64_t id, uint64_t job) {
    return returned(hs_assigner_open(PLACE, id, job));
}

int32_t guarded_assigner_adopt(struct hs_place *place, const struct hs_job_term *term) {
    return returned(hs_assigner_adopt(PLACE, READ(term)));
}

int32_t guarded_assigner_drop_term(struct hs_place *place) {
    return returned(hs_assigner_drop_term(PLACE));
}

int32_t guarded_assigner_next(const struct hs_place *place, uint64_t at, const struct hs_phase *phase, uint32_t wanted,
                              uint32_t *action, uint64_t *number) {
    return returned(hs_assigner_next(READ_PLACE, at, READ(phase), wanted, WRITTEN(action), WRITTEN(number)));
}

int32_t guarded_log_line(const uint8_t *job, size_t job_len, const struct hs_logged_call *call, const uint8_t *message,
                         size_t message_len, uint8_t *out, size_t out_len, size_t *needed) {
    return returned(hs_log_line(NAME, READ(call), READ_ALL(message, message_len), OUT));
}

int32_t guarded_log_write(const struct hs_logged_write *write, uint8_t *out, size_t out_len, size_t *needed) {
    return returned(hs_log_write(READ(write), OUT));
}

int32_t guarded_plan(const uint8_t *job, size_t job_len, const uint8_t *assignment, size_t assignment_len,
                     const uint64_t *loads, size_t loads_len, const uint64_t *tasks, size_t tasks_len,
                     const struct hs_plan_policy *policy, uint8_t *out, size_t out_len, size_t *needed) {
    return returned(hs_plan(NAME, READ_ALL(assignment, assignment_len), READ_ALL(loads, loads_len),
                            READ_ALL(tasks, tasks_len), READ(policy), OUT));
}

int32_t guarded_task_clock_new(struct hs_task_clock *clock, uint64_t extra, uint64_t per, uint64_t grain,
                               uint64_t oldest) {
    return returned(hs_task_clock_new(WRITTEN(clock), extra, per, grain, oldest));
}

int32_t guarded_task_clock_sample(struct hs_task_clock *clock, uint64_t sent, uint64_t reading, uint64_t now) {
    return returned(hs_task_clock_sample(WRITTEN(clock), sent, reading, now));
}

int32_t guarded_task_clock_read(struct hs_task_clock *clock, uint64_t now, uint64_t *out) {
    return returned(hs_task_clock_read(WRITTEN(clock), now, WRITTEN(out)));
}

int32_t guarded_table_clock_open(struct hs_table_clock *clock, uint64_t kept, uint64_t ahead, uint64_t now) {
    return returned(hs_table_clock_open(WRITTEN(clock), kept, ahead, now));
}

int32_t guarded_table_clock_read(struct hs_table_clock *clock, uint64_t now, uint64_t *out) {
    return returned(hs_table_clock_read(WRITTEN(clock), now, WRITTEN(out)));
}

int32_t guarded_clock_evidence(const uint8_t *job, size_t job_len, const uint8_t *grant, size_t grant_len, uint64_t at,
                               const struct hs_policy *policy, uint32_t *out) {
    return returned(hs_clock_evidence(NAME, READ_ALL(grant, grant_len), at, READ(policy), WRITTEN(out)));
}
