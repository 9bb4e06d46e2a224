/* The functions of hourstable.h as the checks call them: see guarded.c. */
#ifndef GUARDED_H
#define GUARDED_H

#include "hourstable.h"

void guarded_library_version(struct hs_library_version *out);
uint64_t guarded_slice_key(const uint8_t *key, size_t key_len);
int32_t guarded_place_new(struct hs_place *place);
void guarded_place_free(struct hs_place *place);
int32_t guarded_slicelet_close(struct hs_place *place);
int32_t guarded_clerk_close(struct hs_place *place);
int32_t guarded_table_close(struct hs_place *place);
int32_t guarded_load_book_close(struct hs_place *place);
int32_t guarded_assigner_close(struct hs_place *place);
int32_t guarded_slicelet_open(struct hs_place *place, const uint8_t *job, size_t job_len, uint64_t task);
int32_t guarded_slicelet_resume(struct hs_place *place, const uint8_t *job, size_t job_len, uint64_t task,
                                uint32_t life);
int32_t guarded_ended_note(const uint8_t *job, size_t job_len, uint64_t task, uint32_t life, uint32_t kind,
                           uint8_t *out, size_t out_len, size_t *needed);
int32_t guarded_grant_read(const uint8_t *job, size_t job_len, const uint8_t *grant, size_t grant_len,
                           struct hs_grant *out, uint64_t *boundaries, size_t boundaries_len, size_t *needed);
int32_t guarded_slicelet_held(const struct hs_place *place, uint32_t kind, struct hs_held_lease *out);
int32_t guarded_slicelet_permitted(const struct hs_place *place, uint64_t at, uint64_t *boundaries,
                                   size_t boundaries_len, size_t *needed);
int32_t guarded_slicelet_next(const struct hs_place *place, const struct hs_phase *phase, uint64_t at,
                              uint32_t *action);
int32_t guarded_slicelet_calls_left(const struct hs_place *place, uint64_t *left);
int32_t guarded_slicelet_start(struct hs_place *place, uint32_t life, uint64_t at);
int32_t guarded_slicelet_hear(struct hs_place *place, const uint8_t *grant, size_t grant_len, uint64_t at,
                              struct hs_told *told);
int32_t guarded_slicelet_receive(struct hs_place *place, struct hs_task_clock *clock, uint64_t now,
                                 const struct hs_policy *policy, const uint8_t *grant, size_t grant_len,
                                 struct hs_receipt *receipt, uint8_t *out, size_t out_len, size_t *needed);
int32_t guarded_slicelet_release(struct hs_place *place, uint32_t kind, uint64_t at, uint8_t *out, size_t out_len,
                                 size_t *needed);
int32_t guarded_slicelet_serve(const struct hs_place *place, const uint8_t *key, size_t key_len, uint64_t at,
                               struct hs_told *told);
int32_t guarded_slicelet_hold(const struct hs_place *place, const uint8_t *key, size_t key_len, uint64_t at,
                              struct hs_key_handle *out, struct hs_told *told);
int32_t guarded_slicelet_serve_at(const struct hs_place *place, uint64_t slice_key, uint64_t at, struct hs_told *told);
int32_t guarded_slicelet_hold_at(const struct hs_place *place, uint64_t slice_key, uint64_t at,
                                 struct hs_key_handle *out, struct hs_told *told);
int32_t guarded_slicelet_token(const struct hs_place *place, uint64_t most, uint32_t epoch, const uint8_t *key,
                               size_t key_len, uint64_t at, struct hs_token *out);
int32_t guarded_slicelet_token_at(const struct hs_place *place, uint64_t most, uint32_t epoch, uint64_t slice_key,
                                  uint64_t at, struct hs_token *out);
int32_t guarded_fence_accept(struct hs_token *greatest, const struct hs_token *token);
int32_t guarded_slicelet_check(const struct hs_place *place, const struct hs_key_handle *handle, uint64_t at);
int32_t guarded_slicelet_enter(const struct hs_place *place, struct hs_task_clock *clock, uint64_t now,
                               const uint8_t *key, size_t key_len, struct hs_block *block, uint8_t *out, size_t out_len,
                               size_t *needed);
int32_t guarded_slicelet_enter_at(const struct hs_place *place, struct hs_task_clock *clock, uint64_t now,
                                  uint64_t slice_key, struct hs_block *block, uint8_t *out, size_t out_len,
                                  size_t *needed);
int32_t guarded_slicelet_leave(const struct hs_place *place, struct hs_task_clock *clock, uint64_t now,
                               struct hs_block *block, uint8_t *out, size_t out_len, size_t *needed);
int32_t guarded_clerk_open(struct hs_place *place, const uint8_t *job, size_t job_len);
int32_t guarded_clerk_learn(struct hs_place *place, const uint8_t *assignment, size_t assignment_len,
                            struct hs_told *told);
int32_t guarded_clerk_look(const struct hs_place *place, const uint8_t *key, size_t key_len, struct hs_owners *out);
int32_t guarded_clerk_look_at(const struct hs_place *place, uint64_t slice_key, struct hs_owners *out);
int32_t guarded_clerk_forget(struct hs_place *place);
int32_t guarded_table_open(struct hs_place *place, const uint8_t *job, size_t job_len, const struct hs_policy *policy);
int32_t guarded_table_kept(const struct hs_place *place, uint8_t *out, size_t out_len, size_t *needed);
int32_t guarded_table_save(const struct hs_place *place, const uint8_t *saved, size_t saved_len, uint64_t grants,
                           uint64_t ticks, uint8_t *out, size_t out_len, size_t *needed);
int32_t guarded_table_restore(struct hs_place *place, const uint8_t *job, size_t job_len,
                              const struct hs_policy *policy, const uint8_t *kept, size_t kept_len,
                              struct hs_told *told);
int32_t guarded_table_take(struct hs_place *place, uint64_t assigner, uint64_t at, struct hs_job_term *out,
                           struct hs_told *told);
int32_t guarded_table_renew(struct hs_place *place, uint64_t number, uint64_t at, struct hs_job_term *out,
                            struct hs_told *told);
int32_t guarded_table_propose(struct hs_place *place, uint64_t number, const uint8_t *assignment, size_t assignment_len,
                              uint64_t at, struct hs_told *told);
int32_t guarded_table_commit(struct hs_place *place, uint64_t number, uint64_t at, struct hs_told *told);
int32_t guarded_table_grant(struct hs_place *place, uint64_t task, uint32_t life, uint64_t at, uint8_t *out,
                            size_t out_len, size_t *needed);
int32_t guarded_table_free(struct hs_place *place, const uint8_t *note, size_t note_len, uint64_t at, uint64_t *freed,
                           struct hs_told *told);
int32_t guarded_table_restart(struct hs_place *place, uint64_t *lost);
int32_t guarded_table_phase(const struct hs_place *place, struct hs_phase *out);
int32_t guarded_table_rows(const struct hs_place *place, struct hs_row *out, size_t out_len, size_t *needed);
int32_t guarded_table_committed(const struct hs_place *place, uint8_t *out, size_t out_len, size_t *needed);
int32_t guarded_assignment_new(const uint8_t *job, size_t job_len, uint64_t generation, const struct hs_slice *slices,
                               size_t slices_len, uint8_t *out, size_t out_len, size_t *needed);
int32_t guarded_assignment_read(const uint8_t *job, size_t job_len, const uint8_t *assignment, size_t assignment_len,
                                uint64_t *generation, struct hs_slice *out, size_t out_len, size_t *needed);
int32_t guarded_assignment_slice(const uint8_t *job, size_t job_len, const uint8_t *assignment, size_t assignment_len,
                                 uint64_t slice_key, struct hs_slice *out);
int32_t guarded_load_book_open(struct hs_place *place, const uint8_t *job, size_t job_len);
int32_t guarded_load_book_gather(struct hs_place *place, const uint8_t *assignment, size_t assignment_len,
                                 uint64_t task, const struct hs_load_record *records, size_t records_len,
                                 uint64_t *loads, size_t loads_len, size_t *needed);
int32_t guarded_load_book_total(const struct hs_place *place, uint64_t task, uint64_t *total);
int32_t guarded_assigner_open(struct hs_place *place, uint64_t id, uint64_t job);
int32_t guarded_assigner_adopt(struct hs_place *place, const struct hs_job_term *term);
int32_t guarded_assigner_drop_term(struct hs_place *place);
int32_t guarded_assigner_next(const struct hs_place *place, uint64_t at, const struct hs_phase *phase, uint32_t wanted,
                              uint32_t *action, uint64_t *number);
int32_t guarded_log_line(const uint8_t *job, size_t job_len, const struct hs_logged_call *call, const uint8_t *message,
                         size_t message_len, uint8_t *out, size_t out_len, size_t *needed);
int32_t guarded_log_write(const struct hs_logged_write *write, uint8_t *out, size_t out_len, size_t *needed);
int32_t guarded_plan(const uint8_t *job, size_t job_len, const uint8_t *assignment, size_t assignment_len,
                     const uint64_t *loads, size_t loads_len, const uint64_t *tasks, size_t tasks_len,
                     const struct hs_plan_policy *policy, uint8_t *out, size_t out_len, size_t *needed);
int32_t guarded_task_clock_new(struct hs_task_clock *clock, uint64_t extra, uint64_t per, uint64_t grain,
                               uint64_t oldest);
int32_t guarded_task_clock_sample(struct hs_task_clock *clock, uint64_t sent, uint64_t reading, uint64_t now);
int32_t guarded_task_clock_read(struct hs_task_clock *clock, uint64_t now, uint64_t *out);
int32_t guarded_table_clock_open(struct hs_table_clock *clock, uint64_t kept, uint64_t ahead, uint64_t now);
int32_t guarded_table_clock_read(struct hs_table_clock *clock, uint64_t now, uint64_t *out);
int32_t guarded_clock_evidence(const uint8_t *job, size_t job_len, const uint8_t *grant, size_t grant_len, uint64_t at,
                               const struct hs_policy *policy, uint32_t *out);

#ifndef GUARDED_ITSELF
/* Takes its parameter, since a struct has the same name. */
#define hs_library_version(out) guarded_library_version(out)
#define hs_slice_key guarded_slice_key
#define hs_place_new guarded_place_new
#define hs_place_free guarded_place_free
#define hs_slicelet_close guarded_slicelet_close
#define hs_clerk_close guarded_clerk_close
#define hs_table_close guarded_table_close
#define hs_load_book_close guarded_load_book_close
#define hs_assigner_close guarded_assigner_close
#define hs_slicelet_open guarded_slicelet_open
#define hs_slicelet_resume guarded_slicelet_resume
#define hs_ended_note guarded_ended_note
#define hs_grant_read guarded_grant_read
#define hs_slicelet_held guarded_slicelet_held
#define hs_slicelet_permitted guarded_slicelet_permitted
#define hs_slicelet_next guarded_slicelet_next
#define hs_slicelet_calls_left guarded_slicelet_calls_left
#define hs_slicelet_start guarded_slicelet_start
#define hs_slicelet_hear guarded_slicelet_hear
#define hs_slicelet_receive guarded_slicelet_receive
#define hs_slicelet_release guarded_slicelet_release
#define hs_slicelet_serve guarded_slicelet_serve
#define hs_slicelet_hold guarded_slicelet_hold
#define hs_slicelet_serve_at guarded_slicelet_serve_at
#define hs_slicelet_hold_at guarded_slicelet_hold_at
#define hs_slicelet_token guarded_slicelet_token
#define hs_slicelet_token_at guarded_slicelet_token_at
#define hs_fence_accept guarded_fence_accept
#define hs_slicelet_check guarded_slicelet_check
#define hs_slicelet_enter guarded_slicelet_enter
#define hs_slicelet_enter_at guarded_slicelet_enter_at
#define hs_slicelet_leave guarded_slicelet_leave
#define hs_clerk_open guarded_clerk_open
#define hs_clerk_learn guarded_clerk_learn
#define hs_clerk_look guarded_clerk_look
#define hs_clerk_look_at guarded_clerk_look_at
#define hs_clerk_forget guarded_clerk_forget
#define hs_table_open guarded_table_open
#define hs_table_kept guarded_table_kept
#define hs_table_save guarded_table_save
#define hs_table_restore guarded_table_restore
#define hs_table_take guarded_table_take
#define hs_table_renew guarded_table_renew
#define hs_table_propose guarded_table_propose
#define hs_table_commit guarded_table_commit
#define hs_table_grant guarded_table_grant
#define hs_table_free guarded_table_free
#define hs_table_restart guarded_table_restart
#define hs_table_phase guarded_table_phase
#define hs_table_rows guarded_table_rows
#define hs_table_committed guarded_table_committed
#define hs_assignment_new guarded_assignment_new
#define hs_assignment_read guarded_assignment_read
#define hs_assignment_slice guarded_assignment_slice
#define hs_load_book_open guarded_load_book_open
#define hs_load_book_gather guarded_load_book_gather
#define hs_load_book_total guarded_load_book_total
#define hs_assigner_open guarded_assigner_open
#define hs_assigner_adopt guarded_assigner_adopt
#define hs_assigner_drop_term guarded_assigner_drop_term
#define hs_assigner_next guarded_assigner_next
#define hs_log_line guarded_log_line
#define hs_log_write guarded_log_write
#define hs_plan guarded_plan
#define hs_task_clock_new guarded_task_clock_new
#define hs_task_clock_sample guarded_task_clock_sample
#define hs_task_clock_read guarded_task_clock_read
#define hs_table_clock_open guarded_table_clock_open
#define hs_table_clock_read guarded_table_clock_read
#define hs_clock_evidence guarded_clock_evidence
#endif

#endif
