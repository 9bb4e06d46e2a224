// Written by hourstable-sys/generate from include/hourstable.h.

use core::ffi::c_void;

pub const HS_LIBRARY_MAJOR: u32 = 1;
pub const HS_LIBRARY_MINOR: u32 = 0;
pub const HS_LIBRARY_PATCH: u32 = 0;
pub const HS_LIBRARY_VERSION: &str = "1.0.0";
pub const HS_DONE: i32 = 0;
/// the task was not started
pub const HS_DOWN: i32 = 1;
/// the reading is below the last accepted one
pub const HS_CLOCK_BACK: i32 = 2;
/// a held lease covers the key, but has ended
pub const HS_ENDED: i32 = 3;
/// no held lease covers the key, but one is live; told.generation is the
/// greatest of a live lease
pub const HS_NOT_OWNED: i32 = 4;
/// no held lease covers the key, and none is live
pub const HS_NO_LEASE: i32 = 5;
/// the task was not started
pub const HS_NOT_STARTED: i32 = 6;
/// the life is not above the current one
pub const HS_OLD_LIFE: i32 = 7;
/// the grant is for another task
pub const HS_OTHER_TASK: i32 = 8;
/// the grant is for another life
pub const HS_OTHER_LIFE: i32 = 9;
/// the grant's number is not above told.number, the greatest that was
/// heard of its kind in this life
pub const HS_OLD: i32 = 10;
/// the lease of the grant has ended
pub const HS_TOO_LATE: i32 = 11;
/// no lease of the kind is held
pub const HS_NOTHING_HELD: i32 = 12;
/// the slicelet has accepted 65,536 calls and accepts no more, not even
/// release: resume the task in a new one, and start a higher life
pub const HS_HISTORY_FULL: i32 = 13;
/// the handle is not continuous
pub const HS_BROKEN: i32 = 14;
/// the slicelet cannot have given the handle
pub const HS_STRANGER: i32 = 15;
/// the reading is 2^62 or more
pub const HS_READING_RANGE: i32 = 16;
/// the last term of the job lease ends at told.until
pub const HS_JOB_HELD: i32 = 17;
/// the term is not told.number, the last one given (0 for
/// none), or has ended
pub const HS_NOT_HOLDER: i32 = 18;
/// the assignment is not of the generation after
/// told.generation, the committed one
pub const HS_STALE_BASE: i32 = 19;
/// an assignment is already proposed
pub const HS_PENDING: i32 = 20;
/// no assignment is proposed
pub const HS_NOTHING_PENDING: i32 = 21;
/// a slice has more owners than the policy allows
pub const HS_TOO_MANY_OWNERS_FOR_JOB: i32 = 22;
/// the table restarted, and a lease whose row it lost may not
/// have ended; at told.until all of them have
pub const HS_GRACE: i32 = 23;
/// grant told.number, of told.kind, to told.task has not ended
/// and was not freed
pub const HS_HELD: i32 = 24;
/// the note closes no row that has not ended
pub const HS_NO_ROW: i32 = 25;
/// no assignment is committed or, for a grant, proposed
pub const HS_NO_ASSIGNMENT: i32 = 26;
/// the table has made as many grants as the policy allows
pub const HS_NUMBERS_SPENT: i32 = 27;
/// the assignment is not newer than told.generation, the kept one
pub const HS_OLD_GENERATION: i32 = 28;
/// the clerk keeps no assignment
pub const HS_UNKNOWN: i32 = 29;
/// the term is another assigner's, or not newer than the kept one
pub const HS_NOT_ADOPTED: i32 = 30;
/// there is no task
pub const HS_NO_TASKS: i32 = 31;
/// there are not as many loads as slices
pub const HS_LOADS_LENGTH: i32 = 32;
/// a load is above 2^40
pub const HS_LOAD_RANGE: i32 = 33;
/// `sent` of the sample is above `now`
pub const HS_SENT_AHEAD: i32 = 34;
/// the clock has taken no sample
pub const HS_NO_SAMPLE: i32 = 35;
/// the request of the newest sample was sent more than `oldest` ticks ago
pub const HS_TOO_OLD: i32 = 36;
/// the value would be 2^64 or more
pub const HS_TOO_LARGE: i32 = 37;
/// the table's clock is below the value that was kept, clock->kept
pub const HS_NOT_YET: i32 = 38;
/// they are of a table with another policy
pub const HS_OTHER_POLICY: i32 = 39;
/// there is an assignment, but no term of the job lease was given
pub const HS_NO_TERM: i32 = 40;
/// the term has number 0 or a number above its end, or ends more than a
/// job lease lasts after the last reading
pub const HS_TERM_RANGE: i32 = 41;
/// the committed generation is 0, or the proposed one is not the next
pub const HS_KEPT_GENERATION: i32 = 42;
/// the table made more grants than the policy allows
pub const HS_TOO_MANY_GRANTS: i32 = 43;
/// the greatest deadline is 0 although grants were made, is above 0
/// although none was, or is further after the last reading than a lease
/// lasts
pub const HS_DEADLINE_RANGE: i32 = 44;
/// the weight of a record is 0 or above 2^32
pub const HS_WEIGHT_RANGE: i32 = 45;
/// all weights that were gathered would add up to more than 2^40
pub const HS_TOTAL_RANGE: i32 = 46;
/// a slice of the job may have more than one owner
pub const HS_MANY_OWNERS: i32 = 47;
/// the token is below the greatest one that was accepted for the key
pub const HS_FENCED: i32 = 48;
/// out of memory
pub const HS_NO_MEMORY: i32 = -1;
/// the buffer is shorter than `needed`: call again with a longer one
pub const HS_NO_ROOM: i32 = -2;
/// the bytes are not a JSON text
pub const HS_NOT_JSON: i32 = -3;
/// the message has another version: told.number, if the function has
/// `told`
pub const HS_VERSION: i32 = -4;
/// the message is of another type
pub const HS_OTHER_TYPE: i32 = -5;
/// the message has other members than its type, a member twice, or more
/// than 1,048,576 bytes, or a member or a number that was passed is
/// outside its limits
pub const HS_WRONG_FORM: i32 = -6;
/// a range ends, or a slice starts, past the last key
pub const HS_PAST_END: i32 = -7;
/// a range starts before the end of the one before it
pub const HS_UNSORTED: i32 = -8;
/// a range does not end above its start
pub const HS_EMPTY: i32 = -9;
/// an assignment has no slice
pub const HS_NO_SLICES: i32 = -10;
/// the first slice does not start at 0
pub const HS_FIRST_NOT_ZERO: i32 = -11;
/// a slice does not start above the one before it
pub const HS_NOT_RISING: i32 = -12;
/// a slice has no owner
pub const HS_NO_OWNER: i32 = -13;
/// a slice has more than five owners
pub const HS_TOO_MANY_OWNERS: i32 = -14;
/// a slice has an owner twice
pub const HS_OWNER_TWICE: i32 = -15;
/// an owner is 0 or above 64
pub const HS_BAD_TASK: i32 = -16;
/// an assignment has more than 1,024 slices
pub const HS_TOO_MANY_SLICES: i32 = -17;
/// the place does not hold the kind of object that the function is for
pub const HS_OTHER_PLACE: i32 = -18;
/// the message is of another job
pub const HS_OTHER_JOB: i32 = -20;
pub const HS_GUARD: u32 = 1;
pub const HS_BRIDGE: u32 = 2;
pub const HS_TAKE: u32 = 1;
pub const HS_RENEW: u32 = 2;
pub const HS_COMMIT: u32 = 3;
pub const HS_PROPOSE: u32 = 4;
pub const HS_REST: u32 = 5;
/// start a life
pub const HS_START: u32 = 1;
/// ask the table for a grant, which is of a guard lease now
pub const HS_ASK_GUARD: u32 = 2;
/// ask the table for a grant, which is of a bridge lease now
pub const HS_ASK_BRIDGE: u32 = 3;
/// release the guard lease, and send the note to the table
pub const HS_GIVE_UP_GUARD: u32 = 4;
/// release the bridge lease, and send the note to the table
pub const HS_GIVE_UP_BRIDGE: u32 = 5;
/// nothing
pub const HS_TASK_REST: u32 = 6;
/// hs_table_take
pub const HS_CALL_TAKE: u32 = 1;
/// hs_table_renew
pub const HS_CALL_RENEW: u32 = 2;
/// hs_table_propose
pub const HS_CALL_PROPOSE: u32 = 3;
/// hs_table_commit
pub const HS_CALL_COMMIT: u32 = 4;
/// hs_table_grant
pub const HS_CALL_GRANT: u32 = 5;
/// hs_table_free
pub const HS_CALL_FREE: u32 = 6;
/// hs_table_restart
pub const HS_CALL_LOSE: u32 = 7;
/// hs_table_phase
pub const HS_CALL_PHASE: u32 = 8;
/// hs_table_restore
pub const HS_CALL_RESTORE: u32 = 9;
/// hs_slicelet_open, hs_slicelet_resume
pub const HS_CALL_OPEN: u32 = 10;
/// hs_slicelet_start
pub const HS_CALL_START: u32 = 11;
/// hs_slicelet_hear, hs_slicelet_receive
pub const HS_CALL_HEAR: u32 = 12;
/// hs_slicelet_release
pub const HS_CALL_RELEASE: u32 = 13;
/// hs_slicelet_serve, hs_slicelet_serve_at
pub const HS_CALL_SERVE: u32 = 14;
/// hs_slicelet_hold, hs_slicelet_hold_at
pub const HS_CALL_HOLD: u32 = 15;
/// hs_slicelet_check
pub const HS_CALL_CHECK: u32 = 16;
/// hs_clerk_learn
pub const HS_CALL_LEARN: u32 = 17;
/// hs_clerk_look, hs_clerk_look_at
pub const HS_CALL_LOOK: u32 = 18;
/// hs_clerk_forget
pub const HS_CALL_FORGET: u32 = 19;
/// hs_task_clock_sample
pub const HS_CALL_SAMPLE: u32 = 20;
/// it took the write, and gave it `revision`
pub const HS_STORE_NUMBERED: u32 = 1;
/// it took the write, and gives no revisions
pub const HS_STORE_TAKEN: u32 = 2;
/// it refused the write: it had taken one of the key with a greater token
pub const HS_STORE_REFUSED: u32 = 3;
/// no answer came
pub const HS_STORE_UNKNOWN: u32 = 4;

/// Numbers that a code comes with. A call sets just the fields that its code names, unless its comment
/// says otherwise: hs_slicelet_hear, _serve, _serve_at, _hold and _hold_at tell a lease where they are
/// done, and the last four tell `covering` of each key.
#[repr(C)]
#[derive(Clone, Copy, Debug, Default, PartialEq, Eq)]
pub struct hs_told {
    /// of a grant, of a term, or the version of a message
    pub number: u64,
    /// of a lease or an assignment
    pub generation: u64,
    /// of a lease, an hs_kind
    pub kind: u64,
    /// 1 to 64
    pub task: u64,
    /// a reading, in ticks; of a lease, the first of the task's clock at which it
    /// has ended
    pub until: u64,
    /// the greatest generation of the held leases that cover the key, live or
    /// ended; 0 if none does
    pub covering: u64,
}

/// A key handle: a key that the task held when it took the handle.
#[repr(C)]
#[derive(Clone, Copy, Debug, Default, PartialEq, Eq)]
pub struct hs_key_handle {
    pub task: u64,
    pub slice_key: u64,
    pub position: u64,
    pub life: u32,
}

/// A block of work on a key: what its entry or its end passed and wrote. The caller sets `ticket` before
/// each call, and keeps the other members from hs_slicelet_enter until hs_slicelet_leave.
#[repr(C)]
#[derive(Clone, Copy, Debug, Default, PartialEq, Eq)]
pub struct hs_block {
    /// the place of the call among all calls of the job (docs/AUDIT.md)
    pub ticket: u64,
    /// the task's reading at which the call was made
    pub at: u64,
    /// what hs_slicelet_enter wrote, and hs_slicelet_leave checks
    pub handle: hs_key_handle,
    /// what hs_slicelet_enter told
    pub told: hs_told,
}

/// A grant that a task received, for hs_slicelet_receive. The caller sets `ticket` before the call; the call
/// writes the other members.
#[repr(C)]
#[derive(Clone, Copy, Debug, Default, PartialEq, Eq)]
pub struct hs_receipt {
    /// the place of the call among all calls of the job (docs/AUDIT.md)
    pub ticket: u64,
    /// the task's reading at which the call was made
    pub at: u64,
    /// what hs_slicelet_hear told of the grant
    pub told: hs_told,
    /// 1 if the grant shows that clocks are not timely, and was not heard; else 0
    pub evidence: u32,
}

/// A lease that a task holds.
#[repr(C)]
#[derive(Clone, Copy, Debug, Default, PartialEq, Eq)]
pub struct hs_held_lease {
    /// of its grant
    pub number: u64,
    /// that it was granted for
    pub generation: u64,
    /// the first reading of the task's clock at which it has ended
    pub until: u64,
}

/// A grant, as hs_grant_read reads it from its message.
#[repr(C)]
#[derive(Clone, Copy, Debug, Default, PartialEq, Eq)]
pub struct hs_grant {
    pub number: u64,
    pub task: u64,
    pub life: u64,
    /// of its lease, an hs_kind
    pub kind: u64,
    /// of its lease
    pub generation: u64,
    /// the first reading of the task's clock at which the lease has ended
    pub ends: u64,
    /// the first reading of the table's clock at which the lease has ended
    pub table_ends: u64,
}

/// The owners of a key: the first `count` of `tasks`, in rising order. The others are 0.
#[repr(C)]
#[derive(Clone, Copy, Debug, Default, PartialEq, Eq)]
pub struct hs_owners {
    pub generation: u64,
    pub count: u64,
    pub tasks: [u64; 5],
}

/// A slice of an assignment: it goes up to the start of the next one, or to the last key, and the first
/// `count` of `tasks` own its keys.
#[repr(C)]
#[derive(Clone, Copy, Debug, Default, PartialEq, Eq)]
pub struct hs_slice {
    /// its first slice key
    pub start: u64,
    /// how many tasks own its keys, 1 to 5
    pub count: u64,
    pub tasks: [u64; 5],
}

/// The policy of a table. `guard`, `bridge`, `job` and `numbers` are 1 to 2^32.
#[repr(C)]
#[derive(Clone, Copy, Debug, Default, PartialEq, Eq)]
pub struct hs_policy {
    /// the fewest owners that a plan gives a slice, 1 or more
    pub low: u64,
    /// the most owners of a slice, `low` to 5
    pub high: u64,
    /// how many ticks clocks may be apart, below `guard` and below `bridge`
    pub skew: u64,
    /// how many ticks a guard lease lasts
    pub guard: u64,
    /// how many ticks a bridge lease lasts
    pub bridge: u64,
    /// how many ticks the job lease lasts
    pub job: u64,
    /// how many grants the table makes, for good
    pub numbers: u64,
}

/// A term of the job lease.
#[repr(C)]
#[derive(Clone, Copy, Debug, Default, PartialEq, Eq)]
pub struct hs_job_term {
    pub number: u64,
    /// 1 or more
    pub assigner: u64,
    /// the first reading at which it has ended
    pub until: u64,
}

/// The phase of a table: `proposed` is 0 if no assignment is proposed, otherwise `committed` + 1.
#[repr(C)]
#[derive(Clone, Copy, Debug, Default, PartialEq, Eq)]
pub struct hs_phase {
    /// 0 before the first commit
    pub committed: u64,
    pub proposed: u64,
}

/// What a table keeps of a grant until its lease ends or is freed.
#[repr(C)]
#[derive(Clone, Copy, Debug, Default, PartialEq, Eq)]
pub struct hs_row {
    pub number: u64,
    pub task: u64,
    pub life: u64,
    /// hs_kind
    pub kind: u64,
    pub generation: u64,
    /// the first reading at which it has ended
    pub table_ends: u64,
}

/// A record that a task did some work for a key.
#[repr(C)]
#[derive(Clone, Copy, Debug, Default, PartialEq, Eq)]
pub struct hs_load_record {
    /// of the key: hs_slice_key
    pub slice_key: u64,
    /// of the work, 1 to 2^32
    pub weight: u64,
}

/// The policy of a plan.
#[repr(C)]
#[derive(Clone, Copy, Debug, Default, PartialEq, Eq)]
pub struct hs_plan_policy {
    /// the fewest owners of a slice, 1 or more
    pub low: u64,
    /// the most owners of a slice, `low` to 5
    pub high: u64,
    /// how many keys may move, up to 2^63
    pub churn: u64,
    /// neighbours merge up to this load
    pub cold: u64,
    /// a slice above this load is halved
    pub hot: u64,
    /// slices are halved while there are fewer than this, 1 to 1,024
    pub most: u64,
}

/// A task's clock. hs_task_clock_new writes it. A caller may read and copy it, but changes no field;
/// a clock of any other numbers is safe to pass, but may be behind the table's.
#[repr(C)]
#[derive(Clone, Copy, Debug, Default, PartialEq, Eq)]
pub struct hs_task_clock {
    /// the drift: while the local clock gains `per` ticks, the table's clock gains
    pub extra: u64,
    /// at most `per` + `extra`, in proportion and rounded up,
    pub per: u64,
    /// and `grain` ticks more
    pub grain: u64,
    /// how many ticks ago the request of the newest sample may have been sent
    pub oldest: u64,
    /// 0 before the first sample, then 1
    pub sampled: u64,
    /// of the best sample: the local reading before its request was sent
    pub sent: u64,
    /// of the best sample: the table's reading in the answer
    pub reading: u64,
    /// the greatest `sent` of a sample
    pub newest: u64,
    /// the last accepted local reading
    pub last: u64,
    /// the last value, 0 before the first
    pub given: u64,
}

/// The table's clock in one process. hs_table_clock_open writes it. A caller may read and copy it,
/// but changes no field.
#[repr(C)]
#[derive(Clone, Copy, Debug, Default, PartialEq, Eq)]
pub struct hs_table_clock {
    /// what it showed when it was opened
    pub start: u64,
    /// the local reading at which it was opened
    pub opened: u64,
    /// the value that was kept; no reading is below it
    pub kept: u64,
    /// the last accepted local reading
    pub last: u64,
}

/// A call for hs_log_line: what was passed, the code that was returned, and what the call wrote. Zero
/// it, and set `ticket`, `call`, `code`, and the members whose comments name the call; the others are
/// not looked at.
#[repr(C)]
#[derive(Clone, Copy, Debug, Default, PartialEq, Eq)]
pub struct hs_logged_call {
    /// the place of the call among all calls of the job (docs/AUDIT.md)
    pub ticket: u64,
    /// which call it was, an hs_call
    pub call: u32,
    /// what it returned
    pub code: i32,
    /// each call of a slicelet, HS_CALL_GRANT, and HS_CALL_SAMPLE
    pub task: u64,
    /// each call of a clerk: its number in the job, from 1
    pub clerk: u64,
    /// HS_CALL_TAKE
    pub assigner: u64,
    /// HS_CALL_RENEW, _PROPOSE, _COMMIT: the number that was passed
    pub term: u64,
    /// each call that is passed a reading; HS_CALL_SAMPLE: `now`
    pub at: u64,
    /// HS_CALL_SERVE, _HOLD, _LOOK: hs_slice_key of the key
    pub slice_key: u64,
    /// HS_CALL_GRANT, _START, _OPEN; 0 for hs_slicelet_open
    pub life: u32,
    /// HS_CALL_RELEASE: an hs_kind
    pub kind: u32,
    /// HS_CALL_FREE, _LOSE: what *freed or *lost is then
    pub count: u64,
    /// each call that has `told`
    pub told: hs_told,
    /// HS_CALL_TAKE, _RENEW: what was written
    pub job_term: hs_job_term,
    /// HS_CALL_PHASE: what was written
    pub phase: hs_phase,
    /// HS_CALL_CHECK: what was passed; HS_CALL_HOLD: what was written
    pub handle: hs_key_handle,
    /// HS_CALL_LOOK: what was written
    pub owners: hs_owners,
    /// HS_CALL_SAMPLE: what was passed
    pub sent: u64,
    /// HS_CALL_SAMPLE: what was passed
    pub reading: u64,
}

/// A version of the library: major.minor.patch.
#[repr(C)]
#[derive(Clone, Copy, Debug, Default, PartialEq, Eq)]
pub struct hs_library_version {
    pub major: u32,
    pub minor: u32,
    pub patch: u32,
}

/// A place, by its address: null before hs_place_new and after hs_place_free.
#[repr(C)]
#[derive(Debug)]
pub struct hs_place {
    pub at: *mut c_void,
}

/// A fencing token, which a task sends to a store with each write of a key: the epoch of the job, the
/// greatest generation of the held leases that cover the key, and the life of the task, in 4, 8 and 4 bytes,
/// each with the high byte first. Tokens are compared as bytes: memcmp, or their text in hexadecimal.
#[repr(C)]
#[derive(Clone, Copy, Debug, Default, PartialEq, Eq)]
pub struct hs_token {
    pub bytes: [u8; 16],
}

/// A write to a store, for hs_log_write. Zero it, and set each member.
#[repr(C)]
#[derive(Clone, Copy, Debug, Default, PartialEq, Eq)]
pub struct hs_logged_write {
    /// that of the call with which the task got the token, or a later one
    pub ticket: u64,
    /// hs_slice_key of the key
    pub slice_key: u64,
    /// HS_STORE_NUMBERED: of two writes of a key, the one taken later has the greater one
    pub revision: u64,
    /// the token that went with the write
    pub token: hs_token,
    /// an hs_store_reply
    pub reply: u32,
}

extern "C" {
    /// Writes the version of the linked library to `out`.
    pub fn hs_library_version(out: *mut hs_library_version);
    /// The slice key of a key: the first eight bytes of its SHA-256, most significant first, without the lowest bit.
    pub fn hs_slice_key(key: *const u8, key_len: usize) -> u64;
    /// Creates an empty place at `place`, which is zeroed. If a place is there, destroys what it holds and
    /// takes no memory. HS_NO_MEMORY.
    pub fn hs_place_new(place: *mut hs_place) -> i32;
    /// Destroys what `place` holds, frees the place, and sets its address to null. A place whose address is
    /// null is unchanged, so a place may be freed twice.
    pub fn hs_place_free(place: *mut hs_place);
    /// Each destroys the object of its kind, and leaves `place` empty.
    pub fn hs_slicelet_close(place: *mut hs_place) -> i32;
    pub fn hs_clerk_close(place: *mut hs_place) -> i32;
    pub fn hs_table_close(place: *mut hs_place) -> i32;
    pub fn hs_load_book_close(place: *mut hs_place) -> i32;
    pub fn hs_assigner_close(place: *mut hs_place) -> i32;
    /// Creates a new slicelet of a job in `place`, destroying what was there. `job` is the name of the
    /// job, at most 64 bytes of UTF-8: grants of another job are HS_OTHER_JOB, and notes are written for
    /// this one. The empty name also reads messages of version 1, which name no job. `task` is 1 to 64.
    /// HS_WRONG_FORM.
    pub fn hs_slicelet_open(place: *mut hs_place, job: *const u8, job_len: usize, task: u64) -> i32;
    /// Creates the slicelet of a task's new process in `place`, destroying what was there; `job` is as in
    /// hs_slicelet_open. `life` is the greatest life that the task ever started, or a greater one: only
    /// lives above it are started, and each handle of an earlier process is HS_STRANGER. Never call it
    /// beside a process of the task that may still run: two processes could serve one key.
    /// HS_WRONG_FORM.
    pub fn hs_slicelet_resume(place: *mut hs_place, job: *const u8, job_len: usize, task: u64, life: u32) -> i32;
    /// Writes the message of the note of a job that gives back all leases of a kind of a life that ended
    /// with its process, so that the table need not wait until they end. No process of the task in this
    /// life may still run. HS_WRONG_FORM, then HS_NO_ROOM or HS_NO_MEMORY.
    pub fn hs_ended_note(job: *const u8, job_len: usize, task: u64, life: u32, kind: u32, out: *mut u8, out_len: usize, needed: *mut usize) -> i32;
    /// Reads a grant of a job, given as its message: writes its numbers to `out`, and to `boundaries` the
    /// ranges of its lease, each as its first slice key and the one after its last. So range i goes from
    /// boundaries[2 * i] up to boundaries[2 * i + 1], which it does not have; all of them rise. *needed is
    /// how many boundaries there are, two for each range. A lease that was heard covers the keys of its grant
    /// until another grant of its kind is heard, or the lease is released. HS_WRONG_FORM if `job` is not the
    /// name of a job, then message codes, then HS_NO_ROOM: `out` is written nonetheless.
    pub fn hs_grant_read(job: *const u8, job_len: usize, grant: *const u8, grant_len: usize, out: *mut hs_grant, boundaries: *mut u64, boundaries_len: usize, needed: *mut usize) -> i32;
    /// Starts a life of the task, which holds no lease yet. Takes no memory. HS_OLD_LIFE, HS_CLOCK_BACK,
    /// HS_HISTORY_FULL.
    pub fn hs_slicelet_start(place: *mut hs_place, life: u32, at: u64) -> i32;
    /// Hears a grant, given as its message: its lease replaces the held one of its kind. HS_DONE, with
    /// told.kind, told.number, told.generation and told.until of this lease; otherwise message codes,
    /// then HS_NOT_STARTED, HS_CLOCK_BACK, HS_OTHER_TASK, HS_OTHER_LIFE, HS_OLD, HS_TOO_LATE,
    /// HS_HISTORY_FULL, HS_NO_MEMORY.
    pub fn hs_slicelet_hear(place: *mut hs_place, grant: *const u8, grant_len: usize, at: u64, told: *mut hs_told) -> i32;
    /// Receives a grant, given as its message: hs_task_clock_read at the local reading `now`,
    /// hs_clock_evidence and hs_slicelet_hear at the value, and the line of the hearing, as hs_log_line writes
    /// it for HS_CALL_HEAR with receipt->ticket, in one call, which decodes the message once. Returns the code
    /// of hs_slicelet_hear, also if it is not 0, and writes receipt->at and ->told, and 0 to ->evidence. If the
    /// grant shows that clocks are not timely, nothing is heard and no line is written: returns HS_DONE, and
    /// writes receipt->at, 1 to ->evidence, and 0 to *needed. If `out_len` is 0, no line is written, and *needed
    /// is 0. Draw the ticket before the call. HS_WRONG_FORM if `per` of the clock is 0, then the codes of
    /// hs_task_clock_read, HS_WRONG_FORM if a number of the policy is outside its limits, message codes, then
    /// those of hs_slicelet_hear; but HS_NO_ROOM or HS_NO_MEMORY may come in place of the last ones if a line is
    /// wanted. With a negative code, and with those of hs_task_clock_read, no call was made and there is no
    /// line: the slicelet, the clock and the receipt are unchanged. The clock and the place are called alone.
    pub fn hs_slicelet_receive(place: *mut hs_place, clock: *mut hs_task_clock, now: u64, policy: *const hs_policy, grant: *const u8, grant_len: usize, receipt: *mut hs_receipt, out: *mut u8, out_len: usize, needed: *mut usize) -> i32;
    /// Gives up the lease of a kind, which may have ended, and writes the message of its note, for the
    /// table. HS_WRONG_FORM, HS_NOT_STARTED, HS_CLOCK_BACK, HS_NOTHING_HELD, HS_HISTORY_FULL, then
    /// HS_NO_ROOM or HS_NO_MEMORY. The lease is still held unless the call is done.
    pub fn hs_slicelet_release(place: *mut hs_place, kind: u32, at: u64, out: *mut u8, out_len: usize, needed: *mut usize) -> i32;
    /// Whether the task may serve a key now: HS_DONE, with told.kind, told.number, told.generation and
    /// told.until of the lease under which it may, or HS_DOWN, HS_CLOCK_BACK, HS_ENDED, HS_NOT_OWNED,
    /// HS_NO_LEASE. With each of these codes told.covering is the greatest generation of the held leases
    /// that cover the key, live or ended, and 0 if none does; it may be above told.generation. Takes no
    /// memory.
    pub fn hs_slicelet_serve(place: *const hs_place, key: *const u8, key_len: usize, at: u64, told: *mut hs_told) -> i32;
    /// The same by slice key, for a caller that keeps the slice keys of its keys: most of hs_slicelet_serve
    /// is the hash of the key. HS_WRONG_FORM if no key has this slice key, which is 2^63 or more.
    pub fn hs_slicelet_serve_at(place: *const hs_place, slice_key: u64, at: u64, told: *mut hs_told) -> i32;
    /// Takes a handle on a key if the task may serve it. Returns the code of hs_slicelet_serve, and tells
    /// what it tells. Takes no memory.
    pub fn hs_slicelet_hold(place: *const hs_place, key: *const u8, key_len: usize, at: u64, out: *mut hs_key_handle, told: *mut hs_told) -> i32;
    /// The same by slice key, as hs_slicelet_serve_at. HS_WRONG_FORM, also if no key has this slice key.
    pub fn hs_slicelet_hold_at(place: *const hs_place, slice_key: u64, at: u64, out: *mut hs_key_handle, told: *mut hs_told) -> i32;
    /// Writes the token that the task has for a key at the reading `at`. `most` is the most owners of a slice
    /// by the policy of the job, `epoch` a number above those of the jobs before this one that wrote to the same
    /// store. HS_MANY_OWNERS if `most` is above 1, then the codes of hs_slicelet_serve. Takes no memory.
    pub fn hs_slicelet_token(place: *const hs_place, most: u64, epoch: u32, key: *const u8, key_len: usize, at: u64, out: *mut hs_token) -> i32;
    /// The same by slice key, as hs_slicelet_serve_at. HS_WRONG_FORM, before the others, if no key has this slice key.
    pub fn hs_slicelet_token_at(place: *const hs_place, most: u64, epoch: u32, slice_key: u64, at: u64, out: *mut hs_token) -> i32;
    /// The store's side: offers a write with a token, where `greatest` is the greatest token with which a write
    /// of the key was accepted, all zero before the first. HS_DONE, and *greatest is the token, or HS_FENCED.
    /// Keep it with what was written, in one transaction. A new owner offers its token before it reads.
    pub fn hs_fence_accept(greatest: *mut hs_token, token: *const hs_token) -> i32;
    /// Whether the task has held the key of a handle without a break since it took the handle, and may
    /// serve it now. HS_WRONG_FORM, HS_STRANGER, HS_BROKEN. Takes no memory.
    pub fn hs_slicelet_check(place: *const hs_place, handle: *const hs_key_handle, at: u64) -> i32;
    /// Enters a block of work on a key: hs_task_clock_read at the local reading `now`, hs_slicelet_hold at
    /// the value, and the line of that call, as hs_log_line writes it for HS_CALL_HOLD with block->ticket,
    /// in one call. Returns the code of hs_slicelet_hold, also if it is not 0, and writes block->at, ->handle
    /// and ->told. If `out_len` is 0, no line is written, *needed is 0, and no memory is taken. Draw the
    /// ticket before the call, and write the line before the reply of the block leaves the process.
    /// HS_WRONG_FORM if `per` of the clock is 0, then the codes of hs_task_clock_read, with which no call
    /// was made and there is no line, then those of hs_slicelet_hold; but HS_NO_ROOM or HS_NO_MEMORY comes
    /// in place of the last ones, and the clock and the block are then unchanged. The clock is called
    /// alone, as in every call of a clock; the place is only read.
    pub fn hs_slicelet_enter(place: *const hs_place, clock: *mut hs_task_clock, now: u64, key: *const u8, key_len: usize, block: *mut hs_block, out: *mut u8, out_len: usize, needed: *mut usize) -> i32;
    /// The same by slice key, as hs_slicelet_serve_at. HS_WRONG_FORM, also if no key has this slice key.
    pub fn hs_slicelet_enter_at(place: *const hs_place, clock: *mut hs_task_clock, now: u64, slice_key: u64, block: *mut hs_block, out: *mut u8, out_len: usize, needed: *mut usize) -> i32;
    /// Leaves a block of work: hs_task_clock_read at the local reading `now`, hs_slicelet_check of
    /// block->handle at the value, and the line of that call for HS_CALL_CHECK with block->ticket, in one
    /// call. Returns the code of hs_slicelet_check, also if it is not 0, and writes block->at. Otherwise as
    /// hs_slicelet_enter.
    pub fn hs_slicelet_leave(place: *const hs_place, clock: *mut hs_task_clock, now: u64, block: *mut hs_block, out: *mut u8, out_len: usize, needed: *mut usize) -> i32;
    /// Writes the lease of a kind that the task holds, which may have ended. HS_WRONG_FORM,
    /// HS_NOTHING_HELD. Takes no memory.
    pub fn hs_slicelet_held(place: *const hs_place, kind: u32, out: *mut hs_held_lease) -> i32;
    /// Writes to `boundaries` the keys that the task may serve at the reading `at`, which are those that
    /// hs_slicelet_serve_at allows: ranges, each as its first slice key and the one after its last, as
    /// hs_grant_read writes them. *needed is how many boundaries there are, two for each range, and 0 if
    /// there is no such key. What the task gained by a call, and what it lost, is how the keys before it and
    /// after it differ; a lease that ends takes keys without a call. HS_NO_ROOM or HS_NO_MEMORY.
    pub fn hs_slicelet_permitted(place: *const hs_place, at: u64, boundaries: *mut u64, boundaries_len: usize, needed: *mut usize) -> i32;
    /// Writes what the task does next about its leases, an hs_task_action, in a phase of the table:
    /// starts a life; asks for a lease of the phase, if it holds none that is live; gives up the lease of
    /// the other kind, which delays the next commit; or nothing. It does not ask before a lease ends: ask
    /// before that, by `until` of hs_slicelet_held. HS_WRONG_FORM if `proposed` is neither 0 nor
    /// `committed` + 1. Takes no memory.
    pub fn hs_slicelet_next(place: *const hs_place, phase: *const hs_phase, at: u64, action: *mut u32) -> i32;
    /// Writes how many more calls of hs_slicelet_start, _hear and _release are accepted before
    /// HS_HISTORY_FULL.
    pub fn hs_slicelet_calls_left(place: *const hs_place, left: *mut u64) -> i32;
    /// Creates a new clerk of a job in `place`, destroying what was there; `job` is as in
    /// hs_slicelet_open. It keeps no assignment. HS_WRONG_FORM.
    pub fn hs_clerk_open(place: *mut hs_place, job: *const u8, job_len: usize) -> i32;
    /// Keeps an assignment, given as its message. Message codes, then HS_OLD_GENERATION,
    /// HS_NO_MEMORY.
    pub fn hs_clerk_learn(place: *mut hs_place, assignment: *const u8, assignment_len: usize, told: *mut hs_told) -> i32;
    /// Writes the owners of a key in the kept assignment. HS_UNKNOWN. Takes no memory.
    pub fn hs_clerk_look(place: *const hs_place, key: *const u8, key_len: usize, out: *mut hs_owners) -> i32;
    /// The same by slice key. HS_WRONG_FORM if no key has this slice key, HS_UNKNOWN.
    pub fn hs_clerk_look_at(place: *const hs_place, slice_key: u64, out: *mut hs_owners) -> i32;
    /// Forgets the kept assignment.
    pub fn hs_clerk_forget(place: *mut hs_place) -> i32;
    /// Creates a new table of a job, with a policy, in `place`, destroying what was there; `job` is as in
    /// hs_slicelet_open. HS_WRONG_FORM.
    pub fn hs_table_open(place: *mut hs_place, job: *const u8, job_len: usize, policy: *const hs_policy) -> i32;
    /// Writes the message of the kept values of the table: all of it but its rows. Save it before the
    /// reply to a call that changed the table leaves the process. HS_NO_ROOM or HS_NO_MEMORY.
    pub fn hs_table_kept(place: *const hs_place, out: *mut u8, out_len: usize, needed: *mut usize) -> i32;
    /// Writes the message of the values to save in place of those that were saved last, or nothing, if
    /// nothing has to be saved: HS_DONE with a *needed of 0. `saved` is the message that was saved last, of
    /// length 0 if nothing was saved. Nothing has to be saved if its values cover the table: they are those
    /// that the table keeps, or ahead of them. What is written is what the table keeps, moved ahead by
    /// `grants` grants, or as many as the policy still allows, and `ticks` ticks. So the next grants, and
    /// notes that are freed, up to that number and that reading need no save. A table that is restored from
    /// values saved ahead gives none of those numbers, and accepts no reading before the last one saved.
    /// With 0 grants just what the table keeps is written. Message codes, then the codes of
    /// hs_table_restore, for saved values that restore no table with this policy, then HS_NO_ROOM or
    /// HS_NO_MEMORY.
    pub fn hs_table_save(place: *const hs_place, saved: *const u8, saved_len: usize, grants: u64, ticks: u64, out: *mut u8, out_len: usize, needed: *mut usize) -> i32;
    /// Restores the table of a job from its kept values, given as their message, in `place`, destroying
    /// what was there. It is the table that kept them, as hs_table_restart leaves it. HS_WRONG_FORM,
    /// message codes, HS_OTHER_POLICY, HS_READING_RANGE, HS_NO_TERM, HS_TERM_RANGE, HS_KEPT_GENERATION,
    /// HS_TOO_MANY_OWNERS_FOR_JOB, HS_NO_ASSIGNMENT, HS_TOO_MANY_GRANTS, HS_DEADLINE_RANGE.
    pub fn hs_table_restore(place: *mut hs_place, job: *const u8, job_len: usize, policy: *const hs_policy, kept: *const u8, kept_len: usize, told: *mut hs_told) -> i32;
    /// Gives the job lease to an assigner, and writes its term. HS_WRONG_FORM if `assigner` is 0,
    /// HS_READING_RANGE, HS_CLOCK_BACK, HS_JOB_HELD.
    pub fn hs_table_take(place: *mut hs_place, assigner: u64, at: u64, out: *mut hs_job_term, told: *mut hs_told) -> i32;
    /// Renews the term with this number, and writes it. HS_READING_RANGE, HS_CLOCK_BACK,
    /// HS_NOT_HOLDER.
    pub fn hs_table_renew(place: *mut hs_place, number: u64, at: u64, out: *mut hs_job_term, told: *mut hs_told) -> i32;
    /// Proposes an assignment, given as its message, under the term with this number. Message codes,
    /// then HS_READING_RANGE, HS_CLOCK_BACK, HS_NOT_HOLDER, HS_STALE_BASE, HS_PENDING,
    /// HS_TOO_MANY_OWNERS_FOR_JOB, HS_NO_MEMORY.
    pub fn hs_table_propose(place: *mut hs_place, number: u64, assignment: *const u8, assignment_len: usize, at: u64, told: *mut hs_told) -> i32;
    /// Commits the proposed assignment under the term with this number; told.generation is its
    /// generation. HS_READING_RANGE, HS_CLOCK_BACK, HS_NOT_HOLDER, HS_NOTHING_PENDING, HS_GRACE,
    /// HS_HELD.
    pub fn hs_table_commit(place: *mut hs_place, number: u64, at: u64, told: *mut hs_told) -> i32;
    /// Grants a task a lease for one of its lives, and writes the message of the grant. HS_WRONG_FORM if
    /// `task` is not 1 to 64 or `life` is 0, HS_READING_RANGE, HS_CLOCK_BACK, HS_NO_ASSIGNMENT, HS_NUMBERS_SPENT, then HS_NO_ROOM or
    /// HS_NO_MEMORY. No grant is made unless the call is done.
    pub fn hs_table_grant(place: *mut hs_place, task: u64, life: u32, at: u64, out: *mut u8, out_len: usize, needed: *mut usize) -> i32;
    /// Frees the rows that a note, given as its message, closes; *freed is how many. Message codes, then
    /// HS_READING_RANGE, HS_CLOCK_BACK, HS_NO_ROW.
    pub fn hs_table_free(place: *mut hs_place, note: *const u8, note_len: usize, at: u64, freed: *mut u64, told: *mut hs_told) -> i32;
    /// Restarts the table, which loses its rows and keeps all else; *lost is how many rows
    /// hs_table_rows would have written.
    pub fn hs_table_restart(place: *mut hs_place, lost: *mut u64) -> i32;
    /// Writes the phase of the table.
    pub fn hs_table_phase(place: *const hs_place, out: *mut hs_phase) -> i32;
    /// Writes the rows that have not ended at the last accepted reading, in grant order; *needed is how
    /// many. HS_NO_ROOM or HS_NO_MEMORY.
    pub fn hs_table_rows(place: *const hs_place, out: *mut hs_row, out_len: usize, needed: *mut usize) -> i32;
    /// Writes the message of the committed assignment. HS_NO_ASSIGNMENT, then HS_NO_ROOM or
    /// HS_NO_MEMORY.
    pub fn hs_table_committed(place: *const hs_place, out: *mut u8, out_len: usize, needed: *mut usize) -> i32;
    /// Writes the message, of a job, of the assignment of a generation that has these slices, for
    /// hs_table_propose. The first slice starts at 0, and each starts above the one before it; owners may
    /// stand in any order. HS_WRONG_FORM if `job` is not the name of a job, HS_NO_SLICES,
    /// HS_FIRST_NOT_ZERO, HS_NOT_RISING, HS_PAST_END, HS_NO_OWNER, HS_TOO_MANY_OWNERS, HS_OWNER_TWICE,
    /// HS_BAD_TASK, HS_TOO_MANY_SLICES, then HS_NO_ROOM or HS_NO_MEMORY. Each code is looked for in all
    /// slices before the next one.
    pub fn hs_assignment_new(job: *const u8, job_len: usize, generation: u64, slices: *const hs_slice, slices_len: usize, out: *mut u8, out_len: usize, needed: *mut usize) -> i32;
    /// Reads an assignment of a job, given as its message: writes its generation, and its slices in the
    /// order of their starts, each with its owners in rising order, then zeros. *needed is how many slices
    /// there are, at most 1,024. HS_WRONG_FORM if `job` is not the name of a job, then message codes, then
    /// HS_NO_ROOM, at which `generation` is written nonetheless, or HS_NO_MEMORY.
    pub fn hs_assignment_read(job: *const u8, job_len: usize, assignment: *const u8, assignment_len: usize, generation: *mut u64, out: *mut hs_slice, out_len: usize, needed: *mut usize) -> i32;
    /// Reads from an assignment of a job, given as its message, the slice that has a slice key. The whole
    /// message is read: a clerk that has learnt it looks up keys faster. HS_WRONG_FORM if `job` is not the
    /// name of a job or no key has this slice key, then message codes.
    pub fn hs_assignment_slice(job: *const u8, job_len: usize, assignment: *const u8, assignment_len: usize, slice_key: u64, out: *mut hs_slice) -> i32;
    /// Creates a new load book of a job in `place`, destroying what was there; `job` is as in
    /// hs_slicelet_open. All totals are 0. HS_WRONG_FORM.
    pub fn hs_load_book_open(place: *mut hs_place, job: *const u8, job_len: usize) -> i32;
    /// Adds the weights of records to the total of the task that did the work, and writes the load that
    /// they are of each slice of an assignment, given as its message: the sum of the weights of the records
    /// whose key is in the slice. Loads are in the order of the slices, and add up to the weights; *needed
    /// is how many slices there are. For hs_plan, add the loads of several tasks, gathered over the same
    /// assignment, slice by slice. Gather each record once. The totals of a book never add up to more than
    /// 2^40. Message codes, HS_WRONG_FORM if `task` is not 1 to 64 or no key has a slice key,
    /// HS_WEIGHT_RANGE, HS_TOTAL_RANGE, HS_NO_ROOM. Each code is looked for in all records before the next
    /// one, and HS_NO_MEMORY comes last. Nothing is counted unless the call is done.
    pub fn hs_load_book_gather(place: *mut hs_place, assignment: *const u8, assignment_len: usize, task: u64, records: *const hs_load_record, records_len: usize, loads: *mut u64, loads_len: usize, needed: *mut usize) -> i32;
    /// Writes the sum of the weights of all records of a task that were gathered. HS_WRONG_FORM if `task` is
    /// not 1 to 64.
    pub fn hs_load_book_total(place: *const hs_place, task: u64, total: *mut u64) -> i32;
    /// Creates a new assigner in `place`, destroying what was there. It keeps no term. A job lease lasts
    /// `job` ticks. HS_WRONG_FORM if `id` is 0.
    pub fn hs_assigner_open(place: *mut hs_place, id: u64, job: u64) -> i32;
    /// Keeps a term that a table gave. HS_NOT_ADOPTED. A term is newer than another if its number is
    /// greater, or the same with a later `until`.
    pub fn hs_assigner_adopt(place: *mut hs_place, term: *const hs_job_term) -> i32;
    /// Drops the kept term.
    pub fn hs_assigner_drop_term(place: *mut hs_place) -> i32;
    /// Writes what to do next, an hs_action, and the number of the kept term, 0 for none. `wanted` is
    /// not 0 if another assignment is wanted. HS_WRONG_FORM if `proposed` is neither 0 nor
    /// `committed` + 1.
    pub fn hs_assigner_next(place: *const hs_place, at: u64, phase: *const hs_phase, wanted: u32, action: *mut u32, number: *mut u64) -> i32;
    /// Plans the assignment of the next generation for `tasks`, which rise strictly, from a load of each
    /// slice of `assignment`, and writes its message. Both are messages of the job. HS_WRONG_FORM if `job`
    /// is not the name of a job, message codes, then HS_WRONG_FORM (also if there is no next generation),
    /// HS_NO_TASKS, HS_LOADS_LENGTH, HS_LOAD_RANGE, then HS_NO_ROOM or HS_NO_MEMORY.
    pub fn hs_plan(job: *const u8, job_len: usize, assignment: *const u8, assignment_len: usize, loads: *const u64, loads_len: usize, tasks: *const u64, tasks_len: usize, policy: *const hs_plan_policy, out: *mut u8, out_len: usize, needed: *mut usize) -> i32;
    /// Writes a clock of a task with no sample. `oldest` is how many ticks the task goes on without an
    /// answer of the table: HS_TOO_OLD then stops it, before its values are so far ahead of the table
    /// that its leases are worth nothing; UINT64_MAX sets no limit. HS_WRONG_FORM if `per` is 0.
    pub fn hs_task_clock_new(clock: *mut hs_task_clock, extra: u64, per: u64, grain: u64, oldest: u64) -> i32;
    /// Takes an answer of the table: the local reading before its request was sent, the table's reading
    /// that it carries, and the local reading now. Answers may come late, twice, and in any order; the
    /// clock keeps the best. HS_WRONG_FORM if `per` is 0, HS_CLOCK_BACK, HS_SENT_AHEAD.
    pub fn hs_task_clock_sample(clock: *mut hs_task_clock, sent: u64, reading: u64, now: u64) -> i32;
    /// Writes the value of the clock at the local reading `now`, which is the task's reading. Values do
    /// not fall. Read the local clock and then this one for each decision, and decide at once.
    /// HS_WRONG_FORM if `per` is 0, HS_CLOCK_BACK, HS_NO_SAMPLE, HS_TOO_OLD, HS_TOO_LARGE.
    pub fn hs_task_clock_read(clock: *mut hs_task_clock, now: u64, out: *mut u64) -> i32;
    /// Writes the clock of a new process of the table, on any host: `kept` is the last value that was
    /// kept, 0 at first, and `now` the local reading. The time in which no process ran does not count.
    /// The clock starts `ahead` ticks below `kept`, or at 0 if `ahead` is more. If values are kept up to
    /// S ticks above the reading, `ahead` is at least S + `grain` + 1, so that the clock is not ahead of
    /// what tasks may have read.
    pub fn hs_table_clock_open(clock: *mut hs_table_clock, kept: u64, ahead: u64, now: u64) -> i32;
    /// Writes the table's reading at the local reading `now`. Readings do not fall. Before a reading is
    /// used, keep a value that is not below it, where the next process finds it. HS_CLOCK_BACK,
    /// HS_TOO_LARGE, HS_NOT_YET: for at most `ahead` ticks after hs_table_clock_open.
    pub fn hs_table_clock_read(clock: *mut hs_table_clock, now: u64, out: *mut u64) -> i32;
    /// Writes 1 if a grant of a job, given as its message, shows at the reading `at` of its task that
    /// clocks are not timely: it was made at a reading of the table that is more than the skew above `at`.
    /// Otherwise writes 0, which shows nothing. `policy` is that of the table. Needs no place, and the
    /// grant need not be heard. HS_WRONG_FORM if `job` is not the name of a job or a number of the policy
    /// is outside its limits, then message codes.
    pub fn hs_clock_evidence(job: *const u8, job_len: usize, grant: *const u8, grant_len: usize, at: u64, policy: *const hs_policy, out: *mut u32) -> i32;
    /// Writes the line of a call for `hourstable audit` (docs/AUDIT.md), ended by a line feed. It has the
    /// full words of the reply, and names keys by their slice keys, and notes and handles by what they
    /// contain. `message` is the message that HS_CALL_PROPOSE, _FREE, _RESTORE, _HEAR or _LEARN passed, or
    /// that HS_CALL_GRANT or _RELEASE wrote, if they are done; for other calls it is not looked at, and may
    /// have length 0. Write the line before the reply leaves the process. A call of hs_table_rows has no
    /// line here, and nothing rests on one. Nor has a call whose code is negative: it was no call of the
    /// job. HS_WRONG_FORM if `job` is not the name of a job or `call` is no hs_call, then message codes,
    /// then HS_WRONG_FORM if the call returns no such code, or a number is outside its limits, then
    /// HS_NO_ROOM or HS_NO_MEMORY. Calls that may change a table share their codes here, and so do those
    /// that may change a slicelet: an audit finds one that the call does not return.
    pub fn hs_log_line(job: *const u8, job_len: usize, call: *const hs_logged_call, message: *const u8, message_len: usize, out: *mut u8, out_len: usize, needed: *mut usize) -> i32;
    /// Writes the line of a write to a store that compares fencing tokens, ended by a line feed: an audit
    /// judges it by the calls with which tasks got their tokens. HS_WRONG_FORM if the slice key or the reply is
    /// outside its limits, then HS_NO_ROOM or HS_NO_MEMORY.
    pub fn hs_log_write(write: *const hs_logged_write, out: *mut u8, out_len: usize, needed: *mut usize) -> i32;
}
