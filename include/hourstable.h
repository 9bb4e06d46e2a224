/* hourstable.h: Hourstable for C, and for every language that calls C.
 *
 * A place holds one of these objects:
 *   - a slicelet, which knows the leases of a server task and decides whether it may serve a key;
 *   - a clerk, which knows the newest assignment that a client was given;
 *   - a table, which gives out the leases of a job and commits its assignments;
 *   - a load book, which counts the work that the tasks of a job did;
 *   - an assigner, which keeps a term of the job lease.
 * Readings are those of the caller's own clock, in ticks. Grants, notes, assignments and kept values
 * are messages: bytes of JSON, as they go over the network (docs/FORMATS.md). A message names its
 * job, and a slicelet, a clerk or a table writes and reads only those of the job that it was opened
 * for. docs/CONCEPTS.md explains the terms, and docs/BINDINGS.md says how to build, link and call. A
 * clock has no place: it is a struct, which the caller keeps.
 *
 * Every function but hs_library_version, hs_slice_key and hs_place_free returns a code of hs_code:
 * 0 if the call is done, positive if it is refused, negative if an argument cannot be used or
 * memory runs out. If several codes apply, the first listed is returned; of codes joined by `or`,
 * either may be returned. A function that is called for another object than the place holds
 * returns HS_OTHER_PLACE, before any other code. `Message codes` are those of bytes that are not a
 * message of the type, in the order of docs/FORMATS.md; a function that lists them may also return
 * HS_NO_MEMORY while it reads the message.
 *
 * A call that is not done changes nothing and writes nothing but `needed` and the fields of
 * hs_told that its code sets, unless its comment says otherwise.
 *
 * A place is a struct that the caller keeps, zeroed at first: struct hs_place place = {0}. It holds
 * nothing, and every function that is called for an object returns HS_OTHER_PLACE, hs_KIND_open too,
 * until hs_place_new creates an empty place there. After hs_place_free it is zeroed again.
 *
 * A text or a list of rows is written to `out` whole or not at all; `needed` is its length in bytes
 * or in rows. If it is longer than `out_len`, the function returns HS_NO_ROOM and nothing is lost:
 * call again with a longer buffer.
 *
 * A caller must keep the following. Nothing checks it, and a call that breaks it is undefined:
 *   - A place is zeroed before its first call, and the caller changes no field of it. Of two copies
 *     of a place only one is used.
 *   - A pointer to bytes, numbers or rows is not null, even at length 0, and its length is true.
 *     Every other pointer is to a value of its type. Each is aligned for its type, and no two
 *     pointers of a call overlap. What a call only writes need not hold a value.
 *   - A function that takes a `const struct hs_place *` only reads. Any number of such calls may be
 *     made on one place at the same time, on any threads. Every other call on a place, and every
 *     call on a clock, is made alone: no other call on it runs at that time, and the threads are
 *     synchronised, as by a lock. A read-write lock of your own does it, which is taken for reading
 *     by the first kind of calls. Two places or clocks share nothing that needs a lock.
 *   - malloc, realloc and free belong to one allocator, whose blocks are aligned to each power of
 *     two up to 16 that divides their size. No call comes from a signal handler, nor from the
 *     forked child of a program with threads.
 *
 * The laws about who may serve a key rest on the following, which nothing checks either:
 *   - A life is above every life that the task ever started, in earlier processes too. Store it.
 *   - A grant that is heard was made by the table of this job, and a note that is freed by a
 *     slicelet of this job. They name their job, but no sender: a forged grant is heard. Jobs that
 *     share a transport have different names.
 *   - A job has one table at a time. It is opened once. From then on it is restored from the values
 *     that it kept: save what hs_table_kept or hs_table_save writes before the reply to a call that
 *     changed it leaves the process.
 *   - Threads that share a slicelet hold its lock, for reading, from hs_slicelet_serve until the
 *     answer is given or the write is done.
 *   - Clocks are timely: no reading of the table's clock is more than the skew ahead of a later
 *     reading of a task's clock. All readings of a job are in one unit. Clocks that are within the
 *     skew of each other are timely. So are values of hs_task_clock_read, even with a skew of 0, if
 *     the rates of the clocks differ by at most the drift: see `Clocks` below.
 */
#ifndef HOURSTABLE_H
#define HOURSTABLE_H

#include <stddef.h>
#include <stdint.h>

/* The version of this header. hs_library_version writes the version of the linked library. */
#define HS_LIBRARY_MAJOR 1
#define HS_LIBRARY_MINOR 0
#define HS_LIBRARY_PATCH 0
#define HS_LIBRARY_VERSION "1.0.0"

#ifdef __cplusplus
extern "C" {
#endif

/* What a call returns. A code never changes its meaning; a later version may add codes. */
enum hs_code {
    HS_DONE = 0,

    /* Why a key is not served. */
    HS_DOWN = 1,       /* the task was not started */
    HS_CLOCK_BACK = 2, /* the reading is below the last accepted one */
    HS_ENDED = 3,      /* a held lease covers the key, but has ended */
    HS_NOT_OWNED = 4,  /* no held lease covers the key, but one is live; told.generation is the
                          greatest of a live lease */
    HS_NO_LEASE = 5,   /* no held lease covers the key, and none is live */

    /* Why a slicelet refuses a call; also HS_CLOCK_BACK. */
    HS_NOT_STARTED = 6,   /* the task was not started */
    HS_OLD_LIFE = 7,      /* the life is not above the current one */
    HS_OTHER_TASK = 8,    /* the grant is for another task */
    HS_OTHER_LIFE = 9,    /* the grant is for another life */
    HS_OLD = 10,          /* the grant's number is not above told.number, the greatest that was
                             heard of its kind in this life */
    HS_TOO_LATE = 11,     /* the lease of the grant has ended */
    HS_NOTHING_HELD = 12, /* no lease of the kind is held */
    HS_HISTORY_FULL = 13, /* the slicelet has accepted 65,536 calls and accepts no more, not even
                             release: resume the task in a new one, and start a higher life */

    /* What a check of a key handle returns. */
    HS_BROKEN = 14,   /* the handle is not continuous */
    HS_STRANGER = 15, /* the slicelet cannot have given the handle */

    /* Why a table refuses a call; also HS_CLOCK_BACK. */
    HS_READING_RANGE = 16,           /* the reading is 2^62 or more */
    HS_JOB_HELD = 17,                /* the last term of the job lease ends at told.until */
    HS_NOT_HOLDER = 18,              /* the term is not told.number, the last one given (0 for
                                        none), or has ended */
    HS_STALE_BASE = 19,              /* the assignment is not of the generation after
                                        told.generation, the committed one */
    HS_PENDING = 20,                 /* an assignment is already proposed */
    HS_NOTHING_PENDING = 21,         /* no assignment is proposed */
    HS_TOO_MANY_OWNERS_FOR_JOB = 22, /* a slice has more owners than the policy allows */
    HS_GRACE = 23,                   /* the table restarted, and a lease whose row it lost may not
                                        have ended; at told.until all of them have */
    HS_HELD = 24,                    /* grant told.number, of told.kind, to told.task has not ended
                                        and was not freed */
    HS_NO_ROW = 25,                  /* the note closes no row that has not ended */
    HS_NO_ASSIGNMENT = 26,           /* no assignment is committed or, for a grant, proposed */
    HS_NUMBERS_SPENT = 27,           /* the table has made as many grants as the policy allows */

    /* Why a clerk, an assigner or a plan refuses a call. */
    HS_OLD_GENERATION = 28, /* the assignment is not newer than told.generation, the kept one */
    HS_UNKNOWN = 29,        /* the clerk keeps no assignment */
    HS_NOT_ADOPTED = 30,    /* the term is another assigner's, or not newer than the kept one */
    HS_NO_TASKS = 31,       /* there is no task */
    HS_LOADS_LENGTH = 32,   /* there are not as many loads as slices */
    HS_LOAD_RANGE = 33,     /* a load is above 2^40 */

    /* Why a clock refuses a call; also HS_CLOCK_BACK. */
    HS_SENT_AHEAD = 34, /* `sent` of the sample is above `now` */
    HS_NO_SAMPLE = 35,  /* the clock has taken no sample */
    HS_TOO_OLD = 36,    /* the request of the newest sample was sent more than `oldest` ticks ago */
    HS_TOO_LARGE = 37,  /* the value would be 2^64 or more */
    HS_NOT_YET = 38,    /* the table's clock is below the value that was kept, clock->kept */

    /* Why kept values restore no table; also HS_READING_RANGE of the last reading,
     * HS_TOO_MANY_OWNERS_FOR_JOB, and HS_NO_ASSIGNMENT, if grants were made without one. */
    HS_OTHER_POLICY = 39,    /* they are of a table with another policy */
    HS_NO_TERM = 40,         /* there is an assignment, but no term of the job lease was given */
    HS_TERM_RANGE = 41,      /* the term has number 0 or a number above its end, or ends more than a
                                job lease lasts after the last reading */
    HS_KEPT_GENERATION = 42, /* the committed generation is 0, or the proposed one is not the next */
    HS_TOO_MANY_GRANTS = 43, /* the table made more grants than the policy allows */
    HS_DEADLINE_RANGE = 44,  /* the greatest deadline is 0 although grants were made, is above 0
                                although none was, or is further after the last reading than a lease
                                lasts */

    /* Why a load book counts no records. */
    HS_WEIGHT_RANGE = 45, /* the weight of a record is 0 or above 2^32 */
    HS_TOTAL_RANGE = 46,  /* all weights that were gathered would add up to more than 2^40 */

    /* Why there is no fencing token, or a store refuses one. */
    HS_MANY_OWNERS = 47, /* a slice of the job may have more than one owner */
    HS_FENCED = 48,      /* the token is below the greatest one that was accepted for the key */

    HS_NO_MEMORY = -1, /* out of memory */
    HS_NO_ROOM = -2,   /* the buffer is shorter than `needed`: call again with a longer one */

    /* Why bytes are not a message of the type, or a number that was passed is refused. */
    HS_NOT_JSON = -3,     /* the bytes are not a JSON text */
    HS_VERSION = -4,      /* the message has another version: told.number, if the function has
                             `told` */
    HS_OTHER_TYPE = -5,   /* the message is of another type */
    HS_WRONG_FORM = -6,   /* the message has other members than its type, a member twice, or more
                             than 1,048,576 bytes, or a member or a number that was passed is
                             outside its limits */
    HS_PAST_END = -7,     /* a range ends, or a slice starts, past the last key */
    HS_UNSORTED = -8,     /* a range starts before the end of the one before it */
    HS_EMPTY = -9,        /* a range does not end above its start */
    HS_NO_SLICES = -10,   /* an assignment has no slice */
    HS_FIRST_NOT_ZERO = -11,  /* the first slice does not start at 0 */
    HS_NOT_RISING = -12,      /* a slice does not start above the one before it */
    HS_NO_OWNER = -13,        /* a slice has no owner */
    HS_TOO_MANY_OWNERS = -14, /* a slice has more than five owners */
    HS_OWNER_TWICE = -15,     /* a slice has an owner twice */
    HS_BAD_TASK = -16,        /* an owner is 0 or above 64 */
    HS_TOO_MANY_SLICES = -17, /* an assignment has more than 1,024 slices */

    HS_OTHER_PLACE = -18, /* the place does not hold the kind of object that the function is for */
    /* No code is -19. */
    HS_OTHER_JOB = -20 /* the message is of another job */
};

/* Returns the name of a code, such as "HS_DONE", or "unknown" if this header has no such code. */
static inline const char *hs_code_name(int32_t code) {
    switch ((enum hs_code)code) {
    case HS_DONE:
        return "HS_DONE";
    case HS_DOWN:
        return "HS_DOWN";
    case HS_CLOCK_BACK:
        return "HS_CLOCK_BACK";
    case HS_ENDED:
        return "HS_ENDED";
    case HS_NOT_OWNED:
        return "HS_NOT_OWNED";
    case HS_NO_LEASE:
        return "HS_NO_LEASE";
    case HS_NOT_STARTED:
        return "HS_NOT_STARTED";
    case HS_OLD_LIFE:
        return "HS_OLD_LIFE";
    case HS_OTHER_TASK:
        return "HS_OTHER_TASK";
    case HS_OTHER_LIFE:
        return "HS_OTHER_LIFE";
    case HS_OLD:
        return "HS_OLD";
    case HS_TOO_LATE:
        return "HS_TOO_LATE";
    case HS_NOTHING_HELD:
        return "HS_NOTHING_HELD";
    case HS_HISTORY_FULL:
        return "HS_HISTORY_FULL";
    case HS_BROKEN:
        return "HS_BROKEN";
    case HS_STRANGER:
        return "HS_STRANGER";
    case HS_READING_RANGE:
        return "HS_READING_RANGE";
    case HS_JOB_HELD:
        return "HS_JOB_HELD";
    case HS_NOT_HOLDER:
        return "HS_NOT_HOLDER";
    case HS_STALE_BASE:
        return "HS_STALE_BASE";
    case HS_PENDING:
        return "HS_PENDING";
    case HS_NOTHING_PENDING:
        return "HS_NOTHING_PENDING";
    case HS_TOO_MANY_OWNERS_FOR_JOB:
        return "HS_TOO_MANY_OWNERS_FOR_JOB";
    case HS_GRACE:
        return "HS_GRACE";
    case HS_HELD:
        return "HS_HELD";
    case HS_NO_ROW:
        return "HS_NO_ROW";
    case HS_NO_ASSIGNMENT:
        return "HS_NO_ASSIGNMENT";
    case HS_NUMBERS_SPENT:
        return "HS_NUMBERS_SPENT";
    case HS_OLD_GENERATION:
        return "HS_OLD_GENERATION";
    case HS_UNKNOWN:
        return "HS_UNKNOWN";
    case HS_NOT_ADOPTED:
        return "HS_NOT_ADOPTED";
    case HS_NO_TASKS:
        return "HS_NO_TASKS";
    case HS_LOADS_LENGTH:
        return "HS_LOADS_LENGTH";
    case HS_LOAD_RANGE:
        return "HS_LOAD_RANGE";
    case HS_SENT_AHEAD:
        return "HS_SENT_AHEAD";
    case HS_NO_SAMPLE:
        return "HS_NO_SAMPLE";
    case HS_TOO_OLD:
        return "HS_TOO_OLD";
    case HS_TOO_LARGE:
        return "HS_TOO_LARGE";
    case HS_NOT_YET:
        return "HS_NOT_YET";
    case HS_OTHER_POLICY:
        return "HS_OTHER_POLICY";
    case HS_NO_TERM:
        return "HS_NO_TERM";
    case HS_TERM_RANGE:
        return "HS_TERM_RANGE";
    case HS_KEPT_GENERATION:
        return "HS_KEPT_GENERATION";
    case HS_TOO_MANY_GRANTS:
        return "HS_TOO_MANY_GRANTS";
    case HS_DEADLINE_RANGE:
        return "HS_DEADLINE_RANGE";
    case HS_WEIGHT_RANGE:
        return "HS_WEIGHT_RANGE";
    case HS_TOTAL_RANGE:
        return "HS_TOTAL_RANGE";
    case HS_MANY_OWNERS:
        return "HS_MANY_OWNERS";
    case HS_FENCED:
        return "HS_FENCED";
    case HS_NO_MEMORY:
        return "HS_NO_MEMORY";
    case HS_NO_ROOM:
        return "HS_NO_ROOM";
    case HS_NOT_JSON:
        return "HS_NOT_JSON";
    case HS_VERSION:
        return "HS_VERSION";
    case HS_OTHER_TYPE:
        return "HS_OTHER_TYPE";
    case HS_WRONG_FORM:
        return "HS_WRONG_FORM";
    case HS_PAST_END:
        return "HS_PAST_END";
    case HS_UNSORTED:
        return "HS_UNSORTED";
    case HS_EMPTY:
        return "HS_EMPTY";
    case HS_NO_SLICES:
        return "HS_NO_SLICES";
    case HS_FIRST_NOT_ZERO:
        return "HS_FIRST_NOT_ZERO";
    case HS_NOT_RISING:
        return "HS_NOT_RISING";
    case HS_NO_OWNER:
        return "HS_NO_OWNER";
    case HS_TOO_MANY_OWNERS:
        return "HS_TOO_MANY_OWNERS";
    case HS_OWNER_TWICE:
        return "HS_OWNER_TWICE";
    case HS_BAD_TASK:
        return "HS_BAD_TASK";
    case HS_TOO_MANY_SLICES:
        return "HS_TOO_MANY_SLICES";
    case HS_OTHER_PLACE:
        return "HS_OTHER_PLACE";
    case HS_OTHER_JOB:
        return "HS_OTHER_JOB";
    }
    return "unknown";
}

/* Kinds of leases. */
enum hs_kind { HS_GUARD = 1, HS_BRIDGE = 2 };

/* What an assigner does next. */
enum hs_action { HS_TAKE = 1, HS_RENEW = 2, HS_COMMIT = 3, HS_PROPOSE = 4, HS_REST = 5 };

/* What a task does next about its leases. */
enum hs_task_action {
    HS_START = 1,          /* start a life */
    HS_ASK_GUARD = 2,      /* ask the table for a grant, which is of a guard lease now */
    HS_ASK_BRIDGE = 3,     /* ask the table for a grant, which is of a bridge lease now */
    HS_GIVE_UP_GUARD = 4,  /* release the guard lease, and send the note to the table */
    HS_GIVE_UP_BRIDGE = 5, /* release the bridge lease, and send the note to the table */
    HS_TASK_REST = 6       /* nothing */
};

/* Calls that a line of a log may be of: see hs_log_line. A number never changes its meaning. */
enum hs_call {
    HS_CALL_TAKE = 1,     /* hs_table_take */
    HS_CALL_RENEW = 2,    /* hs_table_renew */
    HS_CALL_PROPOSE = 3,  /* hs_table_propose */
    HS_CALL_COMMIT = 4,   /* hs_table_commit */
    HS_CALL_GRANT = 5,    /* hs_table_grant */
    HS_CALL_FREE = 6,     /* hs_table_free */
    HS_CALL_LOSE = 7,     /* hs_table_restart */
    HS_CALL_PHASE = 8,    /* hs_table_phase */
    HS_CALL_RESTORE = 9,  /* hs_table_restore */
    HS_CALL_OPEN = 10,    /* hs_slicelet_open, hs_slicelet_resume */
    HS_CALL_START = 11,   /* hs_slicelet_start */
    HS_CALL_HEAR = 12,    /* hs_slicelet_hear, hs_slicelet_receive */
    HS_CALL_RELEASE = 13, /* hs_slicelet_release */
    HS_CALL_SERVE = 14,   /* hs_slicelet_serve, hs_slicelet_serve_at */
    HS_CALL_HOLD = 15,    /* hs_slicelet_hold, hs_slicelet_hold_at */
    HS_CALL_CHECK = 16,   /* hs_slicelet_check */
    HS_CALL_LEARN = 17,   /* hs_clerk_learn */
    HS_CALL_LOOK = 18,    /* hs_clerk_look, hs_clerk_look_at */
    HS_CALL_FORGET = 19,  /* hs_clerk_forget */
    HS_CALL_SAMPLE = 20   /* hs_task_clock_sample */
};

/* Numbers that a code comes with. A call sets just the fields that its code names, unless its comment
 * says otherwise: hs_slicelet_hear, _serve, _serve_at, _hold and _hold_at tell a lease where they are
 * done, and the last four tell `covering` of each key. */
struct hs_told {
    uint64_t number;     /* of a grant, of a term, or the version of a message */
    uint64_t generation; /* of a lease or an assignment */
    uint64_t kind;       /* of a lease, an hs_kind */
    uint64_t task;       /* 1 to 64 */
    uint64_t until;      /* a reading, in ticks; of a lease, the first of the task's clock at which it
                            has ended */
    uint64_t covering;   /* the greatest generation of the held leases that cover the key, live or
                            ended; 0 if none does */
};

/* A key handle: a key that the task held when it took the handle. */
struct hs_key_handle {
    uint64_t task;
    uint64_t slice_key;
    uint64_t position;
    uint32_t life;
};

/* A block of work on a key: what its entry or its end passed and wrote. The caller sets `ticket` before
 * each call, and keeps the other members from hs_slicelet_enter until hs_slicelet_leave. */
struct hs_block {
    uint64_t ticket;             /* the place of the call among all calls of the job (docs/AUDIT.md) */
    uint64_t at;                 /* the task's reading at which the call was made */
    struct hs_key_handle handle; /* what hs_slicelet_enter wrote, and hs_slicelet_leave checks */
    struct hs_told told;         /* what hs_slicelet_enter told */
};

/* A grant that a task received, for hs_slicelet_receive. The caller sets `ticket` before the call; the call
 * writes the other members. */
struct hs_receipt {
    uint64_t ticket;     /* the place of the call among all calls of the job (docs/AUDIT.md) */
    uint64_t at;         /* the task's reading at which the call was made */
    struct hs_told told; /* what hs_slicelet_hear told of the grant */
    uint32_t evidence;   /* 1 if the grant shows that clocks are not timely, and was not heard; else 0 */
};

/* A lease that a task holds. */
struct hs_held_lease {
    uint64_t number;     /* of its grant */
    uint64_t generation; /* that it was granted for */
    uint64_t until;      /* the first reading of the task's clock at which it has ended */
};

/* A grant, as hs_grant_read reads it from its message. */
struct hs_grant {
    uint64_t number;
    uint64_t task;
    uint64_t life;
    uint64_t kind;       /* of its lease, an hs_kind */
    uint64_t generation; /* of its lease */
    uint64_t ends;       /* the first reading of the task's clock at which the lease has ended */
    uint64_t table_ends; /* the first reading of the table's clock at which the lease has ended */
};

/* The owners of a key: the first `count` of `tasks`, in rising order. The others are 0. */
struct hs_owners {
    uint64_t generation;
    uint64_t count;
    uint64_t tasks[5];
};

/* A slice of an assignment: it goes up to the start of the next one, or to the last key, and the first
 * `count` of `tasks` own its keys. */
struct hs_slice {
    uint64_t start; /* its first slice key */
    uint64_t count; /* how many tasks own its keys, 1 to 5 */
    uint64_t tasks[5];
};

/* The policy of a table. `guard`, `bridge`, `job` and `numbers` are 1 to 2^32. */
struct hs_policy {
    uint64_t low;     /* the fewest owners that a plan gives a slice, 1 or more */
    uint64_t high;    /* the most owners of a slice, `low` to 5 */
    uint64_t skew;    /* how many ticks clocks may be apart, below `guard` and below `bridge` */
    uint64_t guard;   /* how many ticks a guard lease lasts */
    uint64_t bridge;  /* how many ticks a bridge lease lasts */
    uint64_t job;     /* how many ticks the job lease lasts */
    uint64_t numbers; /* how many grants the table makes, for good */
};

/* A term of the job lease. */
struct hs_job_term {
    uint64_t number;
    uint64_t assigner; /* 1 or more */
    uint64_t until;    /* the first reading at which it has ended */
};

/* The phase of a table: `proposed` is 0 if no assignment is proposed, otherwise `committed` + 1. */
struct hs_phase {
    uint64_t committed; /* 0 before the first commit */
    uint64_t proposed;
};

/* What a table keeps of a grant until its lease ends or is freed. */
struct hs_row {
    uint64_t number;
    uint64_t task;
    uint64_t life;
    uint64_t kind; /* hs_kind */
    uint64_t generation;
    uint64_t table_ends; /* the first reading at which it has ended */
};

/* A record that a task did some work for a key. */
struct hs_load_record {
    uint64_t slice_key; /* of the key: hs_slice_key */
    uint64_t weight;    /* of the work, 1 to 2^32 */
};

/* The policy of a plan. */
struct hs_plan_policy {
    uint64_t low;   /* the fewest owners of a slice, 1 or more */
    uint64_t high;  /* the most owners of a slice, `low` to 5 */
    uint64_t churn; /* how many keys may move, up to 2^63 */
    uint64_t cold;  /* neighbours merge up to this load */
    uint64_t hot;   /* a slice above this load is halved */
    uint64_t most;  /* slices are halved while there are fewer than this, 1 to 1,024 */
};

/* A task's clock. hs_task_clock_new writes it. A caller may read and copy it, but changes no field;
 * a clock of any other numbers is safe to pass, but may be behind the table's. */
struct hs_task_clock {
    uint64_t extra;   /* the drift: while the local clock gains `per` ticks, the table's clock gains */
    uint64_t per;     /* at most `per` + `extra`, in proportion and rounded up, */
    uint64_t grain;   /* and `grain` ticks more */
    uint64_t oldest;  /* how many ticks ago the request of the newest sample may have been sent */
    uint64_t sampled; /* 0 before the first sample, then 1 */
    uint64_t sent;    /* of the best sample: the local reading before its request was sent */
    uint64_t reading; /* of the best sample: the table's reading in the answer */
    uint64_t newest;  /* the greatest `sent` of a sample */
    uint64_t last;    /* the last accepted local reading */
    uint64_t given;   /* the last value, 0 before the first */
};

/* The table's clock in one process. hs_table_clock_open writes it. A caller may read and copy it,
 * but changes no field. */
struct hs_table_clock {
    uint64_t start;  /* what it showed when it was opened */
    uint64_t opened; /* the local reading at which it was opened */
    uint64_t kept;   /* the value that was kept; no reading is below it */
    uint64_t last;   /* the last accepted local reading */
};

/* A call for hs_log_line: what was passed, the code that was returned, and what the call wrote. Zero
 * it, and set `ticket`, `call`, `code`, and the members whose comments name the call; the others are
 * not looked at. */
struct hs_logged_call {
    uint64_t ticket;             /* the place of the call among all calls of the job (docs/AUDIT.md) */
    uint32_t call;               /* which call it was, an hs_call */
    int32_t code;                /* what it returned */
    uint64_t task;               /* each call of a slicelet, HS_CALL_GRANT, and HS_CALL_SAMPLE */
    uint64_t clerk;              /* each call of a clerk: its number in the job, from 1 */
    uint64_t assigner;           /* HS_CALL_TAKE */
    uint64_t term;               /* HS_CALL_RENEW, _PROPOSE, _COMMIT: the number that was passed */
    uint64_t at;                 /* each call that is passed a reading; HS_CALL_SAMPLE: `now` */
    uint64_t slice_key;          /* HS_CALL_SERVE, _HOLD, _LOOK: hs_slice_key of the key */
    uint32_t life;               /* HS_CALL_GRANT, _START, _OPEN; 0 for hs_slicelet_open */
    uint32_t kind;               /* HS_CALL_RELEASE: an hs_kind */
    uint64_t count;              /* HS_CALL_FREE, _LOSE: what *freed or *lost is then */
    struct hs_told told;         /* each call that has `told` */
    struct hs_job_term job_term; /* HS_CALL_TAKE, _RENEW: what was written */
    struct hs_phase phase;       /* HS_CALL_PHASE: what was written */
    struct hs_key_handle handle; /* HS_CALL_CHECK: what was passed; HS_CALL_HOLD: what was written */
    struct hs_owners owners;     /* HS_CALL_LOOK: what was written */
    uint64_t sent;               /* HS_CALL_SAMPLE: what was passed */
    uint64_t reading;            /* HS_CALL_SAMPLE: what was passed */
};

/* A version of the library: major.minor.patch. */
struct hs_library_version {
    uint32_t major;
    uint32_t minor;
    uint32_t patch;
};

/* A place, by its address: null before hs_place_new and after hs_place_free. */
struct hs_place {
    void *at;
};

/* Writes the version of the linked library to `out`. */
void hs_library_version(struct hs_library_version *out);

/* The slice key of a key: the first eight bytes of its SHA-256, most significant first, without the lowest bit. */
uint64_t hs_slice_key(const uint8_t *key, size_t key_len);

/* Creates an empty place at `place`, which is zeroed. If a place is there, destroys what it holds and
 * takes no memory. HS_NO_MEMORY. */
int32_t hs_place_new(struct hs_place *place);

/* Destroys what `place` holds, frees the place, and sets its address to null. A place whose address is
 * null is unchanged, so a place may be freed twice. */
void hs_place_free(struct hs_place *place);

/* Each destroys the object of its kind, and leaves `place` empty. */
int32_t hs_slicelet_close(struct hs_place *place);
int32_t hs_clerk_close(struct hs_place *place);
int32_t hs_table_close(struct hs_place *place);
int32_t hs_load_book_close(struct hs_place *place);
int32_t hs_assigner_close(struct hs_place *place);

/* Slicelets. ------------------------------------------------------------------------------------------------------ */

/* Creates a new slicelet of a job in `place`, destroying what was there. `job` is the name of the
 * job, at most 64 bytes of UTF-8: grants of another job are HS_OTHER_JOB, and notes are written for
 * this one. The empty name also reads messages of version 1, which name no job. `task` is 1 to 64.
 * HS_WRONG_FORM. */
int32_t hs_slicelet_open(struct hs_place *place, const uint8_t *job, size_t job_len, uint64_t task);

/* Creates the slicelet of a task's new process in `place`, destroying what was there; `job` is as in
 * hs_slicelet_open. `life` is the greatest life that the task ever started, or a greater one: only
 * lives above it are started, and each handle of an earlier process is HS_STRANGER. Never call it
 * beside a process of the task that may still run: two processes could serve one key.
 * HS_WRONG_FORM. */
int32_t hs_slicelet_resume(struct hs_place *place, const uint8_t *job, size_t job_len, uint64_t task, uint32_t life);

/* Writes the message of the note of a job that gives back all leases of a kind of a life that ended
 * with its process, so that the table need not wait until they end. No process of the task in this
 * life may still run. HS_WRONG_FORM, then HS_NO_ROOM or HS_NO_MEMORY. */
int32_t hs_ended_note(const uint8_t *job, size_t job_len, uint64_t task, uint32_t life, uint32_t kind, uint8_t *out,
                      size_t out_len, size_t *needed);

/* Reads a grant of a job, given as its message: writes its numbers to `out`, and to `boundaries` the
 * ranges of its lease, each as its first slice key and the one after its last. So range i goes from
 * boundaries[2 * i] up to boundaries[2 * i + 1], which it does not have; all of them rise. *needed is
 * how many boundaries there are, two for each range. A lease that was heard covers the keys of its grant
 * until another grant of its kind is heard, or the lease is released. HS_WRONG_FORM if `job` is not the
 * name of a job, then message codes, then HS_NO_ROOM: `out` is written nonetheless. */
int32_t hs_grant_read(const uint8_t *job, size_t job_len, const uint8_t *grant, size_t grant_len, struct hs_grant *out,
                      uint64_t *boundaries, size_t boundaries_len, size_t *needed);

/* Starts a life of the task, which holds no lease yet. Takes no memory. HS_OLD_LIFE, HS_CLOCK_BACK,
 * HS_HISTORY_FULL. */
int32_t hs_slicelet_start(struct hs_place *place, uint32_t life, uint64_t at);

/* Hears a grant, given as its message: its lease replaces the held one of its kind. HS_DONE, with
 * told.kind, told.number, told.generation and told.until of this lease; otherwise message codes,
 * then HS_NOT_STARTED, HS_CLOCK_BACK, HS_OTHER_TASK, HS_OTHER_LIFE, HS_OLD, HS_TOO_LATE,
 * HS_HISTORY_FULL, HS_NO_MEMORY. */
int32_t hs_slicelet_hear(struct hs_place *place, const uint8_t *grant, size_t grant_len, uint64_t at,
                         struct hs_told *told);

/* Receives a grant, given as its message: hs_task_clock_read at the local reading `now`,
 * hs_clock_evidence and hs_slicelet_hear at the value, and the line of the hearing, as hs_log_line writes
 * it for HS_CALL_HEAR with receipt->ticket, in one call, which decodes the message once. Returns the code
 * of hs_slicelet_hear, also if it is not 0, and writes receipt->at and ->told, and 0 to ->evidence. If the
 * grant shows that clocks are not timely, nothing is heard and no line is written: returns HS_DONE, and
 * writes receipt->at, 1 to ->evidence, and 0 to *needed. If `out_len` is 0, no line is written, and *needed
 * is 0. Draw the ticket before the call. HS_WRONG_FORM if `per` of the clock is 0, then the codes of
 * hs_task_clock_read, HS_WRONG_FORM if a number of the policy is outside its limits, message codes, then
 * those of hs_slicelet_hear; but HS_NO_ROOM or HS_NO_MEMORY may come in place of the last ones if a line is
 * wanted. With a negative code, and with those of hs_task_clock_read, no call was made and there is no
 * line: the slicelet, the clock and the receipt are unchanged. The clock and the place are called alone. */
int32_t hs_slicelet_receive(struct hs_place *place, struct hs_task_clock *clock, uint64_t now,
                            const struct hs_policy *policy, const uint8_t *grant, size_t grant_len,
                            struct hs_receipt *receipt, uint8_t *out, size_t out_len, size_t *needed);

/* Gives up the lease of a kind, which may have ended, and writes the message of its note, for the
 * table. HS_WRONG_FORM, HS_NOT_STARTED, HS_CLOCK_BACK, HS_NOTHING_HELD, HS_HISTORY_FULL, then
 * HS_NO_ROOM or HS_NO_MEMORY. The lease is still held unless the call is done. */
int32_t hs_slicelet_release(struct hs_place *place, uint32_t kind, uint64_t at, uint8_t *out, size_t out_len,
                            size_t *needed);

/* Whether the task may serve a key now: HS_DONE, with told.kind, told.number, told.generation and
 * told.until of the lease under which it may, or HS_DOWN, HS_CLOCK_BACK, HS_ENDED, HS_NOT_OWNED,
 * HS_NO_LEASE. With each of these codes told.covering is the greatest generation of the held leases
 * that cover the key, live or ended, and 0 if none does; it may be above told.generation. Takes no
 * memory. */
int32_t hs_slicelet_serve(const struct hs_place *place, const uint8_t *key, size_t key_len, uint64_t at,
                          struct hs_told *told);

/* The same by slice key, for a caller that keeps the slice keys of its keys: most of hs_slicelet_serve
 * is the hash of the key. HS_WRONG_FORM if no key has this slice key, which is 2^63 or more. */
int32_t hs_slicelet_serve_at(const struct hs_place *place, uint64_t slice_key, uint64_t at, struct hs_told *told);

/* Takes a handle on a key if the task may serve it. Returns the code of hs_slicelet_serve, and tells
 * what it tells. Takes no memory. */
int32_t hs_slicelet_hold(const struct hs_place *place, const uint8_t *key, size_t key_len, uint64_t at,
                         struct hs_key_handle *out, struct hs_told *told);

/* The same by slice key, as hs_slicelet_serve_at. HS_WRONG_FORM, also if no key has this slice key. */
int32_t hs_slicelet_hold_at(const struct hs_place *place, uint64_t slice_key, uint64_t at, struct hs_key_handle *out,
                            struct hs_told *told);

/* A fencing token, which a task sends to a store with each write of a key: the epoch of the job, the
 * greatest generation of the held leases that cover the key, and the life of the task, in 4, 8 and 4 bytes,
 * each with the high byte first. Tokens are compared as bytes: memcmp, or their text in hexadecimal. */
struct hs_token {
    uint8_t bytes[16];
};

/* Writes the token that the task has for a key at the reading `at`. `most` is the most owners of a slice
 * by the policy of the job, `epoch` a number above those of the jobs before this one that wrote to the same
 * store. HS_MANY_OWNERS if `most` is above 1, then the codes of hs_slicelet_serve. Takes no memory. */
int32_t hs_slicelet_token(const struct hs_place *place, uint64_t most, uint32_t epoch, const uint8_t *key,
                          size_t key_len, uint64_t at, struct hs_token *out);

/* The same by slice key, as hs_slicelet_serve_at. HS_WRONG_FORM, before the others, if no key has this slice key. */
int32_t hs_slicelet_token_at(const struct hs_place *place, uint64_t most, uint32_t epoch, uint64_t slice_key,
                             uint64_t at, struct hs_token *out);

/* The store's side: offers a write with a token, where `greatest` is the greatest token with which a write
 * of the key was accepted, all zero before the first. HS_DONE, and *greatest is the token, or HS_FENCED.
 * Keep it with what was written, in one transaction. A new owner offers its token before it reads. */
int32_t hs_fence_accept(struct hs_token *greatest, const struct hs_token *token);

/* Whether the task has held the key of a handle without a break since it took the handle, and may
 * serve it now. HS_WRONG_FORM, HS_STRANGER, HS_BROKEN. Takes no memory. */
int32_t hs_slicelet_check(const struct hs_place *place, const struct hs_key_handle *handle, uint64_t at);

/* Enters a block of work on a key: hs_task_clock_read at the local reading `now`, hs_slicelet_hold at
 * the value, and the line of that call, as hs_log_line writes it for HS_CALL_HOLD with block->ticket,
 * in one call. Returns the code of hs_slicelet_hold, also if it is not 0, and writes block->at, ->handle
 * and ->told. If `out_len` is 0, no line is written, *needed is 0, and no memory is taken. Draw the
 * ticket before the call, and write the line before the reply of the block leaves the process.
 * HS_WRONG_FORM if `per` of the clock is 0, then the codes of hs_task_clock_read, with which no call
 * was made and there is no line, then those of hs_slicelet_hold; but HS_NO_ROOM or HS_NO_MEMORY comes
 * in place of the last ones, and the clock and the block are then unchanged. The clock is called
 * alone, as in every call of a clock; the place is only read. */
int32_t hs_slicelet_enter(const struct hs_place *place, struct hs_task_clock *clock, uint64_t now, const uint8_t *key,
                          size_t key_len, struct hs_block *block, uint8_t *out, size_t out_len, size_t *needed);

/* The same by slice key, as hs_slicelet_serve_at. HS_WRONG_FORM, also if no key has this slice key. */
int32_t hs_slicelet_enter_at(const struct hs_place *place, struct hs_task_clock *clock, uint64_t now,
                             uint64_t slice_key, struct hs_block *block, uint8_t *out, size_t out_len,
                             size_t *needed);

/* Leaves a block of work: hs_task_clock_read at the local reading `now`, hs_slicelet_check of
 * block->handle at the value, and the line of that call for HS_CALL_CHECK with block->ticket, in one
 * call. Returns the code of hs_slicelet_check, also if it is not 0, and writes block->at. Otherwise as
 * hs_slicelet_enter. */
int32_t hs_slicelet_leave(const struct hs_place *place, struct hs_task_clock *clock, uint64_t now,
                          struct hs_block *block, uint8_t *out, size_t out_len, size_t *needed);

/* Writes the lease of a kind that the task holds, which may have ended. HS_WRONG_FORM,
 * HS_NOTHING_HELD. Takes no memory. */
int32_t hs_slicelet_held(const struct hs_place *place, uint32_t kind, struct hs_held_lease *out);

/* Writes to `boundaries` the keys that the task may serve at the reading `at`, which are those that
 * hs_slicelet_serve_at allows: ranges, each as its first slice key and the one after its last, as
 * hs_grant_read writes them. *needed is how many boundaries there are, two for each range, and 0 if
 * there is no such key. What the task gained by a call, and what it lost, is how the keys before it and
 * after it differ; a lease that ends takes keys without a call. HS_NO_ROOM or HS_NO_MEMORY. */
int32_t hs_slicelet_permitted(const struct hs_place *place, uint64_t at, uint64_t *boundaries, size_t boundaries_len,
                              size_t *needed);

/* Writes what the task does next about its leases, an hs_task_action, in a phase of the table:
 * starts a life; asks for a lease of the phase, if it holds none that is live; gives up the lease of
 * the other kind, which delays the next commit; or nothing. It does not ask before a lease ends: ask
 * before that, by `until` of hs_slicelet_held. HS_WRONG_FORM if `proposed` is neither 0 nor
 * `committed` + 1. Takes no memory. */
int32_t hs_slicelet_next(const struct hs_place *place, const struct hs_phase *phase, uint64_t at, uint32_t *action);

/* Writes how many more calls of hs_slicelet_start, _hear and _release are accepted before
 * HS_HISTORY_FULL. */
int32_t hs_slicelet_calls_left(const struct hs_place *place, uint64_t *left);

/* Clerks. --------------------------------------------------------------------------------------------------------- */

/* Creates a new clerk of a job in `place`, destroying what was there; `job` is as in
 * hs_slicelet_open. It keeps no assignment. HS_WRONG_FORM. */
int32_t hs_clerk_open(struct hs_place *place, const uint8_t *job, size_t job_len);

/* Keeps an assignment, given as its message. Message codes, then HS_OLD_GENERATION,
 * HS_NO_MEMORY. */
int32_t hs_clerk_learn(struct hs_place *place, const uint8_t *assignment, size_t assignment_len, struct hs_told *told);

/* Writes the owners of a key in the kept assignment. HS_UNKNOWN. Takes no memory. */
int32_t hs_clerk_look(const struct hs_place *place, const uint8_t *key, size_t key_len, struct hs_owners *out);

/* The same by slice key. HS_WRONG_FORM if no key has this slice key, HS_UNKNOWN. */
int32_t hs_clerk_look_at(const struct hs_place *place, uint64_t slice_key, struct hs_owners *out);

/* Forgets the kept assignment. */
int32_t hs_clerk_forget(struct hs_place *place);

/* Tables. --------------------------------------------------------------------------------------------------------- */

/* Creates a new table of a job, with a policy, in `place`, destroying what was there; `job` is as in
 * hs_slicelet_open. HS_WRONG_FORM. */
int32_t hs_table_open(struct hs_place *place, const uint8_t *job, size_t job_len, const struct hs_policy *policy);

/* Writes the message of the kept values of the table: all of it but its rows. Save it before the
 * reply to a call that changed the table leaves the process. HS_NO_ROOM or HS_NO_MEMORY. */
int32_t hs_table_kept(const struct hs_place *place, uint8_t *out, size_t out_len, size_t *needed);

/* Writes the message of the values to save in place of those that were saved last, or nothing, if
 * nothing has to be saved: HS_DONE with a *needed of 0. `saved` is the message that was saved last, of
 * length 0 if nothing was saved. Nothing has to be saved if its values cover the table: they are those
 * that the table keeps, or ahead of them. What is written is what the table keeps, moved ahead by
 * `grants` grants, or as many as the policy still allows, and `ticks` ticks. So the next grants, and
 * notes that are freed, up to that number and that reading need no save. A table that is restored from
 * values saved ahead gives none of those numbers, and accepts no reading before the last one saved.
 * With 0 grants just what the table keeps is written. Message codes, then the codes of
 * hs_table_restore, for saved values that restore no table with this policy, then HS_NO_ROOM or
 * HS_NO_MEMORY. */
int32_t hs_table_save(const struct hs_place *place, const uint8_t *saved, size_t saved_len, uint64_t grants,
                      uint64_t ticks, uint8_t *out, size_t out_len, size_t *needed);

/* Restores the table of a job from its kept values, given as their message, in `place`, destroying
 * what was there. It is the table that kept them, as hs_table_restart leaves it. HS_WRONG_FORM,
 * message codes, HS_OTHER_POLICY, HS_READING_RANGE, HS_NO_TERM, HS_TERM_RANGE, HS_KEPT_GENERATION,
 * HS_TOO_MANY_OWNERS_FOR_JOB, HS_NO_ASSIGNMENT, HS_TOO_MANY_GRANTS, HS_DEADLINE_RANGE. */
int32_t hs_table_restore(struct hs_place *place, const uint8_t *job, size_t job_len, const struct hs_policy *policy,
                         const uint8_t *kept, size_t kept_len, struct hs_told *told);

/* Gives the job lease to an assigner, and writes its term. HS_WRONG_FORM if `assigner` is 0,
 * HS_READING_RANGE, HS_CLOCK_BACK, HS_JOB_HELD. */
int32_t hs_table_take(struct hs_place *place, uint64_t assigner, uint64_t at, struct hs_job_term *out,
                      struct hs_told *told);

/* Renews the term with this number, and writes it. HS_READING_RANGE, HS_CLOCK_BACK,
 * HS_NOT_HOLDER. */
int32_t hs_table_renew(struct hs_place *place, uint64_t number, uint64_t at, struct hs_job_term *out,
                       struct hs_told *told);

/* Proposes an assignment, given as its message, under the term with this number. Message codes,
 * then HS_READING_RANGE, HS_CLOCK_BACK, HS_NOT_HOLDER, HS_STALE_BASE, HS_PENDING,
 * HS_TOO_MANY_OWNERS_FOR_JOB, HS_NO_MEMORY. */
int32_t hs_table_propose(struct hs_place *place, uint64_t number, const uint8_t *assignment, size_t assignment_len,
                         uint64_t at, struct hs_told *told);

/* Commits the proposed assignment under the term with this number; told.generation is its
 * generation. HS_READING_RANGE, HS_CLOCK_BACK, HS_NOT_HOLDER, HS_NOTHING_PENDING, HS_GRACE,
 * HS_HELD. */
int32_t hs_table_commit(struct hs_place *place, uint64_t number, uint64_t at, struct hs_told *told);

/* Grants a task a lease for one of its lives, and writes the message of the grant. HS_WRONG_FORM if
 * `task` is not 1 to 64 or `life` is 0, HS_READING_RANGE, HS_CLOCK_BACK, HS_NO_ASSIGNMENT, HS_NUMBERS_SPENT, then HS_NO_ROOM or
 * HS_NO_MEMORY. No grant is made unless the call is done. */
int32_t hs_table_grant(struct hs_place *place, uint64_t task, uint32_t life, uint64_t at, uint8_t *out, size_t out_len,
                       size_t *needed);

/* Frees the rows that a note, given as its message, closes; *freed is how many. Message codes, then
 * HS_READING_RANGE, HS_CLOCK_BACK, HS_NO_ROW. */
int32_t hs_table_free(struct hs_place *place, const uint8_t *note, size_t note_len, uint64_t at, uint64_t *freed,
                      struct hs_told *told);

/* Restarts the table, which loses its rows and keeps all else; *lost is how many rows
 * hs_table_rows would have written. */
int32_t hs_table_restart(struct hs_place *place, uint64_t *lost);

/* Writes the phase of the table. */
int32_t hs_table_phase(const struct hs_place *place, struct hs_phase *out);

/* Writes the rows that have not ended at the last accepted reading, in grant order; *needed is how
 * many. HS_NO_ROOM or HS_NO_MEMORY. */
int32_t hs_table_rows(const struct hs_place *place, struct hs_row *out, size_t out_len, size_t *needed);

/* Writes the message of the committed assignment. HS_NO_ASSIGNMENT, then HS_NO_ROOM or
 * HS_NO_MEMORY. */
int32_t hs_table_committed(const struct hs_place *place, uint8_t *out, size_t out_len, size_t *needed);

/* Assignments. ---------------------------------------------------------------------------------------------------- */

/* Writes the message, of a job, of the assignment of a generation that has these slices, for
 * hs_table_propose. The first slice starts at 0, and each starts above the one before it; owners may
 * stand in any order. HS_WRONG_FORM if `job` is not the name of a job, HS_NO_SLICES,
 * HS_FIRST_NOT_ZERO, HS_NOT_RISING, HS_PAST_END, HS_NO_OWNER, HS_TOO_MANY_OWNERS, HS_OWNER_TWICE,
 * HS_BAD_TASK, HS_TOO_MANY_SLICES, then HS_NO_ROOM or HS_NO_MEMORY. Each code is looked for in all
 * slices before the next one. */
int32_t hs_assignment_new(const uint8_t *job, size_t job_len, uint64_t generation, const struct hs_slice *slices,
                          size_t slices_len, uint8_t *out, size_t out_len, size_t *needed);

/* Reads an assignment of a job, given as its message: writes its generation, and its slices in the
 * order of their starts, each with its owners in rising order, then zeros. *needed is how many slices
 * there are, at most 1,024. HS_WRONG_FORM if `job` is not the name of a job, then message codes, then
 * HS_NO_ROOM, at which `generation` is written nonetheless, or HS_NO_MEMORY. */
int32_t hs_assignment_read(const uint8_t *job, size_t job_len, const uint8_t *assignment, size_t assignment_len,
                           uint64_t *generation, struct hs_slice *out, size_t out_len, size_t *needed);

/* Reads from an assignment of a job, given as its message, the slice that has a slice key. The whole
 * message is read: a clerk that has learnt it looks up keys faster. HS_WRONG_FORM if `job` is not the
 * name of a job or no key has this slice key, then message codes. */
int32_t hs_assignment_slice(const uint8_t *job, size_t job_len, const uint8_t *assignment, size_t assignment_len,
                            uint64_t slice_key, struct hs_slice *out);

/* Load books. ----------------------------------------------------------------------------------------------------- */

/* Creates a new load book of a job in `place`, destroying what was there; `job` is as in
 * hs_slicelet_open. All totals are 0. HS_WRONG_FORM. */
int32_t hs_load_book_open(struct hs_place *place, const uint8_t *job, size_t job_len);

/* Adds the weights of records to the total of the task that did the work, and writes the load that
 * they are of each slice of an assignment, given as its message: the sum of the weights of the records
 * whose key is in the slice. Loads are in the order of the slices, and add up to the weights; *needed
 * is how many slices there are. For hs_plan, add the loads of several tasks, gathered over the same
 * assignment, slice by slice. Gather each record once. The totals of a book never add up to more than
 * 2^40. Message codes, HS_WRONG_FORM if `task` is not 1 to 64 or no key has a slice key,
 * HS_WEIGHT_RANGE, HS_TOTAL_RANGE, HS_NO_ROOM. Each code is looked for in all records before the next
 * one, and HS_NO_MEMORY comes last. Nothing is counted unless the call is done. */
int32_t hs_load_book_gather(struct hs_place *place, const uint8_t *assignment, size_t assignment_len, uint64_t task,
                            const struct hs_load_record *records, size_t records_len, uint64_t *loads,
                            size_t loads_len, size_t *needed);

/* Writes the sum of the weights of all records of a task that were gathered. HS_WRONG_FORM if `task` is
 * not 1 to 64. */
int32_t hs_load_book_total(const struct hs_place *place, uint64_t task, uint64_t *total);

/* Assigners. ------------------------------------------------------------------------------------------------------ */

/* Creates a new assigner in `place`, destroying what was there. It keeps no term. A job lease lasts
 * `job` ticks. HS_WRONG_FORM if `id` is 0. */
int32_t hs_assigner_open(struct hs_place *place, uint64_t id, uint64_t job);

/* Keeps a term that a table gave. HS_NOT_ADOPTED. A term is newer than another if its number is
 * greater, or the same with a later `until`. */
int32_t hs_assigner_adopt(struct hs_place *place, const struct hs_job_term *term);

/* Drops the kept term. */
int32_t hs_assigner_drop_term(struct hs_place *place);

/* Writes what to do next, an hs_action, and the number of the kept term, 0 for none. `wanted` is
 * not 0 if another assignment is wanted. HS_WRONG_FORM if `proposed` is neither 0 nor
 * `committed` + 1. */
int32_t hs_assigner_next(const struct hs_place *place, uint64_t at, const struct hs_phase *phase, uint32_t wanted,
                         uint32_t *action, uint64_t *number);

/* Plans the assignment of the next generation for `tasks`, which rise strictly, from a load of each
 * slice of `assignment`, and writes its message. Both are messages of the job. HS_WRONG_FORM if `job`
 * is not the name of a job, message codes, then HS_WRONG_FORM (also if there is no next generation),
 * HS_NO_TASKS, HS_LOADS_LENGTH, HS_LOAD_RANGE, then HS_NO_ROOM or HS_NO_MEMORY. */
int32_t hs_plan(const uint8_t *job, size_t job_len, const uint8_t *assignment, size_t assignment_len,
                const uint64_t *loads, size_t loads_len, const uint64_t *tasks, size_t tasks_len,
                const struct hs_plan_policy *policy, uint8_t *out, size_t out_len, size_t *needed);

/* Clocks. --------------------------------------------------------------------------------------------------------- */

/* With these clocks nothing has to be synchronised. A task notes its local clock, `sent`, and asks
 * the table for its reading. From then on the table's clock is at most that reading and the local
 * time since `sent`, stretched by the drift. The task uses this value as its reading in every call
 * of its slicelet. So no value is below an earlier reading of the table, and clocks are timely with
 * any skew, if:
 *   - While the local clock of the task gains `per` ticks, that of the table's process gains at
 *     most `per` + `extra`. Two clocks that each keep within 100 parts in a million of true time
 *     have the drift 201 in 1000000. A time service that slews a clock adds to this: ntpd up to 500
 *     parts in a million, and chronyd on Linux up to 83334, unless its maxslewrate is lower.
 *   - Local clocks are monotonic, and are rounded down to ticks, which have one length in the whole
 *     job. `grain` is how much more the rounding may show: 2 is enough if `extra` is at most `per`.
 *   - A sample is an answer to its own request. Keep `sent` with the request. A request that is
 *     sent again keeps its first `sent`, unless answers tell which of the two they answer.
 *   - A task's local clock counts while the machine is suspended. On Linux CLOCK_BOOTTIME does.
 *     CLOCK_MONOTONIC does not: after a suspension the task is behind the table, and may serve a
 *     key that has moved. Elsewhere take mach_continuous_time, which is CLOCK_MONOTONIC_RAW, on
 *     macOS, and QueryInterruptTimePrecise on Windows, not QueryUnbiasedInterruptTime. FreeBSD has
 *     no clock that is sure to: CLOCK_MONOTONIC is CLOCK_UPTIME there. A task whose machine may
 *     have been suspended without its clock counting, as a virtual machine that was paused, starts
 *     a new life with a new clock.
 *   - The table has one process at a time. Its local clock may be any of these: if it stands still,
 *     leases only last longer.
 * A clock takes no memory and no lock. A new life of a task has a new clock. */

/* Writes a clock of a task with no sample. `oldest` is how many ticks the task goes on without an
 * answer of the table: HS_TOO_OLD then stops it, before its values are so far ahead of the table
 * that its leases are worth nothing; UINT64_MAX sets no limit. HS_WRONG_FORM if `per` is 0. */
int32_t hs_task_clock_new(struct hs_task_clock *clock, uint64_t extra, uint64_t per, uint64_t grain, uint64_t oldest);

/* Takes an answer of the table: the local reading before its request was sent, the table's reading
 * that it carries, and the local reading now. Answers may come late, twice, and in any order; the
 * clock keeps the best. HS_WRONG_FORM if `per` is 0, HS_CLOCK_BACK, HS_SENT_AHEAD. */
int32_t hs_task_clock_sample(struct hs_task_clock *clock, uint64_t sent, uint64_t reading, uint64_t now);

/* Writes the value of the clock at the local reading `now`, which is the task's reading. Values do
 * not fall. Read the local clock and then this one for each decision, and decide at once.
 * HS_WRONG_FORM if `per` is 0, HS_CLOCK_BACK, HS_NO_SAMPLE, HS_TOO_OLD, HS_TOO_LARGE. */
int32_t hs_task_clock_read(struct hs_task_clock *clock, uint64_t now, uint64_t *out);

/* Writes the clock of a new process of the table, on any host: `kept` is the last value that was
 * kept, 0 at first, and `now` the local reading. The time in which no process ran does not count.
 * The clock starts `ahead` ticks below `kept`, or at 0 if `ahead` is more. If values are kept up to
 * S ticks above the reading, `ahead` is at least S + `grain` + 1, so that the clock is not ahead of
 * what tasks may have read. */
int32_t hs_table_clock_open(struct hs_table_clock *clock, uint64_t kept, uint64_t ahead, uint64_t now);

/* Writes the table's reading at the local reading `now`. Readings do not fall. Before a reading is
 * used, keep a value that is not below it, where the next process finds it. HS_CLOCK_BACK,
 * HS_TOO_LARGE, HS_NOT_YET: for at most `ahead` ticks after hs_table_clock_open. */
int32_t hs_table_clock_read(struct hs_table_clock *clock, uint64_t now, uint64_t *out);

/* Writes 1 if a grant of a job, given as its message, shows at the reading `at` of its task that
 * clocks are not timely: it was made at a reading of the table that is more than the skew above `at`.
 * Otherwise writes 0, which shows nothing. `policy` is that of the table. Needs no place, and the
 * grant need not be heard. HS_WRONG_FORM if `job` is not the name of a job or a number of the policy
 * is outside its limits, then message codes. */
int32_t hs_clock_evidence(const uint8_t *job, size_t job_len, const uint8_t *grant, size_t grant_len, uint64_t at,
                          const struct hs_policy *policy, uint32_t *out);

/* Logs. ----------------------------------------------------------------------------------------------------------- */

/* Writes the line of a call for `hourstable audit` (docs/AUDIT.md), ended by a line feed. It has the
 * full words of the reply, and names keys by their slice keys, and notes and handles by what they
 * contain. `message` is the message that HS_CALL_PROPOSE, _FREE, _RESTORE, _HEAR or _LEARN passed, or
 * that HS_CALL_GRANT or _RELEASE wrote, if they are done; for other calls it is not looked at, and may
 * have length 0. Write the line before the reply leaves the process. A call of hs_table_rows has no
 * line here, and nothing rests on one. Nor has a call whose code is negative: it was no call of the
 * job. HS_WRONG_FORM if `job` is not the name of a job or `call` is no hs_call, then message codes,
 * then HS_WRONG_FORM if the call returns no such code, or a number is outside its limits, then
 * HS_NO_ROOM or HS_NO_MEMORY. Calls that may change a table share their codes here, and so do those
 * that may change a slicelet: an audit finds one that the call does not return. */
int32_t hs_log_line(const uint8_t *job, size_t job_len, const struct hs_logged_call *call, const uint8_t *message,
                    size_t message_len, uint8_t *out, size_t out_len, size_t *needed);

/* What a store said of a write: see hs_log_write. */
enum hs_store_reply {
    HS_STORE_NUMBERED = 1, /* it took the write, and gave it `revision` */
    HS_STORE_TAKEN = 2,    /* it took the write, and gives no revisions */
    HS_STORE_REFUSED = 3,  /* it refused the write: it had taken one of the key with a greater token */
    HS_STORE_UNKNOWN = 4   /* no answer came */
};

/* A write to a store, for hs_log_write. Zero it, and set each member. */
struct hs_logged_write {
    uint64_t ticket;       /* that of the call with which the task got the token, or a later one */
    uint64_t slice_key;    /* hs_slice_key of the key */
    uint64_t revision;     /* HS_STORE_NUMBERED: of two writes of a key, the one taken later has the greater one */
    struct hs_token token; /* the token that went with the write */
    uint32_t reply;        /* an hs_store_reply */
};

/* Writes the line of a write to a store that compares fencing tokens, ended by a line feed: an audit
 * judges it by the calls with which tasks got their tokens. HS_WRONG_FORM if the slice key or the reply is
 * outside its limits, then HS_NO_ROOM or HS_NO_MEMORY. */
int32_t hs_log_write(const struct hs_logged_write *write, uint8_t *out, size_t out_len, size_t *needed);

#ifdef __cplusplus
}
#endif

#endif
