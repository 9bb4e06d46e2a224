/* Calls that only read a place. While they run, on four threads or on one, the place and all that it holds lie in memory
 * that cannot be written. */
#define _GNU_SOURCE
#define GUARDED_ITSELF
#include "checks.h"

#include <pthread.h>
#include <sys/mman.h>

#define ROOM ((size_t)1 << 22)
#define READERS 4
#define ROUNDS 20000

/* One place of each kind. */
struct places {
    struct hs_place task, clerk, table, book, assigner;
};

/* Puts the places and what they hold into memory of their own. */
static struct places *set_apart(void) {
    struct places *all = set_memory_apart(ROOM, sizeof *all);
    const struct hs_job_term term = {4, 1, 1000};
    uint8_t out[256];
    size_t needed = 0;
    *all = (struct places){serving_task(), knowing_clerk(), steady_table(), counting_book(), new_place()};
    IS(hs_assigner_open(&all->assigner, 1, 1000), HS_DONE);
    IS(hs_assigner_adopt(&all->assigner, &term), HS_DONE);
    IS(hs_table_grant(&all->table, 1, 1, 6, out, sizeof out, &needed), HS_DONE);
    return all;
}

static void reads_served(const struct hs_place *task, const struct hs_key_handle *handle) {
    struct hs_told served = {0};
    struct hs_key_handle taken = {0};
    HOLDS(hs_slicelet_serve(task, HELLO, 6, &served) == HS_DONE);
    HOLDS(served.kind == HS_GUARD && served.number == 7 && served.generation == 3 && served.until == 95);
    HOLDS(hs_slicelet_serve(task, HELLO, 95, &served) == HS_ENDED);
    HOLDS(hs_slicelet_serve_at(task, handle->slice_key, 94, &served) == HS_DONE);
    HOLDS(hs_slicelet_hold(task, HELLO, 6, &taken, &served) == HS_DONE);
    HOLDS(taken.slice_key == handle->slice_key && taken.position == handle->position);
    HOLDS(hs_slicelet_hold_at(task, handle->slice_key, 6, &taken, &served) == HS_DONE);
    struct hs_token token = {{0}};
    HOLDS(hs_slicelet_token(task, 1, 9, HELLO, 6, &token) == HS_DONE && token.bytes[11] == 3);
    HOLDS(hs_slicelet_token_at(task, 1, 8, handle->slice_key, 6, &token) == HS_DONE && token.bytes[3] == 8);
    HOLDS(hs_slicelet_check(task, handle, 6) == HS_DONE);
    HOLDS(hs_slicelet_check(task, handle, 95) == HS_BROKEN);
}

static void reads_leases(const struct hs_place *task) {
    const struct hs_phase steady = {3, 0};
    struct hs_held_lease lease = {0};
    uint32_t action = 0;
    uint64_t left = 0;
    HOLDS(hs_slicelet_held(task, HS_GUARD, &lease) == HS_DONE);
    HOLDS(lease.number == 7 && lease.generation == 3 && lease.until == 95);
    HOLDS(hs_slicelet_held(task, HS_BRIDGE, &lease) == HS_NOTHING_HELD);
    HOLDS(hs_slicelet_next(task, &steady, 6, &action) == HS_DONE && action == HS_TASK_REST);
    HOLDS(hs_slicelet_calls_left(task, &left) == HS_DONE && left == 65534);
}

static void *reads(void *of) {
    const struct hs_place *task = of;
    struct hs_told told_here = {0};
    struct hs_key_handle handle = {0};
    HOLDS(hs_slicelet_hold(task, HELLO, 6, &handle, &told_here) == HS_DONE);
    for (int round = 0; round < ROUNDS; round++) {
        reads_served(task, &handle);
        reads_leases(task);
    }
    return NULL;
}

static void reads_at_once(struct hs_place *task) {
    pthread_t readers[READERS];
    for (int at = 0; at < READERS; at++)
        HOLDS(pthread_create(&readers[at], NULL, reads, task) == 0);
    for (int at = 0; at < READERS; at++)
        HOLDS(pthread_join(readers[at], NULL) == 0);
}

static void reads_others(const struct places *all) {
    const struct hs_phase first = {0, 0};
    struct hs_owners owners = {0};
    struct hs_phase phase = {9, 9};
    struct hs_row rows[2];
    uint8_t out[256];
    size_t needed = 9;
    uint32_t action = 0;
    uint64_t number = 0;
    HOLDS(hs_clerk_look(&all->clerk, HELLO, &owners) == HS_DONE && owners.tasks[0] == 1);
    HOLDS(hs_clerk_look_at(&all->clerk, hs_slice_key(ABC), &owners) == HS_DONE && owners.tasks[0] == 2);
    HOLDS(hs_table_phase(&all->table, &phase) == HS_DONE && phase.committed == 1 && phase.proposed == 0);
    HOLDS(hs_table_rows(&all->table, rows, 2, &needed) == HS_DONE && needed == 1 && rows[0].task == 1);
    HOLDS(hs_table_committed(&all->table, out, sizeof out, &needed) == HS_DONE && needed < sizeof out);
    HOLDS(hs_load_book_total(&all->book, 2, &number) == HS_DONE && number == 3);
    HOLDS(hs_assigner_next(&all->assigner, 10, &first, 1, &action, &number) == HS_DONE);
    HOLDS(action == HS_PROPOSE && number == 4);
}

static void reads_permitted(const struct hs_place *task) {
    uint64_t boundaries[2] = {1, 1};
    size_t needed = 0;
    HOLDS(hs_slicelet_permitted(task, 6, boundaries, 2, &needed) == HS_DONE && needed == 2);
    HOLDS(boundaries[0] == 0 && boundaries[1] == (uint64_t)1 << 63);
}

/* They count the copies that they make of assignments, by atomic writes beside them. */
static void reads_kept_values(const struct hs_place *table) {
    uint8_t kept[512], saved[512];
    size_t needed = 0, saved_len = 0;
    HOLDS(hs_table_kept(table, kept, sizeof kept, &needed) == HS_DONE && needed < sizeof kept);
    HOLDS(hs_table_save(table, kept, 0, 10, 50, saved, sizeof saved, &saved_len) == HS_DONE);
    HOLDS(saved_len > 0 && saved_len < sizeof saved);
    HOLDS(hs_table_save(table, saved, saved_len, 10, 50, kept, sizeof kept, &needed) == HS_DONE && needed == 0);
}

void check_readers(void) {
    struct places *all = set_apart();
    HOLDS(is_apart(all->task.at) && is_apart(all->clerk.at) && is_apart(all->table.at));
    HOLDS(is_apart(all->book.at) && is_apart(all->assigner.at));
    size_t before = allocations;
    protect_memory(PROT_READ);
    reads_at_once(&all->task);
    HOLDS(allocations == before);
    reads_others(all);
    protect_memory(PROT_READ | PROT_WRITE);
    reads_permitted(&all->task);
    reads_kept_values(&all->table);
    hs_place_free(&all->task);
    hs_place_free(&all->clerk);
    hs_place_free(&all->table);
    hs_place_free(&all->book);
    hs_place_free(&all->assigner);
    drop_memory();
}
