/* The natives of hourstable.Native. A place is passed as the address of its struct, and `out` takes the numbers that a
 * call writes: the first five of hs_told, or as said. A native that returns an array tells its code as the sixth number
 * of `out`; each other one but the first four and boottimeTicks returns it. */
#define _POSIX_C_SOURCE 200809L /* for clock_gettime */
#include "hourstable.h"

#include <jni.h>
#include <stdlib.h>
#include <time.h>

#define NATIVE(type, name) JNIEXPORT type JNICALL Java_hourstable_Native_##name
#define PLACE(address) ((struct hs_place *)(intptr_t)(address))

/* The bytes of a Java array: in `room` if they fit, else in a block of their own; null if there is no memory. */
struct bytes {
    uint8_t *at;
    size_t length;
    uint8_t room[256];
};

static uint8_t *take(JNIEnv *env, jbyteArray array, struct bytes *bytes) {
    bytes->length = (size_t)(*env)->GetArrayLength(env, array);
    bytes->at = bytes->length <= sizeof bytes->room ? bytes->room : malloc(bytes->length);
    if (bytes->at)
        (*env)->GetByteArrayRegion(env, array, 0, (jsize)bytes->length, (jbyte *)bytes->at);
    return bytes->at;
}

static jint drop(struct bytes *bytes, jint code) {
    if (bytes->at != bytes->room)
        free(bytes->at);
    return code;
}

static jint tell(JNIEnv *env, jlongArray out, const void *numbers, jsize count, jint code) {
    (*env)->SetLongArrayRegion(env, out, 0, count, numbers);
    return code;
}

NATIVE(jlong, placeNew)(JNIEnv *env, jclass self) {
    (void)env, (void)self;
    struct hs_place *place = calloc(1, sizeof *place);
    if (place && hs_place_new(place) != HS_DONE) {
        free(place);
        place = NULL;
    }
    return (jlong)(intptr_t)place;
}

NATIVE(void, placeFree)(JNIEnv *env, jclass self, jlong place) {
    (void)env, (void)self;
    hs_place_free(PLACE(place));
    free(PLACE(place));
}

NATIVE(jstring, codeName)(JNIEnv *env, jclass self, jint code) {
    (void)self;
    return (*env)->NewStringUTF(env, hs_code_name(code));
}

/* -1 if there is no memory: a slice key is below 2^63. */
NATIVE(jlong, sliceKey)(JNIEnv *env, jclass self, jbyteArray key) {
    (void)self;
    struct bytes it;
    uint64_t hashed = take(env, key, &it) ? hs_slice_key(it.at, it.length) : UINT64_MAX;
    drop(&it, 0);
    return (jlong)hashed;
}

/* `life` is 0 for a new slicelet, and otherwise the greatest life that the task ever started. */
NATIVE(jint, sliceletOpen)(JNIEnv *env, jclass self, jlong place, jbyteArray job, jlong task, jint life) {
    (void)self;
    struct bytes it;
    if (!take(env, job, &it))
        return HS_NO_MEMORY;
    return drop(&it, life == 0 ? hs_slicelet_open(PLACE(place), it.at, it.length, (uint64_t)task)
                               : hs_slicelet_resume(PLACE(place), it.at, it.length, (uint64_t)task, (uint32_t)life));
}

NATIVE(jint, sliceletStart)(JNIEnv *env, jclass self, jlong place, jint life, jlong at) {
    (void)env, (void)self;
    return hs_slicelet_start(PLACE(place), (uint32_t)life, (uint64_t)at);
}

NATIVE(jint, sliceletHear)(JNIEnv *env, jclass self, jlong place, jbyteArray grant, jlong at, jlongArray out) {
    (void)self;
    struct bytes it;
    struct hs_told told = {0};
    if (!take(env, grant, &it))
        return HS_NO_MEMORY;
    jint code = drop(&it, hs_slicelet_hear(PLACE(place), it.at, it.length, (uint64_t)at, &told));
    return tell(env, out, &told, 5, code);
}

/* out[0] is the length of the note. A note is at most 122 bytes and 64 of the job's name, each of at most 6 bytes. */
NATIVE(jint, sliceletRelease)(JNIEnv *env, jclass self, jlong place, jint kind, jlong at, jbyteArray note,
                              jlongArray out) {
    (void)self;
    uint8_t room[512];
    size_t needed = 0;
    jint code = hs_slicelet_release(PLACE(place), (uint32_t)kind, (uint64_t)at, room, sizeof room, &needed);
    if (code == HS_DONE)
        (*env)->SetByteArrayRegion(env, note, 0, (jsize)needed, (const jbyte *)room);
    return tell(env, out, &(jlong){(jlong)needed}, 1, code);
}

/* `out` is all six numbers of hs_told. */
NATIVE(jint, sliceletServe)(JNIEnv *env, jclass self, jlong place, jbyteArray key, jlong at, jlongArray out) {
    (void)self;
    struct bytes it;
    struct hs_told told = {0};
    if (!take(env, key, &it))
        return HS_NO_MEMORY;
    jint code = drop(&it, hs_slicelet_serve(PLACE(place), it.at, it.length, (uint64_t)at, &told));
    return tell(env, out, &told, 6, code);
}

/* `out` is the six numbers of hs_told, and the task, slice key, position and life of the handle. */
NATIVE(jint, sliceletHold)(JNIEnv *env, jclass self, jlong place, jbyteArray key, jlong at, jlongArray out) {
    (void)self;
    struct bytes it;
    struct hs_told told = {0};
    struct hs_key_handle handle = {0};
    if (!take(env, key, &it))
        return HS_NO_MEMORY;
    jint code = drop(&it, hs_slicelet_hold(PLACE(place), it.at, it.length, (uint64_t)at, &handle, &told));
    jlong numbers[] = {(jlong)handle.task, (jlong)handle.slice_key, (jlong)handle.position, (jlong)handle.life};
    (*env)->SetLongArrayRegion(env, out, 6, 4, numbers);
    return tell(env, out, &told, 6, code);
}

NATIVE(jint, sliceletCheck)(JNIEnv *env, jclass self, jlong place, jlong task, jlong slice_key, jlong position,
                            jint life, jlong at) {
    (void)env, (void)self;
    struct hs_key_handle handle = {(uint64_t)task, (uint64_t)slice_key, (uint64_t)position, (uint32_t)life};
    return hs_slicelet_check(PLACE(place), &handle, (uint64_t)at);
}

/* `out` takes the 16 bytes of the token. */
NATIVE(jint, sliceletToken)(JNIEnv *env, jclass self, jlong place, jlong most, jint epoch, jbyteArray key, jlong at,
                            jbyteArray out) {
    (void)self;
    struct bytes it;
    struct hs_token token = {{0}};
    if (!take(env, key, &it))
        return HS_NO_MEMORY;
    jint code = drop(
        &it, hs_slicelet_token(PLACE(place), (uint64_t)most, (uint32_t)epoch, it.at, it.length, (uint64_t)at, &token));
    (*env)->SetByteArrayRegion(env, out, 0, sizeof token.bytes, (const jbyte *)token.bytes);
    return code;
}

/* `greatest` has 16 bytes, and so has `token`. */
NATIVE(jint, fenceAccept)(JNIEnv *env, jclass self, jbyteArray greatest, jbyteArray token) {
    (void)self;
    struct hs_token kept, offered;
    (*env)->GetByteArrayRegion(env, greatest, 0, sizeof kept.bytes, (jbyte *)kept.bytes);
    (*env)->GetByteArrayRegion(env, token, 0, sizeof offered.bytes, (jbyte *)offered.bytes);
    jint code = hs_fence_accept(&kept, &offered);
    (*env)->SetByteArrayRegion(env, greatest, 0, sizeof kept.bytes, (const jbyte *)kept.bytes);
    return code;
}

/* A call of a block: its clock, what it passes and writes, and its line. */
struct block_call {
    struct hs_task_clock clock;
    struct hs_block block;
    uint8_t *line;
    size_t length;
    size_t needed;
    uint8_t room[512];
};

/* Takes the arrays of a call of a block, and returns the room for its line, null if there is no memory. */
static uint8_t *begin_block(JNIEnv *env, struct block_call *call, jlongArray clock, jlongArray block, jbyteArray line) {
    (*env)->GetLongArrayRegion(env, clock, 0, sizeof call->clock / 8, (jlong *)&call->clock);
    (*env)->GetLongArrayRegion(env, block, 0, sizeof call->block / 8, (jlong *)&call->block);
    call->length = (size_t)(*env)->GetArrayLength(env, line);
    call->needed = SIZE_MAX;
    call->line = call->length <= sizeof call->room ? call->room : malloc(call->length);
    return call->line;
}

/* Gives back the arrays of a call of a block. The number after those of the block is how many bytes its line has or needs,
 * and -1 if no call was made. */
static jint end_block(JNIEnv *env, struct block_call *call, jlongArray clock, jlongArray block, jbyteArray line,
                      jint code) {
    jlong length = call->needed == SIZE_MAX ? -1 : (jlong)call->needed;
    if (code >= 0 && length > 0)
        (*env)->SetByteArrayRegion(env, line, 0, (jsize)length, (const jbyte *)call->line);
    if (code < 0 && code != HS_NO_ROOM)
        length = -1;
    (*env)->SetLongArrayRegion(env, clock, 0, sizeof call->clock / 8, (const jlong *)&call->clock);
    (*env)->SetLongArrayRegion(env, block, 0, sizeof call->block / 8, (const jlong *)&call->block);
    (*env)->SetLongArrayRegion(env, block, sizeof call->block / 8, 1, &length);
    if (call->line != call->room)
        free(call->line);
    return code;
}

NATIVE(jint, sliceletEnter)(JNIEnv *env, jclass self, jlong place, jlongArray clock, jlong now, jbyteArray key,
                            jlongArray block, jbyteArray line) {
    (void)self;
    struct bytes it;
    struct block_call call;
    jint code = HS_NO_MEMORY;
    if (!take(env, key, &it))
        return HS_NO_MEMORY;
    if (begin_block(env, &call, clock, block, line)) {
        call.block.told = (struct hs_told){0};
        code = hs_slicelet_enter(PLACE(place), &call.clock, (uint64_t)now, it.at, it.length, &call.block, call.line,
                                 call.length, &call.needed);
        end_block(env, &call, clock, block, line, code);
    }
    return drop(&it, code);
}

NATIVE(jint, sliceletLeave)(JNIEnv *env, jclass self, jlong place, jlongArray clock, jlong now, jlongArray block,
                            jbyteArray line) {
    (void)self;
    struct block_call call;
    if (!begin_block(env, &call, clock, block, line))
        return HS_NO_MEMORY;
    jint code =
        hs_slicelet_leave(PLACE(place), &call.clock, (uint64_t)now, &call.block, call.line, call.length, &call.needed);
    return end_block(env, &call, clock, block, line, code);
}

NATIVE(jlong, boottimeTicks)(JNIEnv *env, jclass self) {
    (void)env, (void)self;
    struct timespec now = {0};
    clock_gettime(CLOCK_BOOTTIME, &now);
    return (jlong)now.tv_sec * 1000 + now.tv_nsec / 1000000;
}

static struct hs_task_clock clock_of(JNIEnv *env, jlongArray numbers) {
    struct hs_task_clock clock;
    (*env)->GetLongArrayRegion(env, numbers, 0, sizeof clock / 8, (jlong *)&clock);
    return clock;
}

NATIVE(jint, taskClockNew)(JNIEnv *env, jclass self, jlongArray clock, jlong extra, jlong per, jlong grain,
                           jlong oldest) {
    (void)self;
    struct hs_task_clock made = {0};
    jint code = hs_task_clock_new(&made, (uint64_t)extra, (uint64_t)per, (uint64_t)grain, (uint64_t)oldest);
    return tell(env, clock, &made, sizeof made / 8, code);
}

NATIVE(jint, taskClockSample)(JNIEnv *env, jclass self, jlongArray clock, jlong sent, jlong reading, jlong now) {
    (void)self;
    struct hs_task_clock read = clock_of(env, clock);
    jint code = hs_task_clock_sample(&read, (uint64_t)sent, (uint64_t)reading, (uint64_t)now);
    return tell(env, clock, &read, sizeof read / 8, code);
}

NATIVE(jint, taskClockRead)(JNIEnv *env, jclass self, jlongArray clock, jlong now, jlongArray out) {
    (void)self;
    struct hs_task_clock read = clock_of(env, clock);
    uint64_t value = 0;
    jint code = hs_task_clock_read(&read, (uint64_t)now, &value);
    tell(env, clock, &read, sizeof read / 8, code);
    return tell(env, out, &value, 1, code);
}

/* The text that a call writes: in `room` if it fits, else in a block of its own. */
struct text {
    uint8_t *at;
    size_t length;
    size_t needed;
    uint8_t room[1024];
};

static void begin(struct text *text) {
    text->at = text->room;
    text->length = sizeof text->room;
    text->needed = 0;
}

/* Whether a call that found no room is made again, with more. */
static int is_again(struct text *text, jint *code) {
    if (*code != HS_NO_ROOM)
        return 0;
    if (text->at != text->room)
        free(text->at);
    text->length = text->needed;
    text->at = malloc(text->length);
    if (!text->at)
        *code = HS_NO_MEMORY;
    return text->at != NULL;
}

/* Makes a call that writes a text to `text`. */
#define WRITE(code, text, call)                                                                                        \
    do                                                                                                                 \
        (code) = (call);                                                                                               \
    while (is_again(&(text), &(code)))
#define INTO(text) (text).at, (text).length, &(text).needed

/* Tells a code as the sixth number, and returns the text of a call that is done. */
static jbyteArray written(JNIEnv *env, jlongArray out, struct text *text, jint code) {
    jbyteArray made = NULL;
    (*env)->SetLongArrayRegion(env, out, 5, 1, &(jlong){code});
    if (code == HS_DONE)
        made = (*env)->NewByteArray(env, (jsize)text->needed);
    if (made)
        (*env)->SetByteArrayRegion(env, made, 0, (jsize)text->needed, (const jbyte *)text->at);
    if (text->at != text->room)
        free(text->at);
    return made;
}

/* The numbers of hs_grant, and then the boundaries of its ranges; the sixth number of `out` is the code. */
NATIVE(jlongArray, grantRead)(JNIEnv *env, jclass self, jbyteArray job, jbyteArray grant, jlongArray out) {
    (void)self;
    struct bytes name, it;
    struct hs_grant read = {0};
    uint64_t room[64], *edges = room;
    size_t needed = 0;
    jlongArray made = NULL;
    jint code = take(env, job, &name) ? HS_DONE : HS_NO_MEMORY;
    if (!take(env, grant, &it))
        code = HS_NO_MEMORY;
    if (code == HS_DONE)
        code = hs_grant_read(name.at, name.length, it.at, it.length, &read, room, 64, &needed);
    if (code == HS_NO_ROOM) {
        edges = malloc(needed * sizeof *edges);
        code = HS_NO_MEMORY;
        if (edges)
            code = hs_grant_read(name.at, name.length, it.at, it.length, &read, edges, needed, &needed);
    }
    (*env)->SetLongArrayRegion(env, out, 5, 1, &(jlong){code});
    if (code == HS_DONE)
        made = (*env)->NewLongArray(env, (jsize)(7 + needed));
    if (made) {
        (*env)->SetLongArrayRegion(env, made, 0, 7, (const jlong *)&read);
        (*env)->SetLongArrayRegion(env, made, 7, (jsize)needed, (const jlong *)edges);
    }
    if (edges != room)
        free(edges);
    drop(&it, 0);
    drop(&name, 0);
    return made;
}

static struct hs_policy policy_of(JNIEnv *env, jlongArray numbers) {
    struct hs_policy policy;
    (*env)->GetLongArrayRegion(env, numbers, 0, 7, (jlong *)&policy);
    return policy;
}

/* The number after those of the receipt is as that of a block. */
NATIVE(jint, sliceletReceive)(JNIEnv *env, jclass self, jlong place, jlongArray clock, jlong now, jlongArray policy,
                              jbyteArray grant, jlongArray receipt, jbyteArray line) {
    (void)self;
    struct bytes it;
    struct hs_task_clock read = clock_of(env, clock);
    struct hs_policy given = policy_of(env, policy);
    struct hs_receipt made = {0};
    size_t length = (size_t)(*env)->GetArrayLength(env, line), needed = SIZE_MAX;
    uint8_t none, *room = length ? malloc(length) : &none;
    jint code = HS_NO_MEMORY;
    (*env)->GetLongArrayRegion(env, receipt, 0, sizeof made / 8, (jlong *)&made);
    if (take(env, grant, &it)) {
        if (room)
            code = hs_slicelet_receive(PLACE(place), &read, (uint64_t)now, &given, it.at, it.length, &made, room,
                                       length, &needed);
        drop(&it, code);
    }
    jlong told = needed == SIZE_MAX || (code < 0 && code != HS_NO_ROOM) ? -1 : (jlong)needed;
    if (code >= 0 && told > 0)
        (*env)->SetByteArrayRegion(env, line, 0, (jsize)told, (const jbyte *)room);
    (*env)->SetLongArrayRegion(env, clock, 0, sizeof read / 8, (const jlong *)&read);
    (*env)->SetLongArrayRegion(env, receipt, 0, sizeof made / 8, (const jlong *)&made);
    (*env)->SetLongArrayRegion(env, receipt, sizeof made / 8, 1, &told);
    if (room != &none)
        free(room);
    return code;
}

NATIVE(jint, tableOpen)(JNIEnv *env, jclass self, jlong place, jbyteArray job, jlongArray policy) {
    (void)self;
    struct bytes it;
    struct hs_policy given = policy_of(env, policy);
    return take(env, job, &it) ? drop(&it, hs_table_open(PLACE(place), it.at, it.length, &given)) : HS_NO_MEMORY;
}

NATIVE(jint, tableRestore)(JNIEnv *env, jclass self, jlong place, jbyteArray job, jlongArray policy, jbyteArray kept,
                           jlongArray out) {
    (void)self;
    struct bytes name, it;
    struct hs_told told = {0};
    struct hs_policy given = policy_of(env, policy);
    if (!take(env, job, &name))
        return HS_NO_MEMORY;
    jint code = HS_NO_MEMORY;
    if (take(env, kept, &it))
        code = drop(&it, hs_table_restore(PLACE(place), name.at, name.length, &given, it.at, it.length, &told));
    return tell(env, out, &told, 5, drop(&name, code));
}

NATIVE(jbyteArray, tableKept)(JNIEnv *env, jclass self, jlong place, jlongArray out) {
    (void)self;
    struct text text;
    jint code;
    begin(&text);
    WRITE(code, text, hs_table_kept(PLACE(place), INTO(text)));
    return written(env, out, &text, code);
}

NATIVE(jbyteArray, tableSave)(JNIEnv *env, jclass self, jlong place, jbyteArray saved, jlong grants, jlong ticks,
                              jlongArray out) {
    (void)self;
    struct bytes it;
    struct text text;
    jint code = HS_NO_MEMORY;
    begin(&text);
    if (take(env, saved, &it))
        WRITE(code, text, hs_table_save(PLACE(place), it.at, it.length, (uint64_t)grants, (uint64_t)ticks, INTO(text)));
    drop(&it, 0);
    return written(env, out, &text, code);
}

/* If it is done, `out` is the number, assigner and end of the term; otherwise it is what is told. */
static jint tell_term(JNIEnv *env, jlongArray out, const struct hs_job_term *term, const struct hs_told *told,
                      jint code) {
    return code == HS_DONE ? tell(env, out, term, 3, code) : tell(env, out, told, 5, code);
}

NATIVE(jint, tableTake)(JNIEnv *env, jclass self, jlong place, jlong assigner, jlong at, jlongArray out) {
    (void)self;
    struct hs_told told = {0};
    struct hs_job_term term = {0};
    jint code = hs_table_take(PLACE(place), (uint64_t)assigner, (uint64_t)at, &term, &told);
    return tell_term(env, out, &term, &told, code);
}

NATIVE(jint, tableRenew)(JNIEnv *env, jclass self, jlong place, jlong number, jlong at, jlongArray out) {
    (void)self;
    struct hs_told told = {0};
    struct hs_job_term term = {0};
    jint code = hs_table_renew(PLACE(place), (uint64_t)number, (uint64_t)at, &term, &told);
    return tell_term(env, out, &term, &told, code);
}

NATIVE(jint, tablePropose)(JNIEnv *env, jclass self, jlong place, jlong number, jbyteArray assignment, jlong at,
                           jlongArray out) {
    (void)self;
    struct bytes it;
    struct hs_told told = {0};
    if (!take(env, assignment, &it))
        return HS_NO_MEMORY;
    jint code = drop(&it, hs_table_propose(PLACE(place), (uint64_t)number, it.at, it.length, (uint64_t)at, &told));
    return tell(env, out, &told, 5, code);
}

NATIVE(jint, tableCommit)(JNIEnv *env, jclass self, jlong place, jlong number, jlong at, jlongArray out) {
    (void)self;
    struct hs_told told = {0};
    jint code = hs_table_commit(PLACE(place), (uint64_t)number, (uint64_t)at, &told);
    return tell(env, out, &told, 5, code);
}

NATIVE(jbyteArray, tableGrant)(JNIEnv *env, jclass self, jlong place, jlong task, jint life, jlong at, jlongArray out) {
    (void)self;
    struct text text;
    jint code;
    begin(&text);
    WRITE(code, text, hs_table_grant(PLACE(place), (uint64_t)task, (uint32_t)life, (uint64_t)at, INTO(text)));
    return written(env, out, &text, code);
}

/* If it is done, out[0] is how many rows were freed; otherwise `out` is what is told. */
NATIVE(jint, tableFree)(JNIEnv *env, jclass self, jlong place, jbyteArray note, jlong at, jlongArray out) {
    (void)self;
    struct bytes it;
    struct hs_told told = {0};
    uint64_t freed = 0;
    if (!take(env, note, &it))
        return HS_NO_MEMORY;
    jint code = drop(&it, hs_table_free(PLACE(place), it.at, it.length, (uint64_t)at, &freed, &told));
    return code == HS_DONE ? tell(env, out, &freed, 1, code) : tell(env, out, &told, 5, code);
}

NATIVE(jint, tableRestart)(JNIEnv *env, jclass self, jlong place, jlongArray out) {
    (void)self;
    uint64_t lost = 0;
    jint code = hs_table_restart(PLACE(place), &lost);
    return tell(env, out, &lost, 1, code);
}

NATIVE(jint, tablePhase)(JNIEnv *env, jclass self, jlong place, jlongArray out) {
    (void)self;
    struct hs_phase phase = {0};
    jint code = hs_table_phase(PLACE(place), &phase);
    return tell(env, out, &phase, 2, code);
}

/* The six numbers of each row; the sixth number of `out` is the code. */
NATIVE(jlongArray, tableRows)(JNIEnv *env, jclass self, jlong place, jlongArray out) {
    (void)self;
    struct hs_row room[64], *rows = room;
    size_t needed = 0;
    jlongArray made = NULL;
    jint code = hs_table_rows(PLACE(place), room, 64, &needed);
    if (code == HS_NO_ROOM) {
        rows = malloc(needed * sizeof *rows);
        code = rows ? hs_table_rows(PLACE(place), rows, needed, &needed) : HS_NO_MEMORY;
    }
    (*env)->SetLongArrayRegion(env, out, 5, 1, &(jlong){code});
    if (code == HS_DONE)
        made = (*env)->NewLongArray(env, (jsize)(6 * needed));
    if (made)
        (*env)->SetLongArrayRegion(env, made, 0, (jsize)(6 * needed), (const jlong *)rows);
    if (rows != room)
        free(rows);
    return made;
}

NATIVE(jbyteArray, tableCommitted)(JNIEnv *env, jclass self, jlong place, jlongArray out) {
    (void)self;
    struct text text;
    jint code;
    begin(&text);
    WRITE(code, text, hs_table_committed(PLACE(place), INTO(text)));
    return written(env, out, &text, code);
}

NATIVE(jint, clerkOpen)(JNIEnv *env, jclass self, jlong place, jbyteArray job) {
    (void)self;
    struct bytes it;
    return take(env, job, &it) ? drop(&it, hs_clerk_open(PLACE(place), it.at, it.length)) : HS_NO_MEMORY;
}

NATIVE(jint, clerkLearn)(JNIEnv *env, jclass self, jlong place, jbyteArray assignment, jlongArray out) {
    (void)self;
    struct bytes it;
    struct hs_told told = {0};
    if (!take(env, assignment, &it))
        return HS_NO_MEMORY;
    jint code = drop(&it, hs_clerk_learn(PLACE(place), it.at, it.length, &told));
    return tell(env, out, &told, 5, code);
}

/* `out` is the generation, how many owners there are, and the owners. */
NATIVE(jint, clerkLook)(JNIEnv *env, jclass self, jlong place, jbyteArray key, jlongArray out) {
    (void)self;
    struct bytes it;
    struct hs_owners owners = {0};
    if (!take(env, key, &it))
        return HS_NO_MEMORY;
    jint code = drop(&it, hs_clerk_look(PLACE(place), it.at, it.length, &owners));
    return tell(env, out, &owners, 7, code);
}

NATIVE(jint, clerkForget)(JNIEnv *env, jclass self, jlong place) {
    (void)env, (void)self;
    return hs_clerk_forget(PLACE(place));
}
