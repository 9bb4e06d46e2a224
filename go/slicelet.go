package hourstable

/*
#include "hourstable.h"

// The calls that a task makes for each request return what they write by value,
// so that it does not escape to Go's heap.
struct served {
    int32_t code;
    struct hs_told told;
};

static struct served serve(const struct hs_place *place, const uint8_t *key, size_t key_len, uint64_t at) {
    struct served it = {0};
    it.code = hs_slicelet_serve(place, key, key_len, at, &it.told);
    return it;
}

static struct served serve_at(const struct hs_place *place, uint64_t slice_key, uint64_t at) {
    struct served it = {0};
    it.code = hs_slicelet_serve_at(place, slice_key, at, &it.told);
    return it;
}

struct held {
    int32_t code;
    struct hs_told told;
    struct hs_key_handle handle;
};

static struct held hold(const struct hs_place *place, const uint8_t *key, size_t key_len, uint64_t at) {
    struct held it = {0};
    it.code = hs_slicelet_hold(place, key, key_len, at, &it.handle, &it.told);
    return it;
}

static struct held hold_at(const struct hs_place *place, uint64_t slice_key, uint64_t at) {
    struct held it = {0};
    it.code = hs_slicelet_hold_at(place, slice_key, at, &it.handle, &it.told);
    return it;
}

static int32_t check(const struct hs_place *place, struct hs_key_handle handle, uint64_t at) {
    return hs_slicelet_check(place, &handle, at);
}
*/
import "C"

// Slicelet knows the leases of a server task, and decides whether the task may
// serve a key. Readings are those of the task's clock.
type Slicelet struct{ place }

// Served is the lease under which a key is served.
type Served struct {
	Kind       Kind
	Generation uint64 // that it was granted for
	Number     uint64 // of its grant
	Until      uint64 // the first reading of the task's clock at which it has ended

	// Covering is the greatest generation of the held leases that cover the key, live
	// or ended. It may be above Generation.
	Covering uint64
}

// Handle is a key that the task held when it took the handle.
type Handle struct {
	Task     uint64
	SliceKey uint64
	Position uint64
	Life     uint32
}

// Lease is a lease that a task holds.
type Lease struct {
	Number     uint64 // of its grant
	Generation uint64 // that it was granted for
	Until      uint64 // the first reading of the task's clock at which it has ended
}

// TaskAction is what a task does next about its leases.
type TaskAction uint32

// What a task does next: start a life, ask the table for a grant, release the
// lease of a kind and send its note to the table, or nothing.
const (
	StartLife    = TaskAction(C.HS_START)
	AskGuard     = TaskAction(C.HS_ASK_GUARD)
	AskBridge    = TaskAction(C.HS_ASK_BRIDGE)
	GiveUpGuard  = TaskAction(C.HS_GIVE_UP_GUARD)
	GiveUpBridge = TaskAction(C.HS_GIVE_UP_BRIDGE)
	TaskRest     = TaskAction(C.HS_TASK_REST)
)

// NewSlicelet returns the slicelet of a task of a job. The name of the job has at
// most 64 bytes of UTF-8, and task is 1 to 64: otherwise ErrWrongForm.
func NewSlicelet(job string, task uint64) (*Slicelet, error) {
	name, slicelet := []byte(job), new(Slicelet)
	return opened(slicelet, &slicelet.place, func(place *C.struct_hs_place) error {
		return done(C.hs_slicelet_open(place, first(name), C.size_t(len(name)), C.uint64_t(task)), nil)
	})
}

// ResumeSlicelet returns the slicelet of a task's new process. life is the
// greatest life that the task ever started, or a greater one: only lives above it
// are started. Never call it beside a process of the task that may still run.
func ResumeSlicelet(job string, task uint64, life uint32) (*Slicelet, error) {
	name, slicelet := []byte(job), new(Slicelet)
	return opened(slicelet, &slicelet.place, func(place *C.struct_hs_place) error {
		return done(C.hs_slicelet_resume(place, first(name), C.size_t(len(name)), C.uint64_t(task), C.uint32_t(life)), nil)
	})
}

// EndedNote returns the note of a job that gives back all leases of a kind of a
// life that ended with its process. No process of the task in this life may
// still run.
func EndedNote(job string, task uint64, life uint32, kind Kind) ([]byte, error) {
	name := []byte(job)
	return text(noteRoom, func(to buffer) C.int32_t {
		return C.hs_ended_note(first(name), C.size_t(len(name)), C.uint64_t(task), C.uint32_t(life),
			C.uint32_t(kind), to.at, to.length, to.needed)
	})
}

// Range is a run of slice keys, from First up to End, which it does not have.
type Range struct{ First, End uint64 }

// Grant is what the message of a grant says.
type Grant struct {
	Number     uint64
	Task       uint64
	Life       uint64
	Kind       Kind
	Generation uint64
	Ends       uint64  // the first reading of the task's clock at which its lease has ended
	TableEnds  uint64  // the first reading of the table's clock at which it has
	Ranges     []Range // they rise, and do not touch
}

// ReadGrant reads a grant of a job from its message. Its task holds the ranges once it
// has heard the grant, until it hears another one of its kind or releases the lease.
// ErrWrongForm if the name is not that of a job, codes of messages.
func ReadGrant(job string, message []byte) (Grant, error) {
	name, edges := []byte(job), make([]uint64, 64)
	for {
		var out C.struct_hs_grant
		var needed C.size_t
		code := C.hs_grant_read(first(name), C.size_t(len(name)), first(message), C.size_t(len(message)), &out,
			firstNumber(edges), C.size_t(len(edges)), &needed)
		switch code {
		case C.HS_DONE:
			return grantOf(out, edges[:needed]), nil
		case C.HS_NO_ROOM:
			edges = make([]uint64, needed)
		default:
			return Grant{}, done(code, nil)
		}
	}
}

func grantOf(it C.struct_hs_grant, edges []uint64) Grant {
	return Grant{uint64(it.number), uint64(it.task), uint64(it.life), Kind(it.kind), uint64(it.generation),
		uint64(it.ends), uint64(it.table_ends), rangesOf(edges)}
}

func rangesOf(edges []uint64) []Range {
	ranges := make([]Range, 0, len(edges)/2)
	for at := 0; at+1 < len(edges); at += 2 {
		ranges = append(ranges, Range{edges[at], edges[at+1]})
	}
	return ranges
}

// noteRoom is enough for every note.
const noteRoom = 512

// Start starts a life of the task, which holds no lease yet. ErrOldLife,
// ErrClockBack, ErrHistoryFull.
func (s *Slicelet) Start(life uint32, at uint64) error {
	s.mutex.Lock()
	defer s.mutex.Unlock()
	return done(C.hs_slicelet_start(&s.c, C.uint32_t(life), C.uint64_t(at)), nil)
}

// Hear hears a grant, given as its message: its lease replaces the held one of its
// kind. Codes of messages, then ErrNotStarted, ErrClockBack, ErrOtherTask,
// ErrOtherLife, ErrOld, ErrTooLate, ErrHistoryFull, ErrNoMemory.
func (s *Slicelet) Hear(grant []byte, at uint64) error {
	s.mutex.Lock()
	defer s.mutex.Unlock()
	var told C.struct_hs_told
	return done(C.hs_slicelet_hear(&s.c, first(grant), C.size_t(len(grant)), C.uint64_t(at), &told), &told)
}

// Release gives up the lease of a kind, and returns the message of its note, for
// the table. It waits until no Serving runs. ErrWrongForm, ErrNotStarted,
// ErrClockBack, ErrNothingHeld, ErrHistoryFull, ErrNoMemory: the lease is still
// held.
func (s *Slicelet) Release(kind Kind, at uint64) ([]byte, error) {
	s.mutex.Lock()
	defer s.mutex.Unlock()
	return text(noteRoom, func(to buffer) C.int32_t {
		return C.hs_slicelet_release(&s.c, C.uint32_t(kind), C.uint64_t(at), to.at, to.length, to.needed)
	})
}

// Serve returns the lease under which the task may serve a key now, or ErrDown,
// ErrClockBack, ErrEnded, ErrNotOwned or ErrNoLease. Once it has returned, another
// goroutine may release the lease: answer within Serving if one may.
func (s *Slicelet) Serve(key []byte, at uint64) (Served, error) {
	s.mutex.RLock()
	defer s.mutex.RUnlock()
	return s.serve(key, at)
}

// Serving calls answer if the task may serve a key, and returns its error. The
// lease is not released until answer returns: Start, Hear, Release and Close wait
// for it. answer must call none of them, nor Serving again.
func (s *Slicelet) Serving(key []byte, at uint64, answer func(Served) error) error {
	s.mutex.RLock()
	defer s.mutex.RUnlock()
	served, err := s.serve(key, at)
	if err != nil {
		return err
	}
	return answer(served)
}

func (s *Slicelet) serve(key []byte, at uint64) (Served, error) {
	return servedBy(C.serve(&s.c, first(key), C.size_t(len(key)), C.uint64_t(at)))
}

// ServeAt is Serve by slice key, without the hash of the key. ErrWrongForm if no
// key has this slice key, which is 2^63 or more.
func (s *Slicelet) ServeAt(sliceKey, at uint64) (Served, error) {
	s.mutex.RLock()
	defer s.mutex.RUnlock()
	return servedBy(C.serve_at(&s.c, C.uint64_t(sliceKey), C.uint64_t(at)))
}

func servedBy(it C.struct_served) (Served, error) {
	if it.code != C.HS_DONE {
		told := it.told
		return Served{}, done(it.code, &told)
	}
	return leaseOf(it.told), nil
}

func leaseOf(told C.struct_hs_told) Served {
	return Served{Kind(told.kind), uint64(told.generation), uint64(told.number), uint64(told.until),
		uint64(told.covering)}
}

// Hold takes a handle on a key if the task may serve it, and otherwise returns the
// code of Serve.
func (s *Slicelet) Hold(key []byte, at uint64) (Handle, error) {
	handle, _, err := s.HoldServed(key, at)
	return handle, err
}

// HoldAt is Hold by slice key, without the hash of the key.
func (s *Slicelet) HoldAt(sliceKey, at uint64) (Handle, error) {
	handle, _, err := s.HoldServedAt(sliceKey, at)
	return handle, err
}

// HoldServed is Hold, and returns the lease too, as Serve does.
func (s *Slicelet) HoldServed(key []byte, at uint64) (Handle, Served, error) {
	s.mutex.RLock()
	defer s.mutex.RUnlock()
	return heldBy(C.hold(&s.c, first(key), C.size_t(len(key)), C.uint64_t(at)))
}

// HoldServedAt is HoldServed by slice key, without the hash of the key.
func (s *Slicelet) HoldServedAt(sliceKey, at uint64) (Handle, Served, error) {
	s.mutex.RLock()
	defer s.mutex.RUnlock()
	return heldBy(C.hold_at(&s.c, C.uint64_t(sliceKey), C.uint64_t(at)))
}

func heldBy(it C.struct_held) (Handle, Served, error) {
	if it.code != C.HS_DONE {
		told := it.told
		return Handle{}, Served{}, done(it.code, &told)
	}
	return handleOf(it.handle), leaseOf(it.told), nil
}

func handleOf(it C.struct_hs_key_handle) Handle {
	return Handle{uint64(it.task), uint64(it.slice_key), uint64(it.position), uint32(it.life)}
}

func (h Handle) c() C.struct_hs_key_handle {
	return C.struct_hs_key_handle{task: C.uint64_t(h.Task), slice_key: C.uint64_t(h.SliceKey),
		position: C.uint64_t(h.Position), life: C.uint32_t(h.Life)}
}

// Check returns nil if the task has held the key of a handle without a break since
// it took the handle, and may serve it now. ErrWrongForm, ErrStranger, ErrBroken.
func (s *Slicelet) Check(handle Handle, at uint64) error {
	s.mutex.RLock()
	defer s.mutex.RUnlock()
	return done(C.check(&s.c, handle.c(), C.uint64_t(at)), nil)
}

// Held returns the lease of a kind that the task holds, which may have ended.
// ErrWrongForm, ErrNothingHeld.
func (s *Slicelet) Held(kind Kind) (Lease, error) {
	s.mutex.RLock()
	defer s.mutex.RUnlock()
	var out C.struct_hs_held_lease
	code := C.hs_slicelet_held(&s.c, C.uint32_t(kind), &out)
	return Lease{uint64(out.number), uint64(out.generation), uint64(out.until)}, done(code, nil)
}

// Permitted returns the ranges of the slice keys that the task may serve at a reading;
// they rise, and do not touch. What it gained and lost by Hear or Release is how they
// differ before and after it. ErrNoMemory.
func (s *Slicelet) Permitted(at uint64) ([]Range, error) {
	s.mutex.RLock()
	defer s.mutex.RUnlock()
	edges := make([]uint64, 64)
	for {
		var needed C.size_t
		code := C.hs_slicelet_permitted(&s.c, C.uint64_t(at), firstNumber(edges), C.size_t(len(edges)), &needed)
		switch code {
		case C.HS_DONE:
			return rangesOf(edges[:needed]), nil
		case C.HS_NO_ROOM:
			edges = make([]uint64, needed)
		default:
			return nil, done(code, nil)
		}
	}
}

// Next returns what the task does next about its leases, in a phase of the table.
// It does not ask before a lease ends: ask before that, by Until of Held.
// ErrWrongForm.
func (s *Slicelet) Next(phase Phase, at uint64) (TaskAction, error) {
	s.mutex.RLock()
	defer s.mutex.RUnlock()
	given, action := phase.c(), C.uint32_t(0)
	code := C.hs_slicelet_next(&s.c, &given, C.uint64_t(at), &action)
	return TaskAction(action), done(code, nil)
}

// CallsLeft returns how many more calls of Start, Hear and Release are accepted
// before ErrHistoryFull.
func (s *Slicelet) CallsLeft() (uint64, error) {
	s.mutex.RLock()
	defer s.mutex.RUnlock()
	var left C.uint64_t
	code := C.hs_slicelet_calls_left(&s.c, &left)
	return uint64(left), done(code, nil)
}

// Close frees the slicelet, after the calls of it that run. It returns nil, and may be
// called again.
func (s *Slicelet) Close() error { return s.close() }
