package hourstable

/*
#include "hourstable.h"

struct reading {
    int32_t code;
    uint64_t value;
    struct hs_task_clock clock;
};

// The clock goes in and comes back by value, so that nothing escapes to Go's heap.
static struct reading task_clock_read(struct hs_task_clock clock, uint64_t now) {
    struct reading it = {0};
    it.code = hs_task_clock_read(&clock, now, &it.value);
    it.clock = clock;
    return it;
}
*/
import "C"

import "sync"

// Drift is how far a task's clock may fall behind the table's: while the local
// clock of the task gains Per ticks, that of the table gains at most Per + Extra,
// and Grain ticks more. 1,001 in 1,000,000 with a grain of 2 is enough for clocks
// that each keep within 500 parts in a million (docs/OPERATIONS.md).
type Drift struct{ Extra, Per, Grain uint64 }

// TaskClock gives the readings of a task, from answers of the table and a local
// clock that counts while the machine is suspended, such as LocalTicks. A new
// life of a task has a new clock.
type TaskClock struct {
	mutex sync.RWMutex
	c     C.struct_hs_task_clock
}

// copy returns the numbers of the clock, for a call that runs beside others.
func (t *TaskClock) copy() C.struct_hs_task_clock {
	t.mutex.RLock()
	defer t.mutex.RUnlock()
	return t.c
}

// gave takes the value that a copy gave, and its local reading: later values are not below
// it.
func (t *TaskClock) gave(before, after *C.struct_hs_task_clock) {
	if after.last == before.last && after.given == before.given {
		return
	}
	t.mutex.Lock()
	defer t.mutex.Unlock()
	if after.last > t.c.last {
		t.c.last = after.last
	}
	if after.given > t.c.given {
		t.c.given = after.given
	}
}

// NewTaskClock returns a clock with no sample. oldest is how many ticks the task
// goes on without an answer of the table. ErrWrongForm if Per of the drift is 0.
func NewTaskClock(drift Drift, oldest uint64) (*TaskClock, error) {
	clock := new(TaskClock)
	code := C.hs_task_clock_new(&clock.c, C.uint64_t(drift.Extra), C.uint64_t(drift.Per), C.uint64_t(drift.Grain),
		C.uint64_t(oldest))
	if err := done(code, nil); err != nil {
		return nil, err
	}
	return clock, nil
}

// Sample takes an answer of the table: the local reading before its request was
// sent, the table's reading that it carries, and the local reading now.
// ErrClockBack, ErrSentAhead.
func (t *TaskClock) Sample(sent, reading, now uint64) error {
	t.mutex.Lock()
	defer t.mutex.Unlock()
	return done(C.hs_task_clock_sample(&t.c, C.uint64_t(sent), C.uint64_t(reading), C.uint64_t(now)), nil)
}

// Read returns the task's reading at the local reading now. Read the local clock
// and then this one for each decision, and decide at once. Goroutines that share a
// clock may get here in another order than they read the local clock in: pass a
// local clock to ReadNow then. ErrClockBack, ErrNoSample, ErrTooOld, ErrTooLarge.
func (t *TaskClock) Read(now uint64) (uint64, error) {
	t.mutex.Lock()
	defer t.mutex.Unlock()
	return t.read(now)
}

// ReadNow is Read at the reading of a local clock, which it calls while no other
// call of this clock runs; nil is LocalTicks.
func (t *TaskClock) ReadNow(local func() (uint64, error)) (uint64, error) {
	t.mutex.Lock()
	defer t.mutex.Unlock()
	now, err := localOr(local)()
	if err != nil {
		return 0, err
	}
	return t.read(now)
}

func (t *TaskClock) read(now uint64) (uint64, error) {
	it := C.task_clock_read(t.c, C.uint64_t(now))
	t.c = it.clock
	if it.code != C.HS_DONE {
		return 0, done(it.code, nil)
	}
	return uint64(it.value), nil
}

// TableClock gives the readings of the table in one process.
type TableClock struct {
	mutex sync.Mutex
	c     C.struct_hs_table_clock
}

// OpenTableClock returns the clock of a new process of the table: kept is the last
// value that was kept, 0 at first, and now the local reading. The clock starts
// ahead ticks below kept. If values are kept up to S ticks above the reading, ahead
// is at least S + Grain + 1.
func OpenTableClock(kept, ahead, now uint64) (*TableClock, error) {
	clock := new(TableClock)
	code := C.hs_table_clock_open(&clock.c, C.uint64_t(kept), C.uint64_t(ahead), C.uint64_t(now))
	if err := done(code, nil); err != nil {
		return nil, err
	}
	return clock, nil
}

// Read returns the table's reading at the local reading now. Before it is used,
// keep a value that is not below it where the next process finds it. ErrClockBack,
// ErrTooLarge, ErrNotYet: the clock gets to Until of the error in at most ahead
// ticks.
func (t *TableClock) Read(now uint64) (uint64, error) {
	t.mutex.Lock()
	defer t.mutex.Unlock()
	var out C.uint64_t
	code := C.hs_table_clock_read(&t.c, C.uint64_t(now), &out)
	if code == C.HS_NOT_YET {
		return 0, &Refused{Code: ErrNotYet, Until: uint64(t.c.kept)}
	}
	return uint64(out), done(code, nil)
}

// ClockEvidence says whether a grant of a job shows, at the reading at of its task,
// that clocks are not timely. False shows nothing. ErrWrongForm, codes of messages.
func ClockEvidence(job string, grant []byte, at uint64, policy Policy) (bool, error) {
	name, given := []byte(job), policy.c()
	var out C.uint32_t
	code := C.hs_clock_evidence(first(name), C.size_t(len(name)), first(grant), C.size_t(len(grant)), C.uint64_t(at),
		&given, &out)
	return out == 1, done(code, nil)
}
