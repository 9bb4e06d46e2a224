package hourstable

// #include "hourstable.h"
import "C"

// Policy is the policy of a table. Guard, Bridge, Job and Numbers are 1 to 2^32.
type Policy struct {
	Low     uint64 // the fewest owners that a plan gives a slice, 1 or more
	High    uint64 // the most owners of a slice, Low to 5
	Skew    uint64 // how many ticks clocks may be apart, below Guard and below Bridge
	Guard   uint64 // how many ticks a guard lease lasts
	Bridge  uint64 // how many ticks a bridge lease lasts
	Job     uint64 // how many ticks the job lease lasts
	Numbers uint64 // how many grants the table makes, for good
}

func (p Policy) c() C.struct_hs_policy {
	return C.struct_hs_policy{
		low: C.uint64_t(p.Low), high: C.uint64_t(p.High), skew: C.uint64_t(p.Skew), guard: C.uint64_t(p.Guard),
		bridge: C.uint64_t(p.Bridge), job: C.uint64_t(p.Job), numbers: C.uint64_t(p.Numbers),
	}
}

// Row is what a table keeps of a grant until its lease ends or is freed.
type Row struct {
	Number     uint64
	Task       uint64
	Life       uint64
	Kind       Kind
	Generation uint64
	TableEnds  uint64 // the first reading at which it has ended
}

// Table is the lease table of a job. Readings are those of the table's clock. A job
// has one table at a time: it is opened once, and from then on restored from what
// Kept returned, which is saved before the reply to a call that changed the table
// leaves the process.
type Table struct{ place }

// NewTable returns a new table of a job. ErrWrongForm if the name is not that of a
// job, or a number of the policy is outside its limits.
func NewTable(job string, policy Policy) (*Table, error) {
	name, given, table := []byte(job), policy.c(), new(Table)
	return opened(table, &table.place, func(place *C.struct_hs_place) error {
		return done(C.hs_table_open(place, first(name), C.size_t(len(name)), &given), nil)
	})
}

// RestoreTable returns the table of a job that kept these values, as Restart leaves
// it. ErrWrongForm, codes of messages, ErrOtherPolicy, ErrReadingRange, ErrNoTerm,
// ErrTermRange, ErrKeptGeneration, ErrTooManyOwnersForJob, ErrNoAssignment,
// ErrTooManyGrants, ErrDeadlineRange.
func RestoreTable(job string, policy Policy, kept []byte) (*Table, error) {
	name, given, table := []byte(job), policy.c(), new(Table)
	return opened(table, &table.place, func(place *C.struct_hs_place) error {
		var told C.struct_hs_told
		return done(C.hs_table_restore(place, first(name), C.size_t(len(name)), &given, first(kept),
			C.size_t(len(kept)), &told), &told)
	})
}

// Kept returns the message of the kept values of the table: all of it but its rows.
func (t *Table) Kept() ([]byte, error) {
	t.mutex.RLock()
	defer t.mutex.RUnlock()
	return text(messageRoom, func(to buffer) C.int32_t {
		return C.hs_table_kept(&t.c, to.at, to.length, to.needed)
	})
}

// Save returns the values to save in place of saved, the message that was saved
// last, ahead of the table by so many grants and ticks; saved is empty if nothing was
// saved. It returns nil if saved covers the table, so that nothing has to be saved:
// the next grants and freed notes up to that number and that reading need no save.
// Codes of messages, those of RestoreTable, ErrNoMemory.
func (t *Table) Save(saved []byte, grants, ticks uint64) ([]byte, error) {
	t.mutex.RLock()
	defer t.mutex.RUnlock()
	message, err := text(messageRoom, func(to buffer) C.int32_t {
		return C.hs_table_save(&t.c, first(saved), C.size_t(len(saved)), C.uint64_t(grants), C.uint64_t(ticks),
			to.at, to.length, to.needed)
	})
	if len(message) == 0 {
		return nil, err
	}
	return message, err
}

// messageRoom is enough for most messages of small jobs.
const messageRoom = 1024

// Take gives the job lease to an assigner, and returns its term. ErrWrongForm if
// assigner is 0, ErrReadingRange, ErrClockBack, ErrJobHeld.
func (t *Table) Take(assigner, at uint64) (Term, error) {
	return t.term(func(out *C.struct_hs_job_term, told *C.struct_hs_told) C.int32_t {
		return C.hs_table_take(&t.c, C.uint64_t(assigner), C.uint64_t(at), out, told)
	})
}

// Renew renews the term with this number, and returns it. ErrReadingRange,
// ErrClockBack, ErrNotHolder.
func (t *Table) Renew(number, at uint64) (Term, error) {
	return t.term(func(out *C.struct_hs_job_term, told *C.struct_hs_told) C.int32_t {
		return C.hs_table_renew(&t.c, C.uint64_t(number), C.uint64_t(at), out, told)
	})
}

// term makes a call that writes a term of the job lease.
func (t *Table) term(call func(*C.struct_hs_job_term, *C.struct_hs_told) C.int32_t) (Term, error) {
	t.mutex.Lock()
	defer t.mutex.Unlock()
	var out C.struct_hs_job_term
	var told C.struct_hs_told
	err := done(call(&out, &told), &told)
	return Term{uint64(out.number), uint64(out.assigner), uint64(out.until)}, err
}

// Propose proposes an assignment, given as its message, under the term with this
// number. Codes of messages, then ErrReadingRange, ErrClockBack, ErrNotHolder,
// ErrStaleBase, ErrPending, ErrTooManyOwnersForJob, ErrNoMemory.
func (t *Table) Propose(number uint64, assignment []byte, at uint64) error {
	t.mutex.Lock()
	defer t.mutex.Unlock()
	var told C.struct_hs_told
	return done(C.hs_table_propose(&t.c, C.uint64_t(number), first(assignment), C.size_t(len(assignment)),
		C.uint64_t(at), &told), &told)
}

// Commit commits the proposed assignment under the term with this number, and
// returns its generation. ErrReadingRange, ErrClockBack, ErrNotHolder,
// ErrNothingPending, ErrGrace, ErrHeld.
func (t *Table) Commit(number, at uint64) (uint64, error) {
	t.mutex.Lock()
	defer t.mutex.Unlock()
	var told C.struct_hs_told
	if err := done(C.hs_table_commit(&t.c, C.uint64_t(number), C.uint64_t(at), &told), &told); err != nil {
		return 0, err
	}
	return uint64(told.generation), nil
}

// Grant grants a task a lease for one of its lives, and returns the message of the
// grant. ErrWrongForm if task is not 1 to 64 or life is 0, ErrReadingRange,
// ErrClockBack, ErrNoAssignment, ErrNumbersSpent, ErrNoMemory.
func (t *Table) Grant(task uint64, life uint32, at uint64) ([]byte, error) {
	t.mutex.Lock()
	defer t.mutex.Unlock()
	return text(messageRoom, func(to buffer) C.int32_t {
		return C.hs_table_grant(&t.c, C.uint64_t(task), C.uint32_t(life), C.uint64_t(at), to.at, to.length, to.needed)
	})
}

// Free frees the rows that a note, given as its message, closes, and returns how
// many. Codes of messages, then ErrReadingRange, ErrClockBack, ErrNoRow.
func (t *Table) Free(note []byte, at uint64) (uint64, error) {
	t.mutex.Lock()
	defer t.mutex.Unlock()
	var freed C.uint64_t
	var told C.struct_hs_told
	code := C.hs_table_free(&t.c, first(note), C.size_t(len(note)), C.uint64_t(at), &freed, &told)
	return uint64(freed), done(code, &told)
}

// Restart restarts the table, which loses its rows and keeps all else, and returns
// how many rows Rows would have returned.
func (t *Table) Restart() (uint64, error) {
	t.mutex.Lock()
	defer t.mutex.Unlock()
	var lost C.uint64_t
	code := C.hs_table_restart(&t.c, &lost)
	return uint64(lost), done(code, nil)
}

// Phase returns the phase of the table.
func (t *Table) Phase() (Phase, error) {
	t.mutex.RLock()
	defer t.mutex.RUnlock()
	var out C.struct_hs_phase
	code := C.hs_table_phase(&t.c, &out)
	return Phase{uint64(out.committed), uint64(out.proposed)}, done(code, nil)
}

// Rows returns the rows that have not ended at the last accepted reading, in grant
// order. ErrNoMemory.
func (t *Table) Rows() ([]Row, error) {
	t.mutex.RLock()
	defer t.mutex.RUnlock()
	out, needed := make([]C.struct_hs_row, 64), C.size_t(0)
	code := C.hs_table_rows(&t.c, &out[0], C.size_t(len(out)), &needed)
	if code == C.HS_NO_ROOM {
		out = make([]C.struct_hs_row, needed)
		code = C.hs_table_rows(&t.c, &out[0], C.size_t(len(out)), &needed)
	}
	if err := done(code, nil); err != nil {
		return nil, err
	}
	rows := make([]Row, 0, needed)
	for _, it := range out[:needed] {
		rows = append(rows, Row{uint64(it.number), uint64(it.task), uint64(it.life), Kind(it.kind),
			uint64(it.generation), uint64(it.table_ends)})
	}
	return rows, nil
}

// Committed returns the message of the committed assignment. ErrNoAssignment,
// ErrNoMemory.
func (t *Table) Committed() ([]byte, error) {
	t.mutex.RLock()
	defer t.mutex.RUnlock()
	return text(messageRoom, func(to buffer) C.int32_t {
		return C.hs_table_committed(&t.c, to.at, to.length, to.needed)
	})
}

// Close frees the table, after the calls of it that run. It returns nil, and may be
// called again.
func (t *Table) Close() error { return t.close() }
