package hourstable

// #include "hourstable.h"
import "C"

// Assigner keeps a term of the job lease.
type Assigner struct{ place }

// Action is what an assigner does next.
type Action uint32

// What an assigner does next, by calls of the table; Rest is nothing.
const (
	Take    = Action(C.HS_TAKE)
	Renew   = Action(C.HS_RENEW)
	Commit  = Action(C.HS_COMMIT)
	Propose = Action(C.HS_PROPOSE)
	Rest    = Action(C.HS_REST)
)

// PlanPolicy is the policy of a plan.
type PlanPolicy struct {
	Low   uint64 // the fewest owners of a slice, 1 or more
	High  uint64 // the most owners of a slice, Low to 5
	Churn uint64 // how many keys may move, up to 2^63
	Cold  uint64 // neighbours merge up to this load
	Hot   uint64 // a slice above this load is halved
	Most  uint64 // slices are halved while there are fewer than this, 1 to 1,024
}

// NewAssigner returns an assigner, which keeps no term. A job lease lasts job
// ticks. ErrWrongForm if id is 0.
func NewAssigner(id, job uint64) (*Assigner, error) {
	assigner := new(Assigner)
	return opened(assigner, &assigner.place, func(place *C.struct_hs_place) error {
		return done(C.hs_assigner_open(place, C.uint64_t(id), C.uint64_t(job)), nil)
	})
}

// Adopt keeps a term that a table gave. ErrNotAdopted.
func (a *Assigner) Adopt(term Term) error {
	a.mutex.Lock()
	defer a.mutex.Unlock()
	it := C.struct_hs_job_term{
		number: C.uint64_t(term.Number), assigner: C.uint64_t(term.Assigner), until: C.uint64_t(term.Until),
	}
	return done(C.hs_assigner_adopt(&a.c, &it), nil)
}

// DropTerm drops the kept term.
func (a *Assigner) DropTerm() error {
	a.mutex.Lock()
	defer a.mutex.Unlock()
	return done(C.hs_assigner_drop_term(&a.c), nil)
}

// Next returns what to do next, and the number of the kept term, 0 for none. wanted
// says whether another assignment is wanted. ErrWrongForm.
func (a *Assigner) Next(at uint64, phase Phase, wanted bool) (Action, uint64, error) {
	a.mutex.RLock()
	defer a.mutex.RUnlock()
	given, another := phase.c(), C.uint32_t(0)
	if wanted {
		another = 1
	}
	var action C.uint32_t
	var number C.uint64_t
	code := C.hs_assigner_next(&a.c, C.uint64_t(at), &given, another, &action, &number)
	return Action(action), uint64(number), done(code, nil)
}

// Plan plans the assignment of the next generation of a job for tasks, which rise
// strictly, from a load of each slice of an assignment, and returns its message.
// ErrWrongForm, codes of messages, ErrNoTasks, ErrLoadsLength, ErrLoadRange,
// ErrNoMemory.
func Plan(job string, assignment []byte, loads, tasks []uint64, policy PlanPolicy) ([]byte, error) {
	name := []byte(job)
	given := C.struct_hs_plan_policy{
		low: C.uint64_t(policy.Low), high: C.uint64_t(policy.High), churn: C.uint64_t(policy.Churn),
		cold: C.uint64_t(policy.Cold), hot: C.uint64_t(policy.Hot), most: C.uint64_t(policy.Most),
	}
	return text(messageRoom, func(to buffer) C.int32_t {
		return C.hs_plan(first(name), C.size_t(len(name)), first(assignment), C.size_t(len(assignment)),
			firstNumber(loads), C.size_t(len(loads)), firstNumber(tasks), C.size_t(len(tasks)), &given,
			to.at, to.length, to.needed)
	})
}

// Close frees the assigner, after the calls of it that run. It returns nil, and may be
// called again.
func (a *Assigner) Close() error { return a.close() }
