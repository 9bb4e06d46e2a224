package service

import "time"

// State is what a task does.
type State string

// The states of a task.
const (
	Starting State = "starting" // it has no lease, as before its first one
	Waiting  State = "waiting"  // another process of the task may have leases
	Serving  State = "serving"
	Moving   State = "moving"   // it gives up keys
	CutOff   State = "cut off"  // no control plane gives it leases: it serves until those end that it has
	Draining State = "draining" // the context of Run has ended, or an operator drains the task and it has no keys
	Stopped  State = "stopped"
)

// State returns the state of the task, and since when it is cut off; in other states
// the time is zero.
func (t *Task) State() (state State, since time.Time) {
	held := t.life()
	hasLease := held != nil && held.hasLease()
	t.mutex.Lock()
	defer t.mutex.Unlock()
	switch {
	case t.isStopped:
		return Stopped, time.Time{}
	case t.leaves():
		return Draining, time.Time{}
	case t.isWaiting:
		return Waiting, time.Time{}
	case !t.cutOff.IsZero():
		return CutOff, t.cutOff
	case len(t.moving) > 0:
		return Moving, time.Time{}
	case hasLease:
		return Serving, time.Time{}
	}
	return Starting, time.Time{}
}

// Ready says whether requests may be sent to the task, for a readiness probe: from its
// first lease on, until it is drained or the context of Run ends. It is true while the
// task is cut off, so that control planes that are down empty no load balancer.
func (t *Task) Ready() bool {
	t.mutex.Lock()
	defer t.mutex.Unlock()
	return t.hasServed && !t.leaves() && !t.isWaiting
}

// leaves says whether the task ends, or is drained; the mutex is held.
func (t *Task) leaves() bool { return t.isDraining || t.isDrained || t.drainsItself }

func (t *Task) drain() {
	t.mutex.Lock()
	defer t.mutex.Unlock()
	t.isDraining = true
}

// reached notes that a control plane did a call, or why none did.
func (t *Task) reached(err error) {
	t.mutex.Lock()
	defer t.mutex.Unlock()
	if err == nil {
		t.cutOff = time.Time{}
	} else if t.cutOff.IsZero() {
		t.cutOff = time.Now()
	}
}
