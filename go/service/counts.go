package service

// Counts are what a task counted since its start.
type Counts struct {
	Requests    uint64            // questions for a key
	Denied      map[string]uint64 // by the ground
	LeaseLost   uint64            // answers after the end of their lease
	ClockBehind uint64            // times that its clock stopped the task
	Heard       map[string]uint64 // leases by their kind
	Lives       uint64
	Unreachable uint64 // calls that no control plane did
	Troubles
}

// Troubles are what a task or a router counted of failures since its start.
type Troubles struct {
	Planes     map[string]uint64 // of control planes: connection, unreadable, or the status
	Internal   map[string]uint64 // what was not expected, a panic for instance, by where
	Unobserved uint64            // tickets above 2^47 ms, or that are no numbers
	Unlogged   uint64            // lines that the log lacks
}

// Counts returns what the task counted.
func (t *Task) Counts() Counts {
	troubles := troublesOf(t.control, t.supervisor)
	t.mutex.Lock()
	made, log := t.counts, t.log
	made.Denied, made.Heard = copied(t.counts.Denied), copied(t.counts.Heard)
	t.mutex.Unlock()
	made.Troubles, made.Requests = troubles, t.desks.requests()
	made.Unlogged = log.lacks()
	return made
}

func troublesOf(control *control, supervisor *supervisor) Troubles {
	made := Troubles{Planes: control.counts(), Internal: supervisor.counts()}
	passed, unkept := control.tickets.counts()
	if made.Unobserved = passed; unkept > 0 {
		made.Internal["tickets"] = unkept
	}
	return made
}

func copied(counts map[string]uint64) map[string]uint64 {
	made := make(map[string]uint64, len(counts))
	for name, count := range counts {
		made[name] = count
	}
	return made
}
