package hourstable

// #include "hourstable.h"
import "C"

// Clerk knows the newest assignment that a client was given.
type Clerk struct{ place }

// Owners are the owners of a key in an assignment, in rising order.
type Owners struct {
	Generation uint64
	Tasks      []uint64
}

// NewClerk returns a clerk of a job, which keeps no assignment. ErrWrongForm if the
// name is not that of a job.
func NewClerk(job string) (*Clerk, error) {
	name, clerk := []byte(job), new(Clerk)
	return opened(clerk, &clerk.place, func(place *C.struct_hs_place) error {
		return done(C.hs_clerk_open(place, first(name), C.size_t(len(name))), nil)
	})
}

// Learn keeps an assignment, given as its message. Codes of messages, then
// ErrOldGeneration, ErrNoMemory.
func (c *Clerk) Learn(assignment []byte) error {
	c.mutex.Lock()
	defer c.mutex.Unlock()
	var told C.struct_hs_told
	return done(C.hs_clerk_learn(&c.c, first(assignment), C.size_t(len(assignment)), &told), &told)
}

// Look returns the owners of a key in the kept assignment. ErrUnknown.
func (c *Clerk) Look(key []byte) (Owners, error) {
	c.mutex.RLock()
	defer c.mutex.RUnlock()
	var out C.struct_hs_owners
	return ownersOf(C.hs_clerk_look(&c.c, first(key), C.size_t(len(key)), &out), &out)
}

// LookAt is Look by slice key, without the hash of the key. ErrWrongForm if no key
// has this slice key, ErrUnknown.
func (c *Clerk) LookAt(sliceKey uint64) (Owners, error) {
	c.mutex.RLock()
	defer c.mutex.RUnlock()
	var out C.struct_hs_owners
	return ownersOf(C.hs_clerk_look_at(&c.c, C.uint64_t(sliceKey), &out), &out)
}

func ownersOf(code C.int32_t, out *C.struct_hs_owners) (Owners, error) {
	if err := done(code, nil); err != nil {
		return Owners{}, err
	}
	owners := Owners{Generation: uint64(out.generation), Tasks: make([]uint64, 0, len(out.tasks))}
	for _, task := range out.tasks[:out.count] {
		owners.Tasks = append(owners.Tasks, uint64(task))
	}
	return owners, nil
}

// Forget forgets the kept assignment.
func (c *Clerk) Forget() error {
	c.mutex.Lock()
	defer c.mutex.Unlock()
	return done(C.hs_clerk_forget(&c.c), nil)
}

// Close frees the clerk, after the calls of it that run. It returns nil, and may be
// called again.
func (c *Clerk) Close() error { return c.close() }
