package service

import (
	"sync"
	"sync/atomic"
)

// deskCount is how many desks a task has: more than processors that ask at one moment.
const deskCount = 64

// desk is where questions are counted and their leases kept while they are open. A task has
// many, so that goroutines on several processors need not wait for each other.
type desk struct {
	mutex    sync.Mutex
	open     map[*Lease]struct{}
	requests uint64
	loads    map[uint64]uint64 // by the part of the slice keys
	_        [64]byte          // the next desk is in another line of the cache
}

// end takes a lease from the open ones, and counts it for the loads if its key was allowed.
func (d *desk) end(lease *Lease) {
	d.mutex.Lock()
	defer d.mutex.Unlock()
	delete(d.open, lease)
	if lease.isAllowed {
		d.loads[lease.sliceKey>>(63-loadBits)]++
	}
}

// desks are those of a task.
type desks struct {
	all  [deskCount]desk
	free sync.Pool // of the desks, by processor; a desk may be taken twice
	next atomic.Uint32
}

func (d *desks) take() *desk {
	if it, isKept := d.free.Get().(*desk); isKept {
		return it
	}
	it := &d.all[d.next.Add(1)%deskCount]
	it.mutex.Lock()
	defer it.mutex.Unlock()
	if it.open == nil {
		it.open, it.loads = map[*Lease]struct{}{}, map[uint64]uint64{}
	}
	return it
}

// each calls a function for each desk, alone.
func (d *desks) each(call func(*desk)) {
	for at := range d.all {
		it := &d.all[at]
		it.mutex.Lock()
		call(it)
		it.mutex.Unlock()
	}
}

// requests returns how many questions were asked.
func (d *desks) requests() (made uint64) {
	d.each(func(it *desk) { made += it.requests })
	return made
}

// takeLoads returns the loads, and begins to count them anew.
func (d *desks) takeLoads() map[uint64]uint64 {
	made := map[uint64]uint64{}
	d.each(func(it *desk) {
		for part, count := range it.loads {
			made[part] += count
		}
		if len(it.loads) > 0 {
			it.loads = map[uint64]uint64{}
		}
	})
	return made
}
