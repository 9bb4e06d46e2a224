package hourstable

// #include "hourstable.h"
import "C"

// LoadRecord is a record that a task did some work for a key.
type LoadRecord struct {
	SliceKey uint64 // of the key: SliceKey
	Weight   uint64 // of the work, 1 to 2^32
}

// LoadBook counts the work that the tasks of a job did.
type LoadBook struct{ place }

// NewLoadBook returns a load book of a job, whose totals are 0. ErrWrongForm if the
// name is not that of a job.
func NewLoadBook(job string) (*LoadBook, error) {
	name, book := []byte(job), new(LoadBook)
	return opened(book, &book.place, func(place *C.struct_hs_place) error {
		return done(C.hs_load_book_open(place, first(name), C.size_t(len(name))), nil)
	})
}

// Gather adds records of a task to its total, and returns the load that they are of
// each slice of an assignment, given as its message. Gather each record once. For
// Plan, add the loads of several tasks slice by slice. Codes of messages,
// ErrWrongForm, ErrWeightRange, ErrTotalRange, ErrNoMemory.
func (b *LoadBook) Gather(assignment []byte, task uint64, records []LoadRecord) ([]uint64, error) {
	b.mutex.Lock()
	defer b.mutex.Unlock()
	given := make([]C.struct_hs_load_record, len(records), len(records)+1) // its first address is never nil
	for at, it := range records {
		given[at] = C.struct_hs_load_record{slice_key: C.uint64_t(it.SliceKey), weight: C.uint64_t(it.Weight)}
	}
	loads, needed := make([]uint64, 64), C.size_t(0)
	gather := func() C.int32_t {
		return C.hs_load_book_gather(&b.c, first(assignment), C.size_t(len(assignment)), C.uint64_t(task),
			&given[:1][0], C.size_t(len(given)), firstNumber(loads), C.size_t(len(loads)), &needed)
	}
	code := gather()
	if code == C.HS_NO_ROOM {
		loads = make([]uint64, needed)
		code = gather()
	}
	if err := done(code, nil); err != nil {
		return nil, err
	}
	return loads[:needed], nil
}

// Total returns the sum of the weights of all records of a task that were gathered.
// ErrWrongForm if task is not 1 to 64.
func (b *LoadBook) Total(task uint64) (uint64, error) {
	b.mutex.RLock()
	defer b.mutex.RUnlock()
	var total C.uint64_t
	err := done(C.hs_load_book_total(&b.c, C.uint64_t(task), &total), nil)
	return uint64(total), err
}

// Close frees the load book, after the calls of it that run. It returns nil, and may
// be called again.
func (b *LoadBook) Close() error { return b.close() }
