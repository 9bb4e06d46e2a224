package hourstable

// #include "local_clocks.h"
import "C"

import (
	"sync"
	"sync/atomic"
)

// LocalTicks returns the local clock for a task, in ticks of a millisecond: CLOCK_MONOTONIC_RAW, which nothing slews,
// and the time for which the machine was suspended, which is how far CLOCK_BOOTTIME is ahead of CLOCK_MONOTONIC. Where
// the system lacks one of them, it is BoottimeTicks.
func LocalTicks() (uint64, error) {
	if !hasLocalClocks() {
		return BoottimeTicks()
	}
	read, _ := readClocks()
	return localSuspension.add(read), nil
}

var (
	localOnce       sync.Once
	hasClocks       bool
	localSuspension suspension
)

// hasLocalClocks says whether the system has the clocks of LocalTicks. It is decided once, since BoottimeTicks is
// another clock.
func hasLocalClocks() bool {
	localOnce.Do(func() { _, hasClocks = readClocks() })
	return hasClocks
}

// clocks are readings in nanoseconds, taken in this order.
type clocks struct{ raw, boot, monotonic int64 }

func readClocks() (clocks, bool) {
	it := C.read_clocks()
	return clocks{int64(it.raw), int64(it.boot), int64(it.monotonic)}, it.ok != 0
}

// suspension is for how long the machine was suspended, as far as readings prove it. It does not fall.
type suspension struct{ known atomic.Int64 }

// add returns the raw reading with the suspension, in ticks.
func (s *suspension) add(read clocks) uint64 {
	given := C.struct_local_clocks{raw: C.int64_t(read.raw), boot: C.int64_t(read.boot), monotonic: C.int64_t(read.monotonic)}
	it := C.reading_of(given, C.int64_t(s.known.Load()))
	s.keep(int64(it.suspension))
	return uint64(it.ticks)
}

// keep takes a suspension that a reading has proved.
func (s *suspension) keep(proved int64) {
	for known := s.known.Load(); proved > known && !s.known.CompareAndSwap(known, proved); {
		known = s.known.Load()
	}
}

// localOr returns a local clock, which is LocalTicks if none is given.
func localOr(local func() (uint64, error)) func() (uint64, error) {
	if local == nil {
		return LocalTicks
	}
	return local
}
