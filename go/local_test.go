package hourstable

import (
	"syscall"
	"testing"
	"unsafe"
)

const second = int64(1_000_000_000)

// Readings in nanoseconds, and the ticks that they make.
func TestTheLocalClockIsNotSlewedAndCountsSuspension(t *testing.T) {
	var known suspension
	for _, it := range []struct {
		why    string
		read   clocks
		wanted uint64
	}{
		{"at first", clocks{10 * second, 12 * second, 12 * second}, 10_000},
		{"the other clocks are slewed by a tenth", clocks{20 * second, 23 * second, 23 * second}, 20_000},
		{"suspended for an hour", clocks{21 * second, 3624 * second, 24 * second}, 3_621_000},
		{"stopped for 2 s before the last reading", clocks{22 * second, 3625 * second, 27 * second}, 3_622_000},
		{"stopped again", clocks{23 * second, 3626 * second, 28 * second}, 3_623_000},
		{"a slew back", clocks{24 * second, 3627 * second, 27 * second}, 3_624_000},
	} {
		if found := known.add(it.read); found != it.wanted {
			t.Errorf("%s: %d, not %d", it.why, found, it.wanted)
		}
	}
}

// system returns the local clock as the system call gives its parts.
func system(t *testing.T) int64 {
	t.Helper()
	var read [3]syscall.Timespec
	for at, clock := range []uintptr{4, 7, 1} { // CLOCK_MONOTONIC_RAW, _BOOTTIME and _MONOTONIC of Linux
		_, _, failed := syscall.Syscall(syscall.SYS_CLOCK_GETTIME, clock, uintptr(unsafe.Pointer(&read[at])), 0)
		if failed != 0 {
			t.Skipf("skipped, as the system lacks clock %d: %v", clock, failed)
		}
	}
	return (read[0].Nano() + read[1].Nano() - read[2].Nano()) / 1_000_000
}

func TestLocalTicksAreThoseOfTheSystem(t *testing.T) {
	last := uint64(0)
	for try := 0; try < 1000; try++ {
		// The parts are read one after the other: on a busy machine their sum is too low, by what went by meanwhile.
		now, err := LocalTicks()
		if err != nil || now < last {
			t.Fatal(now, last, err)
		}
		last = now
		if after := system(t); int64(now)-after <= 1 && after-int64(now) <= 1 {
			return
		}
	}
	t.Errorf("%d is not the clock of the system", last)
}
