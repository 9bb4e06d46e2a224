// Package hourstable decides which server task may answer for a key, by the
// proved library of include/hourstable.h: each decision is a call of it.
//
// A server task has a [Slicelet], a client a [Clerk], and a control plane a
// [Table], a [LoadBook] and an [Assigner]. The clocks [TaskClock] and [TableClock] give their
// readings, with nothing synchronised. Readings are in ticks, of one length in
// the whole job. Grants, notes, assignments and kept values are messages: bytes
// of JSON, as they go over the network (docs/FORMATS.md).
//
// A call that is not done changes nothing and returns a *[Refused], which
// errors.Is compares with the codes, such as [ErrHeld].
//
// Any goroutines may use one value at the same time: calls that only read run
// beside each other, and every other call runs alone. No value may be copied
// once it is in use, but for handles and the plain structs of numbers. Close
// frees what a value holds; calls after it return [ErrOtherPlace].
package hourstable

// #cgo CFLAGS: -std=gnu11
// #include <time.h>
// #include "hourstable.h"
import "C"

import (
	"crypto/sha256"
	"encoding/binary"
	"errors"
	"fmt"
	"sync"
	"unsafe"
)

// Kind is a kind of leases.
type Kind uint32

// The kinds of leases.
const (
	Guard  = Kind(C.HS_GUARD)
	Bridge = Kind(C.HS_BRIDGE)
)

// String returns the word of scripts and messages.
func (k Kind) String() string {
	switch k {
	case Guard:
		return "guard"
	case Bridge:
		return "bridge"
	}
	return fmt.Sprintf("Kind(%d)", uint32(k))
}

// Phase is the phase of a table. Proposed is 0 if no assignment is proposed,
// otherwise Committed + 1.
type Phase struct {
	Committed uint64 // 0 before the first commit
	Proposed  uint64
}

func (p Phase) c() C.struct_hs_phase {
	return C.struct_hs_phase{committed: C.uint64_t(p.Committed), proposed: C.uint64_t(p.Proposed)}
}

// Term is a term of the job lease.
type Term struct {
	Number   uint64
	Assigner uint64 // 1 or more
	Until    uint64 // the first reading at which it has ended
}

// HeaderVersion is the version of the header, by which this package was compiled.
const HeaderVersion = C.HS_LIBRARY_VERSION

// Version is a version of the library.
type Version struct{ Major, Minor, Patch uint32 }

// String returns the version as in the header.
func (v Version) String() string { return fmt.Sprintf("%d.%d.%d", v.Major, v.Minor, v.Patch) }

// LibraryVersion returns the version of the library that is linked or loaded.
func LibraryVersion() Version {
	var out C.struct_hs_library_version
	C.hs_library_version(&out)
	return Version{uint32(out.major), uint32(out.minor), uint32(out.patch)}
}

// SliceKey returns the slice key of a key: the first eight bytes of its SHA-256,
// most significant first, without the lowest bit. Go's own hash is faster than that of
// the library.
func SliceKey(key []byte) uint64 {
	hash := sha256.Sum256(key)
	return binary.BigEndian.Uint64(hash[:8]) >> 1
}

// BoottimeTicks returns CLOCK_BOOTTIME of Linux in ticks of a millisecond. It
// counts while the machine is suspended, as the local clock of a task must; the
// monotonic reading of time.Now does not. Programs that set the time slew it:
// LocalTicks is not slewed.
func BoottimeTicks() (uint64, error) {
	var now C.struct_timespec
	if code, err := C.clock_gettime(C.CLOCK_BOOTTIME, &now); code != 0 {
		return 0, err
	}
	return uint64(now.tv_sec)*1000 + uint64(now.tv_nsec)/1_000_000, nil
}

// place is a place with its lock, which is taken for reading by calls that only
// read.
type place struct {
	mutex sync.RWMutex
	c     C.struct_hs_place
}

// opened returns a value whose place p holds the object that a function hs_KIND_open
// or hs_KIND_restore creates.
func opened[T any](value *T, p *place, object func(*C.struct_hs_place) error) (*T, error) {
	if err := done(C.hs_place_new(&p.c), nil); err != nil {
		return nil, err
	}
	if err := object(&p.c); err != nil {
		C.hs_place_free(&p.c)
		return nil, err
	}
	return value, nil
}

// close frees what the value holds.
func (p *place) close() error {
	p.mutex.Lock()
	defer p.mutex.Unlock()
	C.hs_place_free(&p.c)
	return nil
}

// first returns the address of the first byte, which is never nil.
func first(data []byte) *C.uint8_t {
	if len(data) == 0 {
		return (*C.uint8_t)(&nothing[0])
	}
	return (*C.uint8_t)(unsafe.Pointer(&data[0]))
}

// nothing stands for the bytes of a call that has none.
var nothing [1]C.uint8_t

// firstNumber is first for numbers.
func firstNumber(numbers []uint64) *C.uint64_t {
	if len(numbers) == 0 {
		return &noNumber[0]
	}
	return (*C.uint64_t)(unsafe.Pointer(&numbers[0]))
}

var noNumber [1]C.uint64_t

// buffer is where a call writes a text, and how many bytes it has.
type buffer struct {
	at     *C.uint8_t
	length C.size_t
	needed *C.size_t
}

// text returns the bytes that a call writes. If they do not fit, it makes the
// call again, which has changed nothing, with a longer buffer.
func text(room int, call func(buffer) C.int32_t) ([]byte, error) {
	for {
		out := make([]byte, room)
		var needed C.size_t
		err := done(call(buffer{first(out), C.size_t(room), &needed}), nil)
		if err == nil {
			return out[:needed], nil
		}
		if !errors.Is(err, ErrNoRoom) {
			return nil, err
		}
		room = int(needed)
	}
}
