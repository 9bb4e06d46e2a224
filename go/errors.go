package hourstable

// #include "hourstable.h"
import "C"

import (
	"fmt"
	"strings"
)

// Code is what a call returns that is not done. It is an error, with which
// errors.Is compares what a call returned:
//
//	if errors.Is(err, hourstable.ErrTooLate) { .. }
//
// docs/BINDINGS.md says what each code means. A code never changes its meaning; a
// later library may return codes that are not here.
type Code int32

// Why a key is not served.
const (
	ErrDown      = Code(C.HS_DOWN)
	ErrClockBack = Code(C.HS_CLOCK_BACK)
	ErrEnded     = Code(C.HS_ENDED)
	ErrNotOwned  = Code(C.HS_NOT_OWNED)
	ErrNoLease   = Code(C.HS_NO_LEASE)
)

// Why a slicelet refuses a call; also ErrClockBack.
const (
	ErrNotStarted  = Code(C.HS_NOT_STARTED)
	ErrOldLife     = Code(C.HS_OLD_LIFE)
	ErrOtherTask   = Code(C.HS_OTHER_TASK)
	ErrOtherLife   = Code(C.HS_OTHER_LIFE)
	ErrOld         = Code(C.HS_OLD)
	ErrTooLate     = Code(C.HS_TOO_LATE)
	ErrNothingHeld = Code(C.HS_NOTHING_HELD)
	ErrHistoryFull = Code(C.HS_HISTORY_FULL)
)

// What a check of a handle returns.
const (
	ErrBroken   = Code(C.HS_BROKEN)
	ErrStranger = Code(C.HS_STRANGER)
)

// Why a table refuses a call; also ErrClockBack.
const (
	ErrReadingRange        = Code(C.HS_READING_RANGE)
	ErrJobHeld             = Code(C.HS_JOB_HELD)
	ErrNotHolder           = Code(C.HS_NOT_HOLDER)
	ErrStaleBase           = Code(C.HS_STALE_BASE)
	ErrPending             = Code(C.HS_PENDING)
	ErrNothingPending      = Code(C.HS_NOTHING_PENDING)
	ErrTooManyOwnersForJob = Code(C.HS_TOO_MANY_OWNERS_FOR_JOB)
	ErrGrace               = Code(C.HS_GRACE)
	ErrHeld                = Code(C.HS_HELD)
	ErrNoRow               = Code(C.HS_NO_ROW)
	ErrNoAssignment        = Code(C.HS_NO_ASSIGNMENT)
	ErrNumbersSpent        = Code(C.HS_NUMBERS_SPENT)
)

// Why a clerk, an assigner or a plan refuses a call.
const (
	ErrOldGeneration = Code(C.HS_OLD_GENERATION)
	ErrUnknown       = Code(C.HS_UNKNOWN)
	ErrNotAdopted    = Code(C.HS_NOT_ADOPTED)
	ErrNoTasks       = Code(C.HS_NO_TASKS)
	ErrLoadsLength   = Code(C.HS_LOADS_LENGTH)
	ErrLoadRange     = Code(C.HS_LOAD_RANGE)
)

// Why a clock refuses a call; also ErrClockBack.
const (
	ErrSentAhead = Code(C.HS_SENT_AHEAD)
	ErrNoSample  = Code(C.HS_NO_SAMPLE)
	ErrTooOld    = Code(C.HS_TOO_OLD)
	ErrTooLarge  = Code(C.HS_TOO_LARGE)
	ErrNotYet    = Code(C.HS_NOT_YET)
)

// Why kept values restore no table.
const (
	ErrOtherPolicy    = Code(C.HS_OTHER_POLICY)
	ErrNoTerm         = Code(C.HS_NO_TERM)
	ErrTermRange      = Code(C.HS_TERM_RANGE)
	ErrKeptGeneration = Code(C.HS_KEPT_GENERATION)
	ErrTooManyGrants  = Code(C.HS_TOO_MANY_GRANTS)
	ErrDeadlineRange  = Code(C.HS_DEADLINE_RANGE)
)

// Why a load book counts no records.
const (
	ErrWeightRange = Code(C.HS_WEIGHT_RANGE)
	ErrTotalRange  = Code(C.HS_TOTAL_RANGE)
)

// Why there is no fencing token, or a store refuses one.
const (
	ErrManyOwners = Code(C.HS_MANY_OWNERS)
	ErrFenced     = Code(C.HS_FENCED)
)

// Why a call could not be made. ErrNoRoom is not returned: a call whose text
// found no room is made again with more.
const (
	ErrNoMemory   = Code(C.HS_NO_MEMORY)
	ErrNoRoom     = Code(C.HS_NO_ROOM)
	ErrOtherPlace = Code(C.HS_OTHER_PLACE)
)

// Why bytes are not a message of the type and of the job, or a number is refused.
const (
	ErrNotJSON       = Code(C.HS_NOT_JSON)
	ErrVersion       = Code(C.HS_VERSION)
	ErrOtherType     = Code(C.HS_OTHER_TYPE)
	ErrWrongForm     = Code(C.HS_WRONG_FORM)
	ErrPastEnd       = Code(C.HS_PAST_END)
	ErrUnsorted      = Code(C.HS_UNSORTED)
	ErrEmpty         = Code(C.HS_EMPTY)
	ErrNoSlices      = Code(C.HS_NO_SLICES)
	ErrFirstNotZero  = Code(C.HS_FIRST_NOT_ZERO)
	ErrNotRising     = Code(C.HS_NOT_RISING)
	ErrNoOwner       = Code(C.HS_NO_OWNER)
	ErrTooManyOwners = Code(C.HS_TOO_MANY_OWNERS)
	ErrOwnerTwice    = Code(C.HS_OWNER_TWICE)
	ErrBadTask       = Code(C.HS_BAD_TASK)
	ErrTooManySlices = Code(C.HS_TOO_MANY_SLICES)
	ErrOtherJob      = Code(C.HS_OTHER_JOB)
)

// Name returns the name of the code in the header, such as HS_HELD, or unknown.
func (c Code) Name() string { return C.GoString(C.hs_code_name(C.int32_t(c))) }

// Error returns the word of scripts, such as held.
func (c Code) Error() string { return prefix + c.word() }

const prefix = "hourstable: "

func (c Code) word() string {
	name := c.Name()
	switch {
	case c == ErrOldGeneration:
		return "old"
	case name == "unknown":
		return fmt.Sprintf("code %d", int32(c))
	}
	return strings.ReplaceAll(strings.ToLower(strings.TrimPrefix(name, "HS_")), "_", "-")
}

// Refused is the error of every call that is not done: its code, and the numbers
// that the code comes with. The others are 0.
type Refused struct {
	Code       Code
	Number     uint64 // of a grant, of a term, or the version of a message
	Generation uint64 // of a lease or an assignment
	Kind       Kind   // of a lease
	Task       uint64
	Until      uint64 // a reading, in ticks

	// Covering is set where a key is denied: the greatest generation of the held
	// leases that cover it, live or ended; 0 if none does.
	Covering uint64
}

// Unwrap returns the code, for errors.Is.
func (r *Refused) Unwrap() error { return r.Code }

// Error returns the text of Reply.
func (r *Refused) Error() string { return prefix + r.Reply() }

// Reply returns the reply of scripts and of logs (docs/AUDIT.md) without its
// first word, such as "held 1 guard 2" for "refused held 1 guard 2".
func (r *Refused) Reply() string {
	numbers := []any{r.Code.word()}
	switch r.Code {
	case ErrNotOwned, ErrStaleBase, ErrOldGeneration:
		numbers = append(numbers, r.Generation)
	case ErrOld, ErrNotHolder, ErrVersion:
		numbers = append(numbers, r.Number)
	case ErrJobHeld, ErrGrace, ErrNotYet:
		numbers = append(numbers, r.Until)
	case ErrHeld:
		numbers = append(numbers, r.Task, r.Kind, r.Number)
	}
	return strings.TrimSuffix(fmt.Sprintln(numbers...), "\n")
}

// done returns nil for HS_DONE, and otherwise a *Refused. told holds nothing but
// what the code set, since it was zeroed before the call.
func done(code C.int32_t, told *C.struct_hs_told) error {
	if code == C.HS_DONE {
		return nil
	}
	refused := &Refused{Code: Code(code)}
	if told != nil {
		refused.Number = uint64(told.number)
		refused.Generation = uint64(told.generation)
		refused.Kind = Kind(told.kind)
		refused.Task = uint64(told.task)
		refused.Until = uint64(told.until)
		refused.Covering = uint64(told.covering)
	}
	return refused
}
