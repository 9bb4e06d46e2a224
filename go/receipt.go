package hourstable

/*
#include "hourstable.h"

// What a call returns, by value, so that it does not escape to Go's heap.
struct received {
    int32_t code;
    size_t needed;
    struct hs_receipt receipt;
};

// needed is SIZE_MAX if the clock refuses, and no call is made.
static struct received receive(struct hs_place *place, struct hs_task_clock *clock, uint64_t now,
                               struct hs_policy policy, const uint8_t *grant, size_t grant_len, uint64_t ticket,
                               uint8_t *out, size_t out_len) {
    struct received it = {.needed = SIZE_MAX, .receipt = {.ticket = ticket}};
    it.code = hs_slicelet_receive(place, clock, now, &policy, grant, grant_len, &it.receipt, out, out_len, &it.needed);
    return it;
}
*/
import "C"

// Receipt is a grant that a task received, for Receive of a Slicelet: what the last call
// passed and wrote. It may be used again.
type Receipt struct {
	Ticket   uint64 // the place of the next call among all calls of the job: draw it before
	At       uint64 // the task's reading at which the last call was made
	Lease    Served // the lease of the grant, with a Covering of 0; zero if it was not heard
	Evidence bool   // whether the grant shows that clocks are not timely, and was not heard
	Called   bool   // whether the last call was made; if not, there was no reading, and it has no line

	// Line is the line of the last call for the log, with its line feed, and empty if the
	// grant is evidence. If the slice has no capacity, no line is wanted.
	Line []byte
}

// Receive receives a grant, given as its message: it reads the local clock and then
// clock, hears the grant at that reading as Hear does, unless it shows that clocks are
// not timely, and writes the line of that call, in one call of the library, which
// decodes the message once. policy is that of the table. local must not use clock; nil is
// LocalTicks. The codes of TaskClock.Read, with which no call is made, ErrWrongForm if a
// number of the policy is outside its limits, then those of Hear, of which those of the
// slicelet have a line. After a code of messages the clock is as before.
func (s *Slicelet) Receive(clock *TaskClock, local func() (uint64, error), policy Policy, grant []byte,
	receipt *Receipt) error {
	if room := len(grant) + LineRoom; cap(receipt.Line) > 0 && cap(receipt.Line) < room {
		receipt.Line = make([]byte, 0, room) // the line has what the grant says
	}
	s.mutex.Lock()
	defer s.mutex.Unlock()
	clock.mutex.Lock()
	defer clock.mutex.Unlock()
	line := receipt.Line[:cap(receipt.Line)]
	*receipt = Receipt{Ticket: receipt.Ticket, Line: line[:0]}
	now, err := localOr(local)()
	if err != nil {
		return err
	}
	var it C.struct_received
	for room := line; ; room = make([]byte, it.needed) {
		it = C.receive(&s.c, &clock.c, C.uint64_t(now), policy.c(), first(grant), C.size_t(len(grant)),
			C.uint64_t(receipt.Ticket), first(room), C.size_t(len(room)))
		if line = room; it.code != C.HS_NO_ROOM {
			break
		}
	}
	if it.code >= 0 && it.needed != C.SIZE_MAX {
		receipt.Called, receipt.At, receipt.Line = true, uint64(it.receipt.at), line[:it.needed]
		receipt.Evidence = it.receipt.evidence == 1
	}
	told := it.receipt.told
	if it.code == C.HS_DONE && !receipt.Evidence {
		receipt.Lease = leaseOf(told)
	}
	return done(it.code, &told)
}
