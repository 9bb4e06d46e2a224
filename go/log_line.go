package hourstable

// #include "hourstable.h"
import "C"

import "errors"

// Call is a call of which a line of a log may be: the number of an hs_call.
type Call uint32

// The calls of a table, of a slicelet and of a clerk, and the sample of a task's clock.
const (
	CallTake    = Call(C.HS_CALL_TAKE)
	CallRenew   = Call(C.HS_CALL_RENEW)
	CallPropose = Call(C.HS_CALL_PROPOSE)
	CallCommit  = Call(C.HS_CALL_COMMIT)
	CallGrant   = Call(C.HS_CALL_GRANT)
	CallFree    = Call(C.HS_CALL_FREE)
	CallLose    = Call(C.HS_CALL_LOSE)
	CallPhase   = Call(C.HS_CALL_PHASE)
	CallRestore = Call(C.HS_CALL_RESTORE)
	CallOpen    = Call(C.HS_CALL_OPEN)
	CallStart   = Call(C.HS_CALL_START)
	CallHear    = Call(C.HS_CALL_HEAR)
	CallRelease = Call(C.HS_CALL_RELEASE)
	CallServe   = Call(C.HS_CALL_SERVE)
	CallHold    = Call(C.HS_CALL_HOLD)
	CallCheck   = Call(C.HS_CALL_CHECK)
	CallLearn   = Call(C.HS_CALL_LEARN)
	CallLook    = Call(C.HS_CALL_LOOK)
	CallForget  = Call(C.HS_CALL_FORGET)
	CallSample  = Call(C.HS_CALL_SAMPLE)
)

// LoggedCall is a call for LogLine: what was passed, what it returned, and what it
// wrote. The comments name the calls of each member; the others are not looked at.
type LoggedCall struct {
	Ticket    uint64 // the place of the call among all calls of the job (docs/AUDIT.md)
	Call      Call
	Err       error  // what the call returned: nil or a *Refused
	Task      uint64 // each call of a slicelet, CallGrant, CallSample
	Clerk     uint64 // each call of a clerk: its number in the job, from 1
	Assigner  uint64 // CallTake
	Term      uint64 // CallRenew, CallPropose, CallCommit
	At        uint64 // each call that is passed a reading; CallSample: the local reading now
	SliceKey  uint64 // CallServe, CallHold, CallLook
	Life      uint32 // CallGrant, CallStart, CallOpen; 0 for NewSlicelet
	Kind      Kind   // CallRelease
	Count     uint64 // CallFree, CallLose
	Lease     Served // CallHear, CallServe, CallHold: what was returned
	Committed uint64 // CallCommit: what was returned
	JobTerm   Term   // CallTake, CallRenew: what was returned
	Phase     Phase  // CallPhase: what was returned
	Handle    Handle // CallCheck: what was passed; CallHold: what was returned
	Owners    Owners // CallLook: what was returned
	Sent      uint64 // CallSample
	Reading   uint64 // CallSample
}

// LogLine returns the line of a call for hourstable audit (docs/AUDIT.md), with its line
// feed. message is what CallPropose, CallFree, CallRestore, CallHear or CallLearn passed,
// or what CallGrant or CallRelease returned, and nil for other calls. Write the line
// before the reply leaves the process. A call whose code is negative was none of the job,
// and has no line. ErrWrongForm if the name is not that of a job or there is no such call,
// codes of messages, then ErrWrongForm if the call returns no such code or a number is
// outside its limits.
func LogLine(job string, call LoggedCall, message []byte) ([]byte, error) {
	name, given := []byte(job), call.c()
	return text(LineRoom+len(message), func(to buffer) C.int32_t {
		return C.hs_log_line(first(name), C.size_t(len(name)), &given, first(message), C.size_t(len(message)),
			to.at, to.length, to.needed)
	})
}

// StoreReply is what a store said of a write.
type StoreReply uint32

// What a store said: it took the write, it refused it, or no answer came.
const (
	WriteTaken   = StoreReply(C.HS_STORE_TAKEN)
	WriteRefused = StoreReply(C.HS_STORE_REFUSED)
	WriteUnknown = StoreReply(C.HS_STORE_UNKNOWN)
)

// LoggedWrite is a write to a store that compares fencing tokens, for LogWrite.
type LoggedWrite struct {
	Ticket   uint64 // that of the call with which the task got the token, or a later one
	SliceKey uint64
	Token    Token
	Reply    StoreReply

	// Revision is the number that the store gave a write that it took: of two writes of a
	// key, the one that it took later has the greater one. nil if it gave none.
	Revision *uint64
}

// LogWrite returns the line of a write for hourstable audit (docs/AUDIT.md), with its line
// feed. ErrWrongForm if there is no such slice key or reply, or a write that was not taken
// has a revision.
func LogWrite(write LoggedWrite) ([]byte, error) {
	given := C.struct_hs_logged_write{
		ticket: C.uint64_t(write.Ticket), slice_key: C.uint64_t(write.SliceKey), token: *write.Token.c(),
		reply: C.uint32_t(write.Reply),
	}
	if write.Reply == C.HS_STORE_NUMBERED || write.Revision != nil && write.Reply != WriteTaken {
		return nil, ErrWrongForm
	}
	if write.Revision != nil {
		given.revision, given.reply = C.uint64_t(*write.Revision), C.HS_STORE_NUMBERED
	}
	return text(LineRoom, func(to buffer) C.int32_t {
		return C.hs_log_write(&given, to.at, to.length, to.needed)
	})
}

func (l LoggedCall) c() C.struct_hs_logged_call {
	it := C.struct_hs_logged_call{
		ticket: C.uint64_t(l.Ticket), call: C.uint32_t(l.Call), task: C.uint64_t(l.Task), clerk: C.uint64_t(l.Clerk),
		assigner: C.uint64_t(l.Assigner), term: C.uint64_t(l.Term), at: C.uint64_t(l.At),
		slice_key: C.uint64_t(l.SliceKey), life: C.uint32_t(l.Life), kind: C.uint32_t(l.Kind),
		count: C.uint64_t(l.Count), handle: l.Handle.c(), phase: l.Phase.c(),
		sent: C.uint64_t(l.Sent), reading: C.uint64_t(l.Reading),
	}
	it.job_term = C.struct_hs_job_term{number: C.uint64_t(l.JobTerm.Number),
		assigner: C.uint64_t(l.JobTerm.Assigner), until: C.uint64_t(l.JobTerm.Until)}
	it.owners = C.struct_hs_owners{generation: C.uint64_t(l.Owners.Generation), count: C.uint64_t(len(l.Owners.Tasks))}
	for at, task := range l.Owners.Tasks {
		if at < len(it.owners.tasks) {
			it.owners.tasks[at] = C.uint64_t(task)
		}
	}
	told := Refused{Kind: l.Lease.Kind, Generation: l.Lease.Generation, Number: l.Lease.Number, Until: l.Lease.Until}
	if l.Call == CallCommit {
		told.Generation = l.Committed
	}
	var refused *Refused
	if errors.As(l.Err, &refused) {
		it.code, told = C.int32_t(refused.Code), *refused
	}
	it.told = C.struct_hs_told{number: C.uint64_t(told.Number), generation: C.uint64_t(told.Generation),
		kind: C.uint64_t(told.Kind), task: C.uint64_t(told.Task), until: C.uint64_t(told.Until)}
	return it
}
