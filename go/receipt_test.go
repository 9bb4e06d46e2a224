package hourstable_test

import (
	"errors"
	"fmt"
	"strings"
	"testing"

	. "hourstable"
)

const grantLine = `"grant":{"ends":130,"generation":3,"kind":"guard","life":1,"number":7,` +
	`"ranges":[[0,9223372036854775808]],"task":2,"until":140}`

// A grant of a policy with a guard of 100 was made at 40 of the table, and the skew is 10. The
// clock is 6 ahead of the local one.
func TestReceive(t *testing.T) {
	for _, room := range []int{0, 1, LineRoom} {
		task, clock := newSlicelet(t, 2), newClock(t)
		succeeds(t, "start", task.Start(1, 5))
		receipt := Receipt{Ticket: 20, Line: make([]byte, 0, room)}
		receive := func(now uint64, grant []byte) error {
			receipt.Ticket++
			return task.Receive(clock, func() (uint64, error) { return now, nil }, policy, grant, &receipt)
		}
		line := func(what, wanted string) {
			t.Helper()
			if wanted != "" {
				wanted = fmt.Sprintf("{\"at\":%d,\"do\":\"hear\",%s,\"task\":2,\"ticket\":%d}\n", receipt.At, wanted, receipt.Ticket)
			}
			if room == 0 {
				wanted = ""
			}
			is(t, what+": the line", string(receipt.Line), wanted)
		}
		refuses(t, "before a sample", receive(0, grant(7, 3, 130)), ErrNoSample, "no-sample")
		is(t, "whether it was called", receipt.Called, false)
		line("before a sample", "")
		succeeds(t, "sample", clock.Sample(0, 6, 0))

		succeeds(t, "evidence", receive(23, grant(7, 3, 130)))
		is(t, "evidence", receipt.Evidence && receipt.Called, true)
		is(t, "the lease of evidence", receipt.Lease, Served{})
		line("evidence", "")
		_, err := task.Serve([]byte("hello"), 29)
		refuses(t, "a key after evidence", err, ErrNoLease, "no-lease")

		succeeds(t, "receive", receive(24, grant(7, 3, 130)))
		is(t, "no evidence", receipt.Evidence, false)
		is(t, "the reading", receipt.At, 30)
		is(t, "the lease", receipt.Lease, Served{Kind: Guard, Generation: 3, Number: 7, Until: 130})
		line("receive", grantLine+`,"reply":"heard 7"`)

		refuses(t, "again", receive(25, grant(7, 3, 130)), ErrOld, "old 7")
		is(t, "whether it was called", receipt.Called, true)
		is(t, "the lease of a refusal", receipt.Lease, Served{})
		line("again", grantLine+`,"reply":"refused old 7"`)

		refuses(t, "no message", receive(26, []byte("{")), ErrNotJSON, "not-json")
		is(t, "whether it was called", receipt.Called, false)
		refuses(t, "before 25, and not before 26", receive(24, grant(8, 3, 130)), ErrClockBack, "clock-back")
		line("before 25", "")
		served, err := task.Serve([]byte("hello"), 31)
		succeeds(t, "serve", err)
		is(t, "what is held", served.Number, 7)
	}
}

func TestReceiveWithNoClock(t *testing.T) {
	task, clock, receipt := newSlicelet(t, 2), newClock(t), Receipt{}
	broken := errors.New("no clock")
	err := task.Receive(clock, func() (uint64, error) { return 0, broken }, policy, grant(7, 3, 130), &receipt)
	is(t, "the error of the local clock", errors.Is(err, broken), true)
	is(t, "whether it was called", receipt.Called, false)
}

// The lines are those of docs/AUDIT.md.
// A write has the line of docs/AUDIT.md, and one that no store answers so has none.
func TestLogWrite(t *testing.T) {
	revision, token := uint64(1<<63), TokenOf(1, 0xabff, 2)
	for reply, wanted := range map[StoreReply]string{WriteTaken: "taken", WriteRefused: "refused", WriteUnknown: "unknown"} {
		line, err := LogWrite(LoggedWrite{Ticket: 7, SliceKey: 9, Token: token, Reply: reply})
		told := `{"do":"write","reply":"` + wanted + `","slice_key":9,"ticket":7,"token":"00000001000000000000abff00000002"}`
		if err != nil || string(line) != told+"\n" {
			t.Errorf("the line is %s, %v, and not %s", line, err, told)
		}
		write := LoggedWrite{Ticket: 7, SliceKey: 9, Token: token, Reply: reply, Revision: &revision}
		line, err = LogWrite(write)
		if reply == WriteTaken && (err != nil || !strings.Contains(string(line), `"revision":9223372036854775808,`)) {
			t.Errorf("the line is %s, %v", line, err)
		}
		if reply != WriteTaken && !errors.Is(err, ErrWrongForm) {
			t.Errorf("a write that was %s has a revision: %s, %v", wanted, line, err)
		}
	}
	for _, wrong := range []LoggedWrite{{SliceKey: 1 << 63, Reply: WriteTaken}, {}, {Reply: 5}, {Reply: 1}} {
		if line, err := LogWrite(wrong); !errors.Is(err, ErrWrongForm) {
			t.Errorf("%+v has the line %s, %v", wrong, line, err)
		}
	}
}

func TestLogLine(t *testing.T) {
	note := []byte(`{"job":"shop","type":"note","value":{"kind":"guard","life":1,"number":"7","task":2},"version":2}`)
	handle := Handle{Task: 2, SliceKey: 5, Position: 9, Life: 1}
	lease := Served{Kind: Guard, Generation: 3, Number: 7, Until: 130}
	held := &Refused{Code: ErrHeld, Task: 2, Kind: Guard, Number: 7}
	for _, it := range []struct {
		call    LoggedCall
		message []byte
		line    string
	}{
		{LoggedCall{Call: CallOpen, Task: 2, Life: 4}, nil, `"do":"open","life":4,"reply":"opened 4","task":2`},
		{LoggedCall{Call: CallSample, Task: 2, At: 9, Sent: 5, Reading: 60}, nil,
			`"do":"sample","now":9,"reading":60,"reply":"sampled","sent":5,"task":2`},
		{LoggedCall{Call: CallStart, Task: 2, Life: 1, At: 8, Err: &Refused{Code: ErrOldLife}}, nil,
			`"at":8,"do":"start","life":1,"reply":"refused old-life","task":2`},
		{LoggedCall{Call: CallHear, Task: 2, At: 30, Lease: lease}, grant(7, 3, 130),
			`"at":30,"do":"hear",` + grantLine + `,"reply":"heard 7","task":2`},
		{LoggedCall{Call: CallRelease, Task: 2, Kind: Guard, At: 31}, note,
			`"at":31,"do":"release","kind":"guard","reply":"released life 1 number 7","task":2`},
		{LoggedCall{Call: CallServe, Task: 2, SliceKey: 5, At: 31, Lease: lease}, nil,
			`"at":31,"do":"serve","reply":"served guard 3","slice_key":5,"task":2`},
		{LoggedCall{Call: CallHold, Task: 2, SliceKey: 5, At: 31, Handle: handle, Lease: lease}, nil,
			`"at":31,"do":"hold","reply":"handle life 1 position 9","slice_key":5,"task":2`},
		{LoggedCall{Call: CallCheck, Task: 2, Handle: handle, At: 32}, nil,
			`"at":32,"do":"check","handle":{"life":1,"position":9,"slice_key":5,"task":2},"reply":"continuous","task":2`},
		{LoggedCall{Call: CallTake, Assigner: 4, At: 1, JobTerm: Term{Number: 2, Assigner: 4, Until: 90}}, nil,
			`"assigner":4,"at":1,"do":"take","reply":"term 2 until 90"`},
		{LoggedCall{Call: CallPropose, Term: 2, At: 1}, assignment(3, `[["0",[1]]]`),
			`"at":1,"do":"propose","generation":3,"reply":"proposed 3","slices":[[0,[1]]],"term":2`},
		{LoggedCall{Call: CallCommit, Term: 2, At: 1, Committed: 3}, nil,
			`"at":1,"do":"commit","reply":"committed 3","term":2`},
		{LoggedCall{Call: CallCommit, Term: 2, At: 1, Err: held}, nil,
			`"at":1,"do":"commit","reply":"refused held 2 guard 7","term":2`},
		{LoggedCall{Call: CallPhase, Phase: Phase{Committed: 3, Proposed: 4}}, nil,
			`"do":"phase","reply":"phase bridging 3 4"`},
		{LoggedCall{Call: CallLook, Clerk: 1, SliceKey: 5, Owners: Owners{Generation: 3, Tasks: []uint64{1, 2}}}, nil,
			`"clerk":1,"do":"look","reply":"found generation 3 owners 1,2","slice_key":5`},
	} {
		it.call.Ticket = 21
		line, err := LogLine("shop", it.call, it.message)
		succeeds(t, it.line, err)
		is(t, "a line", string(line), "{"+it.line+`,"ticket":21}`+"\n")
	}
	_, err := LogLine("shop", LoggedCall{Call: 99}, nil)
	refuses(t, "a call of no number", err, ErrWrongForm, "wrong-form")
	_, err = LogLine(strings.Repeat("j", 65), LoggedCall{Call: CallForget, Clerk: 1}, nil)
	refuses(t, "no name of a job", err, ErrWrongForm, "wrong-form")
}
