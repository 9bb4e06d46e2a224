package hourstable_test

import (
	"errors"
	"fmt"
	"math/rand"
	"strings"
	"testing"

	. "hourstable"
)

const (
	everyKey = `[["0","9223372036854775808"]]`
	half     = uint64(1) << 62
)

// policy is that of examples/c/job.c.
var policy = Policy{Low: 1, High: 1, Skew: 10, Guard: 100, Bridge: 100, Job: 1000, Numbers: 1000}

func assignment(generation int, slices string) []byte {
	return []byte(fmt.Sprintf(`{"job":"shop","type":"assignment","value":{"generation":"%d","slices":%s},"version":2}`,
		generation, slices))
}

// grant is a guard of all keys for task 2 in life 1, which ends at ends of its clock.
func grant(number, generation, ends int) []byte {
	return []byte(fmt.Sprintf(`{"job":"shop","type":"grant","value":{"ends":"%d","generation":"%d","kind":"guard",`+
		`"life":1,"number":"%d","ranges":%s,"task":2,"until":"%d"},"version":2}`,
		ends, generation, number, everyKey, ends+10))
}

func is[T comparable](t *testing.T, what string, got, wanted T) {
	t.Helper()
	if got != wanted {
		t.Errorf("%s: %v, not %v", what, got, wanted)
	}
}

func succeeds(t *testing.T, what string, err error) {
	t.Helper()
	if err != nil {
		t.Fatalf("%s: %v", what, err)
	}
}

// refuses compares the code by errors.Is, and the reply of scripts.
func refuses(t *testing.T, what string, err error, code Code, reply string) {
	t.Helper()
	var refused *Refused
	if !errors.Is(err, code) || !errors.As(err, &refused) {
		t.Errorf("%s: %v, not %v", what, err, code)
		return
	}
	is(t, what, refused.Reply(), reply)
	is(t, what, err.Error(), "hourstable: "+reply)
}

func newSlicelet(t *testing.T, task uint64) *Slicelet {
	t.Helper()
	slicelet, err := NewSlicelet("shop", task)
	succeeds(t, "a slicelet", err)
	t.Cleanup(func() { slicelet.Close() })
	return slicelet
}

// The slice key is the one by which the library holds a key: of every length to 4,096 bytes, and of
// 100,000 keys at random.
func TestSliceKeys(t *testing.T) {
	task := newSlicelet(t, 2)
	succeeds(t, "start", task.Start(1, 5))
	succeeds(t, "hear", task.Hear(grant(7, 3, 130), 6))
	random := rand.New(rand.NewSource(7))
	check := func(length int) {
		key := make([]byte, length)
		random.Read(key)
		handle, err := task.Hold(key, 7)
		if err != nil || handle.SliceKey != SliceKey(key) {
			t.Fatalf("%x: %d, not %d: %v", key, SliceKey(key), handle.SliceKey, err)
		}
	}
	for length := 0; length <= 4096; length++ {
		check(length)
	}
	for at := 0; at < 100_000; at++ {
		check(random.Intn(100))
	}
	is(t, "the slice key of hello", SliceKey([]byte("hello")), 1619368272448737671)
}

// steadyTable has the assignment of all keys to task 1 committed, as in
// examples/c/job.c.
func steadyTable(t *testing.T) *Table {
	t.Helper()
	table, err := NewTable("shop", policy)
	succeeds(t, "a table", err)
	t.Cleanup(func() { table.Close() })
	term, err := table.Take(1, 0)
	succeeds(t, "take", err)
	is(t, "the term", term, Term{Number: 1, Assigner: 1, Until: 1000})
	succeeds(t, "propose", table.Propose(1, assignment(1, `[["0",[1]]]`), 1))
	generation, err := table.Commit(1, 2)
	succeeds(t, "commit", err)
	is(t, "the generation", generation, 1)
	return table
}

// The steps of examples/c/job.c.
func TestHandOver(t *testing.T) {
	table, task := steadyTable(t), newSlicelet(t, 1)
	succeeds(t, "start", task.Start(1, 0))
	grant, err := table.Grant(1, 1, 5)
	succeeds(t, "grant", err)
	succeeds(t, "hear", task.Hear(grant, 6))
	served, err := task.Serve([]byte("hello"), 7)
	succeeds(t, "serve", err)
	is(t, "the lease", served, Served{Kind: Guard, Generation: 1, Number: 1, Until: 95, Covering: 1})
	succeeds(t, "propose", table.Propose(1, assignment(2, `[["0",[2]]]`), 20))
	_, err = table.Commit(1, 21)
	refuses(t, "commit, held", err, ErrHeld, "held 1 guard 1")
	note, err := task.Release(Guard, 22)
	succeeds(t, "release", err)
	is(t, "the note", string(note),
		`{"job":"shop","type":"note","value":{"kind":"guard","life":1,"number":"1","task":1},"version":2}`)
	_, err = task.Serve([]byte("hello"), 22)
	refuses(t, "serve, no lease", err, ErrNoLease, "no-lease")
	freed, err := table.Free(note, 23)
	succeeds(t, "free", err)
	is(t, "freed", freed, 1)
	generation, err := table.Commit(1, 24)
	succeeds(t, "commit", err)
	is(t, "the generation", generation, 2)
	committed, err := table.Committed()
	succeeds(t, "committed", err)
	is(t, "the assignment", string(committed), string(assignment(2, `[["0",[2]]]`)))
}

func TestRefusalsOfASlicelet(t *testing.T) {
	task := newSlicelet(t, 2)
	_, err := task.Serve([]byte("apples"), 1)
	refuses(t, "serve before a start", err, ErrDown, "down")
	refuses(t, "hear before a start", task.Hear(grant(7, 3, 8), 1), ErrNotStarted, "not-started")
	succeeds(t, "start", task.Start(1, 3))
	refuses(t, "the same life", task.Start(1, 4), ErrOldLife, "old-life")
	refuses(t, "bytes", task.Hear(nil, 4), ErrNotJSON, "not-json")
	refuses(t, "another job", task.Hear([]byte(`{"job":"store","type":"grant","value":{"ends":"8","generation":"3",`+
		`"kind":"guard","life":1,"number":"7","ranges":[],"task":2,"until":"10"},"version":2}`), 4),
		ErrOtherJob, "other-job")
	refuses(t, "a version", task.Hear([]byte(`{"version":3}`), 4), ErrVersion, "version 3")
	succeeds(t, "hear", task.Hear(grant(7, 3, 8), 5))
	refuses(t, "hear again", task.Hear(grant(7, 3, 9), 5), ErrOld, "old 7")
	refuses(t, "hear too late", task.Hear(grant(8, 3, 6), 6), ErrTooLate, "too-late")
	_, err = task.Serve(nil, 4)
	refuses(t, "a reading that goes back", err, ErrClockBack, "clock-back")
	_, err = task.Serve([]byte("apples"), 8)
	refuses(t, "at the end", err, ErrEnded, "ended")
	_, err = task.Release(Bridge, 8)
	refuses(t, "release of no bridge", err, ErrNothingHeld, "nothing-held")
	_, err = task.Held(3)
	refuses(t, "no kind", err, ErrWrongForm, "wrong-form")
	left, err := task.CallsLeft()
	succeeds(t, "calls left", err)
	is(t, "calls left", left, 65536-2)
	_, err = NewSlicelet("shop", 65)
	refuses(t, "a task above 64", err, ErrWrongForm, "wrong-form")
}

// A key that task 2 does not own: its grant is of the upper half, and "hello" is in
// the lower.
func TestNotOwned(t *testing.T) {
	task := newSlicelet(t, 2)
	succeeds(t, "start", task.Start(1, 3))
	upper := `{"job":"shop","type":"grant","value":{"ends":"8","generation":"3","kind":"bridge","life":1,"number":"7",` +
		`"ranges":[["4611686018427387904","9223372036854775808"]],"task":2,"until":"10"},"version":2}`
	succeeds(t, "hear", task.Hear([]byte(upper), 5))
	_, err := task.Serve([]byte("hello"), 6)
	refuses(t, "the lower half", err, ErrNotOwned, "not-owned 3")
	_, err = task.HoldAt(half-1, 6)
	refuses(t, "the last key of the lower half", err, ErrNotOwned, "not-owned 3")
	served, err := task.ServeAt(half, 6)
	succeeds(t, "the first key of the upper half", err)
	is(t, "the lease", served, Served{Kind: Bridge, Generation: 3, Number: 7, Until: 8, Covering: 3})
	ranges, err := task.Permitted(6)
	succeeds(t, "permitted", err)
	is(t, "the upper half", fmt.Sprint(ranges), fmt.Sprint([]Range{{half, 2 * half}}))
	ranges, err = task.Permitted(8)
	succeeds(t, "permitted", err)
	is(t, "no key", len(ranges), 0)
	_, err = task.ServeAt(2*half, 6)
	refuses(t, "no slice key", err, ErrWrongForm, "wrong-form")
	lease, err := task.Held(Bridge)
	succeeds(t, "held", err)
	is(t, "the held lease", lease, Lease{Number: 7, Generation: 3, Until: 8})
}

func TestHandles(t *testing.T) {
	task := newSlicelet(t, 2)
	succeeds(t, "start", task.Start(1, 3))
	succeeds(t, "hear", task.Hear(grant(7, 3, 8), 5))
	handle, err := task.Hold([]byte("hello"), 5)
	succeeds(t, "hold", err)
	is(t, "the handle", [3]uint64{handle.Task, handle.SliceKey, uint64(handle.Life)}, [3]uint64{2, 0x167926dd2fd85187, 1})
	succeeds(t, "a renewal", task.Hear(grant(8, 3, 20), 6))
	succeeds(t, "check after a renewal", task.Check(handle, 19))
	refuses(t, "check at the end", task.Check(handle, 20), ErrBroken, "broken")
	other := newSlicelet(t, 1)
	refuses(t, "check of a stranger's", other.Check(handle, 6), ErrStranger, "stranger")
}

// What a task does next, through a hand-over.
func TestNext(t *testing.T) {
	table, task := steadyTable(t), newSlicelet(t, 1)
	next := func(at uint64, wanted TaskAction) {
		t.Helper()
		phase, err := table.Phase()
		succeeds(t, "phase", err)
		action, err := task.Next(phase, at)
		succeeds(t, "next", err)
		is(t, "what the task does next", action, wanted)
	}
	hear := func(at uint64) {
		t.Helper()
		grant, err := table.Grant(1, 1, at)
		succeeds(t, "grant", err)
		succeeds(t, "hear", task.Hear(grant, at))
	}
	next(3, StartLife)
	succeeds(t, "start", task.Start(1, 3))
	next(3, AskGuard)
	hear(4)
	next(4, TaskRest)
	succeeds(t, "propose", table.Propose(1, assignment(2, `[["0",[1]]]`), 5))
	next(5, AskBridge)
	hear(6)
	next(6, GiveUpGuard)
	_, err := task.Next(Phase{Committed: 1, Proposed: 3}, 6)
	refuses(t, "no phase", err, ErrWrongForm, "wrong-form")
}

// The grant is made at 5 with a guard of 100 ticks: its row ends at 105, and its
// lease at 95.
func TestRestore(t *testing.T) {
	table := steadyTable(t)
	_, err := table.Grant(1, 1, 5)
	succeeds(t, "grant", err)
	rows, err := table.Rows()
	succeeds(t, "rows", err)
	is(t, "how many rows", len(rows), 1)
	is(t, "the row", rows[0], Row{Number: 1, Task: 1, Life: 1, Kind: Guard, Generation: 1, TableEnds: 105})
	kept, err := table.Kept()
	succeeds(t, "kept", err)
	is(t, "what is kept", string(kept), `{"job":"shop","type":"kept","value":{"committed":{"generation":"1","slices":`+
		`[["0",[1]]]},"deadline":"105","granted":"1","last":"5","pending":null,"policy":{"bridge":100,"guard":100,`+
		`"job":1000,"numbers":1000,"redundancy":[1,1],"skew":10},"term":{"assigner":"1","number":"1","until":"1000"}},`+
		`"version":2}`)
	lost, err := table.Restart()
	succeeds(t, "restart", err)
	is(t, "lost rows", lost, 1)

	restored, err := RestoreTable("shop", policy, kept)
	succeeds(t, "restore", err)
	defer restored.Close()
	succeeds(t, "propose", restored.Propose(1, assignment(2, `[["0",[2]]]`), 20))
	_, err = restored.Commit(1, 104)
	refuses(t, "commit in the grace", err, ErrGrace, "grace 105")
	generation, err := restored.Commit(1, 105)
	succeeds(t, "commit after the grace", err)
	is(t, "the generation", generation, 2)

	other := policy
	other.Guard = 101
	_, err = RestoreTable("shop", other, kept)
	refuses(t, "another policy", err, ErrOtherPolicy, "other-policy")
	_, err = RestoreTable("store", policy, kept)
	refuses(t, "another job", err, ErrOtherJob, "other-job")
}

// The table has made one grant, at 5, whose row ends at 105. Saved 10 grants and 50
// ticks ahead, it has made 11, at 55, whose rows end by 155.
func TestSave(t *testing.T) {
	table := steadyTable(t)
	_, err := table.Grant(1, 1, 5)
	succeeds(t, "grant", err)
	kept, err := table.Kept()
	succeeds(t, "kept", err)
	ahead := strings.NewReplacer(`"deadline":"105"`, `"deadline":"155"`, `"granted":"1"`, `"granted":"11"`,
		`"last":"5"`, `"last":"55"`).Replace(string(kept))
	saved, err := table.Save(nil, 10, 50)
	succeeds(t, "save", err)
	is(t, "what is saved", string(saved), ahead)
	_, err = table.Grant(1, 1, 55)
	succeeds(t, "a grant that is covered", err)
	again, err := table.Save(saved, 10, 50)
	succeeds(t, "save again", err)
	is(t, "nothing has to be saved", again == nil, true)
	_, err = table.Grant(1, 1, 56)
	succeeds(t, "a grant that is not covered", err)
	again, err = table.Save(saved, 10, 50)
	succeeds(t, "save of more", err)
	is(t, "something has to be saved", again == nil, false)
	_, err = table.Save([]byte("{"), 10, 50)
	refuses(t, "save in place of bytes", err, ErrNotJSON, "not-json")
}

func TestReadGrant(t *testing.T) {
	read, err := ReadGrant("shop", grant(7, 3, 8))
	succeeds(t, "read", err)
	is(t, "the grant", fmt.Sprint(read), "{7 2 1 guard 3 8 18 [{0 9223372036854775808}]}")
	_, err = ReadGrant("store", grant(7, 3, 8))
	refuses(t, "a grant of another job", err, ErrOtherJob, "other-job")
	var ranges, wanted []string
	for start := 0; start < 200; start += 2 {
		ranges = append(ranges, fmt.Sprintf(`["%d","%d"]`, start, start+1))
		wanted = append(wanted, fmt.Sprintf("{%d %d}", start, start+1))
	}
	long := strings.Replace(string(grant(7, 3, 8)), everyKey, "["+strings.Join(ranges, ",")+"]", 1)
	read, err = ReadGrant("shop", []byte(long))
	succeeds(t, "read of 100 ranges", err)
	is(t, "the ranges", fmt.Sprint(read.Ranges), "["+strings.Join(wanted, " ")+"]")
}

// Texts and rows of more than the first buffer. Each of 64 tasks owns every 64th of
// 1,024 slices, and asks for two grants.
func TestLongTexts(t *testing.T) {
	const slices = 1024
	table := steadyTable(t)
	var owned, ranges []string
	for slice := uint64(0); slice < slices; slice++ {
		start := slice * (2 * half / slices)
		owned = append(owned, fmt.Sprintf(`["%d",[%d]]`, start, slice%64+1))
		if slice%64 == 4 {
			ranges = append(ranges, fmt.Sprintf(`["%d","%d"]`, start, start+2*half/slices))
		}
	}
	wide := assignment(2, "["+strings.Join(owned, ",")+"]")
	succeeds(t, "propose", table.Propose(1, wide, 3))
	_, err := table.Commit(1, 4)
	succeeds(t, "commit", err)
	committed, err := table.Committed()
	succeeds(t, "committed", err)
	is(t, "the assignment", string(committed), string(wide))
	for number := uint64(1); number <= 128; number++ {
		grant, err := table.Grant((number-1)%64+1, 1, 5)
		succeeds(t, "grant", err)
		if number == 5 {
			is(t, "the grant", string(grant), `{"job":"shop","type":"grant","value":{"ends":"95","generation":"2",`+
				`"kind":"guard","life":1,"number":"5","ranges":[`+strings.Join(ranges, ",")+
				`],"task":5,"until":"105"},"version":2}`)
		}
	}
	rows, err := table.Rows()
	succeeds(t, "rows", err)
	is(t, "how many rows", len(rows), 128)
	is(t, "the last row", rows[127], Row{Number: 128, Task: 64, Life: 1, Kind: Guard, Generation: 2, TableEnds: 105})
}

func TestRefusalsOfATable(t *testing.T) {
	table := steadyTable(t)
	_, err := table.Take(2, 3)
	refuses(t, "take of a held lease", err, ErrJobHeld, "job-held 1000")
	_, err = table.Renew(2, 3)
	refuses(t, "renew of no term", err, ErrNotHolder, "not-holder 1")
	term, err := table.Renew(1, 3)
	succeeds(t, "renew", err)
	is(t, "the renewed term", term, Term{Number: 1, Assigner: 1, Until: 1003})
	refuses(t, "a stale base", table.Propose(1, assignment(3, `[["0",[1]]]`), 4), ErrStaleBase, "stale-base 1")
	refuses(t, "two owners", table.Propose(1, assignment(2, `[["0",[1,2]]]`), 4),
		ErrTooManyOwnersForJob, "too-many-owners-for-job")
	refuses(t, "no slice", table.Propose(1, assignment(2, `[]`), 4), ErrNoSlices, "no-slices")
	_, err = table.Commit(1, 4)
	refuses(t, "nothing to commit", err, ErrNothingPending, "nothing-pending")
	_, err = table.Grant(1, 1, 1<<62)
	refuses(t, "a reading of 2^62", err, ErrReadingRange, "reading-range")
	note, err := EndedNote("shop", 1, 1, Guard)
	succeeds(t, "the note of an ended life", err)
	_, err = table.Free(note, 5)
	refuses(t, "a note of no row", err, ErrNoRow, "no-row")
	for number := uint64(1); number <= 2; number++ {
		_, err = table.Grant(1, 1, 5)
		succeeds(t, "grant", err)
	}
	freed, err := table.Free(note, 6)
	succeeds(t, "free of the ended life", err)
	is(t, "freed", freed, 2)
}

func TestClerk(t *testing.T) {
	clerk, err := NewClerk("shop")
	succeeds(t, "a clerk", err)
	defer clerk.Close()
	_, err = clerk.Look([]byte("hello"))
	refuses(t, "look before it learned", err, ErrUnknown, "unknown")
	succeeds(t, "learn", clerk.Learn(assignment(4, `[["0",[64,3]],["4611686018427387904",[7]]]`)))
	owners, err := clerk.Look([]byte("hello"))
	succeeds(t, "look", err)
	is(t, "the owners", fmt.Sprint(owners), "{4 [3 64]}")
	owners, err = clerk.LookAt(half)
	succeeds(t, "look at the upper half", err)
	is(t, "the owner", fmt.Sprint(owners), "{4 [7]}")
	refuses(t, "an old generation", clerk.Learn(assignment(4, `[["0",[1]]]`)), ErrOldGeneration, "old 4")
	succeeds(t, "forget", clerk.Forget())
	_, err = clerk.LookAt(half)
	refuses(t, "look after it forgot", err, ErrUnknown, "unknown")
}

func TestAssigner(t *testing.T) {
	assigner, err := NewAssigner(1, 1000)
	succeeds(t, "an assigner", err)
	defer assigner.Close()
	next := func(at uint64, phase Phase, wanted bool, action Action, number uint64) {
		t.Helper()
		gotAction, gotNumber, err := assigner.Next(at, phase, wanted)
		succeeds(t, "next", err)
		is(t, "what the assigner does next", gotAction, action)
		is(t, "the term", gotNumber, number)
	}
	next(0, Phase{}, false, Take, 0)
	succeeds(t, "adopt", assigner.Adopt(Term{Number: 1, Assigner: 1, Until: 1000}))
	next(1, Phase{}, true, Propose, 1)
	next(1, Phase{Committed: 0, Proposed: 1}, false, Commit, 1)
	next(1, Phase{Committed: 1}, false, Rest, 1)
	refuses(t, "a term of another", assigner.Adopt(Term{Number: 2, Assigner: 2, Until: 2000}), ErrNotAdopted, "not-adopted")
	succeeds(t, "drop term", assigner.DropTerm())
	next(2, Phase{Committed: 1}, true, Take, 0)
}

// A hundred slices find no room at first, and the records are counted once all the
// same.
func TestLoads(t *testing.T) {
	book, err := NewLoadBook("shop")
	succeeds(t, "a load book", err)
	defer book.Close()
	slices := make([]string, 100)
	for at := range slices {
		slices[at] = fmt.Sprintf(`["%d",[1]]`, at<<50)
	}
	hundred := assignment(1, "["+strings.Join(slices, ",")+"]")
	loads, err := book.Gather(hundred, 2, []LoadRecord{
		{SliceKey: 99<<50 + 5, Weight: 7}, {SliceKey: 0, Weight: 1}, {SliceKey: 1<<50 - 1, Weight: 2},
		{SliceKey: 1 << 50, Weight: 1 << 32},
	})
	succeeds(t, "gather", err)
	is(t, "the loads", fmt.Sprint(loads), "[3 4294967296"+strings.Repeat(" 0", 97)+" 7]")
	one := assignment(2, `[["0",[1]]]`)
	loads, err = book.Gather(one, 2, nil)
	succeeds(t, "gather nothing", err)
	is(t, "the load of no record", fmt.Sprint(loads), "[0]")
	for task, wanted := range map[uint64]uint64{1: 0, 2: 1<<32 + 10, 64: 0} {
		total, err := book.Total(task)
		succeeds(t, "total", err)
		is(t, "the total", total, wanted)
	}
	_, err = book.Gather(one, 2, []LoadRecord{{SliceKey: 5}})
	refuses(t, "a weight of 0", err, ErrWeightRange, "weight-range")
	_, err = book.Gather(one, 2, make([]LoadRecord, 1))
	refuses(t, "a zero record", err, ErrWeightRange, "weight-range")
	heavy := make([]LoadRecord, 256)
	for at := range heavy {
		heavy[at].Weight = 1 << 32
	}
	_, err = book.Gather(one, 3, heavy)
	refuses(t, "2^40 more", err, ErrTotalRange, "total-range")
	_, err = book.Gather(one, 2, []LoadRecord{{SliceKey: 2 * half, Weight: 1}})
	refuses(t, "a record of no slice key", err, ErrWrongForm, "wrong-form")
	_, err = book.Total(65)
	refuses(t, "the total of task 65", err, ErrWrongForm, "wrong-form")
}

// The plan of examples/scripts/load-moves-a-slice.json.
func TestPlan(t *testing.T) {
	before := assignment(1, `[["0",[1]],["2305843009213693952",[1]],["4611686018427387904",[2]]]`)
	bounds := PlanPolicy{Low: 1, High: 1, Churn: 2 * half, Cold: 0, Hot: 100, Most: 1024}
	after, err := Plan("shop", before, []uint64{6, 4, 1}, []uint64{1, 2}, bounds)
	succeeds(t, "plan", err)
	is(t, "the plan", string(after),
		string(assignment(2, `[["0",[1]],["2305843009213693952",[2]],["4611686018427387904",[2]]]`)))
	_, err = Plan("shop", before, []uint64{6, 4, 1}, nil, bounds)
	refuses(t, "no tasks", err, ErrNoTasks, "no-tasks")
	_, err = Plan("shop", before, nil, []uint64{1}, bounds)
	refuses(t, "no loads", err, ErrLoadsLength, "loads-length")
}

// A drift of one tick in three, and a grain of one. 100 and six ticks are stretched
// by two more: 109 at 16.
func TestTaskClock(t *testing.T) {
	clock, err := NewTaskClock(Drift{Extra: 1, Per: 3, Grain: 1}, 30)
	succeeds(t, "a clock", err)
	_, err = clock.Read(5)
	refuses(t, "read before a sample", err, ErrNoSample, "no-sample")
	succeeds(t, "sample", clock.Sample(10, 100, 12))
	for _, it := range [][2]uint64{{12, 104}, {16, 109}} {
		value, err := clock.Read(it[0])
		succeeds(t, "read", err)
		is(t, "the value", value, it[1])
	}
	_, err = clock.Read(15)
	refuses(t, "read at 15", err, ErrClockBack, "clock-back")
	value, err := clock.ReadNow(func() (uint64, error) { return 16, nil })
	succeeds(t, "read now", err)
	is(t, "the value", value, 109)
	_, err = clock.Read(41)
	refuses(t, "read at 41", err, ErrTooOld, "too-old")
	refuses(t, "sent at 18", clock.Sample(18, 100, 17), ErrSentAhead, "sent-ahead")
	_, err = NewTaskClock(Drift{Extra: 1}, 30)
	refuses(t, "a drift in no ticks", err, ErrWrongForm, "wrong-form")
	broken := errors.New("no clock")
	_, err = clock.ReadNow(func() (uint64, error) { return 0, broken })
	is(t, "the local clock's error is returned", err == broken, true)
}

func TestTableClock(t *testing.T) {
	clock, err := OpenTableClock(1000, 100, 7)
	succeeds(t, "a clock", err)
	_, err = clock.Read(106)
	refuses(t, "read below what was kept", err, ErrNotYet, "not-yet 1000")
	for _, it := range [][2]uint64{{107, 1000}, {110, 1003}} {
		value, err := clock.Read(it[0])
		succeeds(t, "read", err)
		is(t, "the reading", value, it[1])
	}
	_, err = clock.Read(109)
	refuses(t, "read at 109", err, ErrClockBack, "clock-back")
}

// A grant that ends at 130 of the task's clock, with a skew of 10 and a guard of
// 100, was made at 40: of a reading below 30 it is evidence.
func TestClockEvidence(t *testing.T) {
	for at, wanted := range map[uint64]bool{29: true, 30: false} {
		shown, err := ClockEvidence("shop", grant(7, 3, 130), at, policy)
		succeeds(t, "evidence", err)
		is(t, fmt.Sprint("evidence at ", at), shown, wanted)
	}
	_, err := ClockEvidence("shop", []byte("{"), 30, policy)
	refuses(t, "no grant", err, ErrNotJSON, "not-json")
}

func TestResume(t *testing.T) {
	task, err := ResumeSlicelet("shop", 2, 4)
	succeeds(t, "resume", err)
	defer task.Close()
	refuses(t, "an earlier life", task.Start(4, 1), ErrOldLife, "old-life")
	succeeds(t, "a new life", task.Start(5, 1))
}

func TestClose(t *testing.T) {
	task, err := NewSlicelet("shop", 2)
	succeeds(t, "a slicelet", err)
	succeeds(t, "close", task.Close())
	succeeds(t, "close again", task.Close())
	refuses(t, "start of a closed one", task.Start(1, 1), ErrOtherPlace, "other-place")
}

func TestSliceKey(t *testing.T) {
	is(t, "SHA-256 of hello begins with 2cf24dba5fb0a30e", SliceKey([]byte("hello")), 0x167926dd2fd85187)
	is(t, "SHA-256 of nothing begins with e3b0c44298fc1c14", SliceKey(nil), 0x71d862214c7e0e0a)
}
