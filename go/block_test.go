package hourstable_test

import (
	"bytes"
	"errors"
	"fmt"
	"math"
	"reflect"
	"strings"
	"sync"
	"sync/atomic"
	"testing"

	. "hourstable"
)

// blockStep is a step of a task that may serve the lower half of the keys from 5 until
// 130, by a clock that is 6 ahead of the local one once it has its sample.
type blockStep struct {
	do  string // sample, enter or leave
	now uint64
	key string
	end string // how the line ends before its ticket; empty if there is none
}

const helloKey = `"slice_key":1619368272448737671,"task":2`

var blockSteps = []blockStep{
	{"enter", 0, "hello", ""}, // the clock has no sample
	{"sample", 0, "", ""},
	{"enter", 0, "hello", `"reply":"handle life 1 position 2",` + helloKey},
	{"leave", 9, "", `"handle":{"life":1,"position":2,` + helloKey + `},"reply":"continuous","task":2`},
	{"leave", 8, "", ""}, // the local clock went back
	{"enter", 10, "abc", `"reply":"denied not-owned 3","slice_key":6718257250126850037,"task":2`},
	{"enter", 11, "hello", `"reply":"handle life 1 position 2",` + helloKey},
	{"leave", 123, "", `"handle":{"life":1,"position":2,` + helloKey + `},"reply":"continuous","task":2`},
	{"leave", 124, "", `"handle":{"life":1,"position":2,` + helloKey + `},"reply":"broken","task":2`},
	{"enter", 125, "hello", `"reply":"denied ended",` + helloKey},
	{"sample", 126, "", ""},
	{"enter", 627, "hello", ""}, // the sample is too old
}

// halfTask may serve the lower half of the keys.
func halfTask(t *testing.T) *Slicelet {
	t.Helper()
	task := newSlicelet(t, 2)
	succeeds(t, "start", task.Start(1, 5))
	lower := bytes.ReplaceAll(grant(7, 3, 130), []byte("9223372036854775808"), []byte("4611686018427387904"))
	succeeds(t, "hear", task.Hear(lower, 6))
	return task
}

func newClock(t *testing.T) *TaskClock {
	t.Helper()
	clock, err := NewTaskClock(Drift{Extra: 0, Per: 1, Grain: 0}, 500)
	succeeds(t, "a clock", err)
	return clock
}

// parts is what the steps of a block are made of.
type parts struct {
	task   *Slicelet
	clock  *TaskClock
	handle Handle
	lease  Served
}

// play returns the reading of a step, whether its call was made, and its error.
func (p *parts) play(step blockStep) (uint64, bool, error) {
	at, err := p.clock.Read(step.now)
	switch {
	case err != nil:
		return 0, false, err
	case step.do == "leave":
		return at, true, p.task.Check(p.handle, at)
	}
	p.handle, p.lease, err = p.task.HoldServed([]byte(step.key), at)
	return at, true, err
}

// playBlock makes the fused call of a step.
func playBlock(task *Slicelet, clock *TaskClock, step blockStep, block *Block) error {
	local := func() (uint64, error) { return step.now, nil }
	switch {
	case step.do == "leave":
		return task.Leave(clock, local, block)
	case block.Ticket%2 == 1:
		return task.Enter(clock, local, []byte(step.key), block)
	}
	return task.EnterAt(clock, local, SliceKey([]byte(step.key)), block)
}

// checkBlocks compares each step with its parts. The first line has room bytes.
func checkBlocks(t *testing.T, ticket uint64, room int) {
	task, clock, block := halfTask(t), newClock(t), Block{Line: make([]byte, 0, room)}
	parts := parts{task: task, clock: newClock(t)}
	for _, step := range blockSteps {
		ticket++
		what := fmt.Sprintf("%s at %d with %d bytes", step.do, step.now, room)
		if step.do == "sample" {
			succeeds(t, what, clock.Sample(step.now, step.now+6, step.now))
			succeeds(t, what, parts.clock.Sample(step.now, step.now+6, step.now))
			continue
		}
		at, called, wanted := parts.play(step)
		block.Ticket = ticket
		err := playBlock(task, clock, step, &block)
		if !reflect.DeepEqual(err, wanted) {
			t.Errorf("%s: %v, not %v", what, err, wanted)
		}
		is(t, what+": whether it has a line", called, step.end != "")
		is(t, what+": whether it was called", block.Called, called)
		line := ""
		if called {
			is(t, what+": the reading", block.At, at)
			do := map[string]string{"enter": "hold", "leave": "check"}[step.do]
			line = fmt.Sprintf("{\"at\":%d,\"do\":\"%s\",%s,\"ticket\":%d}\n", at, do, step.end, ticket)
		}
		if room > 0 {
			is(t, what+": the line", string(block.Line), line)
		} else {
			is(t, what+": the line", string(block.Line), "")
		}
		if called && step.do == "enter" {
			is(t, what+": the handle", block.Handle, parts.handle)
			is(t, what+": the lease", block.Lease, parts.lease)
		}
	}
}

// A block is entered and left as by a reading of the clock, a hold and a check, with the
// lines of docs/AUDIT.md.
func TestBlocks(t *testing.T) {
	checkBlocks(t, 20, LineRoom)
	checkBlocks(t, math.MaxUint64-20, LineRoom)
	checkBlocks(t, 20, 1)
	checkBlocks(t, 20, 0)
}

func TestBlocksThatAreNotEntered(t *testing.T) {
	task, clock, block := halfTask(t), newClock(t), Block{Ticket: 1, Line: make([]byte, 0, LineRoom)}
	at := func(now uint64) func() (uint64, error) { return func() (uint64, error) { return now, nil } }
	succeeds(t, "sample", clock.Sample(0, 6, 0))
	broken := errors.New("no clock")
	err := task.Enter(clock, func() (uint64, error) { return 0, broken }, nil, &block)
	is(t, "the error of the local clock", errors.Is(err, broken), true)
	refuses(t, "no slice key", task.EnterAt(clock, at(90), 1<<63, &block), ErrWrongForm, "wrong-form")
	is(t, "whether it was called", block.Called, false)
	is(t, "the line", string(block.Line), "")
	succeeds(t, "enter at 1, which is before 90", task.Enter(clock, at(1), []byte("hello"), &block))
	is(t, "the reading", block.At, 7)
	other := newSlicelet(t, 1)
	refuses(t, "a stranger", other.Leave(clock, at(2), &block), ErrStranger, "stranger")
	is(t, "whether it was called", block.Called, true)
	is(t, "the end of its line", strings.HasSuffix(string(block.Line),
		"\"reply\":\"refused stranger\",\"task\":1,\"ticket\":1}\n"), true)
}

// A block reads the local clock, another goroutine the clock at a later reading, and then the block ends.
func TestABlockDoesNotTakeItsClockBack(t *testing.T) {
	task, clock, block := halfTask(t), newClock(t), Block{}
	succeeds(t, "sample", clock.Sample(0, 6, 0))
	late := func() (uint64, error) {
		value, err := clock.Read(40)
		is(t, "the reading at 40", value, 46)
		return 30, err
	}
	succeeds(t, "enter", task.Enter(clock, late, []byte("hello"), &block))
	is(t, "the reading of the block", block.At, 36)
	_, err := clock.Read(35)
	refuses(t, "before 40", err, ErrClockBack, "clock-back")
}

// A denied block has no handle of the block before it.
func TestABlockThatIsDeniedHasNoHandle(t *testing.T) {
	task, clock, block := halfTask(t), newClock(t), Block{}
	succeeds(t, "sample", clock.Sample(0, 6, 0))
	now := func() (uint64, error) { return 1, nil }
	succeeds(t, "enter", task.EnterAt(clock, now, 7, &block))
	err := task.EnterAt(clock, now, half, &block)
	is(t, "whether it is denied", errors.Is(err, ErrNotOwned), true)
	is(t, "the handle", block.Handle, Handle{})
	is(t, "the lease", block.Lease, Served{})
}

// A bridge of generation 4 covers the lower half beside a guard of generation 3.
func TestCovering(t *testing.T) {
	task := newSlicelet(t, 2)
	succeeds(t, "start", task.Start(1, 5))
	succeeds(t, "hear", task.Hear(grant(7, 3, 130), 6))
	bridge := strings.NewReplacer("guard", "bridge", "9223372036854775808", "4611686018427387904")
	succeeds(t, "hear", task.Hear([]byte(bridge.Replace(string(grant(8, 4, 200)))), 7))
	lease := Served{Kind: Guard, Generation: 3, Number: 7, Until: 130, Covering: 4}
	served, err := task.Serve([]byte("hello"), 8)
	succeeds(t, "serve", err)
	is(t, "the lease", served, lease)
	handle, held, err := task.HoldServed([]byte("hello"), 8)
	succeeds(t, "hold", err)
	is(t, "the lease of a hold", held, lease)
	is(t, "the key of the handle", handle.SliceKey, SliceKey([]byte("hello")))
	lease.Covering = 3
	_, held, err = task.HoldServedAt(half, 8)
	succeeds(t, "hold", err)
	is(t, "the lease of the upper half", held, lease)
	var refused *Refused
	_, err = task.Hold([]byte("hello"), 200)
	is(t, "what covers an ended key", errors.As(err, &refused) && refused.Covering == 4, true)
	_, err = task.ServeAt(half, 200)
	is(t, "what covers an ended key of the upper half", errors.As(err, &refused) && refused.Covering == 3, true)
}

// With no local clock given, calls read LocalTicks, and once alone if their line has no room.
func TestCallsReadLocalTicks(t *testing.T) {
	task, clock := halfTask(t), newClock(t)
	succeeds(t, "hear", task.Hear(grant(8, 3, 1<<31), 6))
	sent, err := LocalTicks()
	succeeds(t, "the local clock", err)
	succeeds(t, "sample", clock.Sample(sent, 7, sent))
	calls := map[string]func(*Block) error{
		"enter":    func(block *Block) error { return task.Enter(clock, nil, []byte("hello"), block) },
		"enter at": func(block *Block) error { return task.EnterAt(clock, nil, 7, block) },
		"leave":    func(block *Block) error { return task.Leave(clock, nil, block) },
	}
	for _, room := range []int{LineRoom, 1} {
		block := Block{Ticket: 1, Line: make([]byte, 0, room)}
		for _, name := range []string{"enter", "leave", "enter at", "leave"} {
			earliest, err := clock.ReadNow(nil)
			succeeds(t, "the clock before", err)
			succeeds(t, name, calls[name](&block))
			latest, err := clock.ReadNow(nil)
			succeeds(t, "the clock after", err)
			is(t, name+": its reading is between", earliest <= block.At && block.At <= latest, true)
			is(t, name+": its line", strings.HasPrefix(string(block.Line), fmt.Sprintf(`{"at":%d,`, block.At)), true)
		}
	}
	policy := Policy{Low: 1, High: 1, Guard: 1 << 32, Bridge: 1 << 32, Job: 1 << 32, Numbers: 100}
	earliest, err := clock.ReadNow(nil)
	succeeds(t, "the clock before", err)
	receipt := Receipt{Ticket: 2}
	succeeds(t, "receive", task.Receive(clock, nil, policy, grant(9, 3, 1<<31), &receipt))
	latest, err := clock.ReadNow(nil)
	succeeds(t, "the clock after", err)
	is(t, "receive: its reading is between", earliest <= receipt.At && receipt.At <= latest, true)
}

// Nothing is allocated for a block that is allowed, with a line or with none.
func TestBlocksAllocateNothing(t *testing.T) {
	task, clock, key := halfTask(t), newClock(t), []byte("hello")
	succeeds(t, "sample", clock.Sample(0, 6, 0))
	local := func() (uint64, error) { return 1, nil }
	for _, room := range []int{LineRoom, 0} {
		block := Block{Line: make([]byte, 0, room)}
		allocated := testing.AllocsPerRun(100, func() {
			block.Ticket++
			if err := task.Enter(clock, local, key, &block); err != nil {
				t.Error(err)
			}
			block.Ticket++
			if err := task.Leave(clock, local, &block); err != nil {
				t.Error(err)
			}
		})
		is(t, fmt.Sprintf("allocations with %d bytes", room), allocated, 0)
	}
}

// Blocks of goroutines side by side: no local reading is too old for the clock, and the readings of
// each goroutine do not fall.
func TestBlocksSideBySide(t *testing.T) {
	task, clock := halfTask(t), newClock(t)
	succeeds(t, "sample", clock.Sample(0, 6, 0))
	var ticks atomic.Uint64
	local := func() (uint64, error) { return ticks.Add(1) / 1000, nil }
	var waits sync.WaitGroup
	for goroutine := 0; goroutine < 4; goroutine++ {
		waits.Add(1)
		go func() {
			defer waits.Done()
			last, block := uint64(0), Block{Line: make([]byte, 0, LineRoom)}
			for call := 0; call < 5000; call++ {
				err := task.Enter(clock, local, []byte("hello"), &block)
				if err == nil {
					last, err = block.At, task.Leave(clock, local, &block)
				}
				if err != nil || block.At < last {
					t.Errorf("%d after %d: %v", block.At, last, err)
					return
				}
			}
		}()
	}
	waits.Wait()
	at, err := clock.Read(40)
	is(t, "the reading at the end", err == nil && at == 46, true)
}
