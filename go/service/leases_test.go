package service

import (
	"context"
	"errors"
	"fmt"
	"reflect"
	"sync"
	"sync/atomic"
	"testing"
	"time"

	"hourstable"
)

// shifted is the local clock, and what has passed beside it.
type shifted struct{ passed atomic.Uint64 }

func (s *shifted) read() (uint64, error) {
	now, err := hourstable.LocalTicks()
	return now + s.passed.Load(), err
}

// lastTicket returns the ticket of the last line of a log.
func lastTicket(t *testing.T, logs string) uint64 {
	t.Helper()
	lines := linesOf(t, logs)
	ticket, _ := lines[len(lines)-1]["ticket"].(float64)
	return uint64(ticket)
}

// The local clock of this task draws a ticket each time that it is read. That of a call which reads it is lower.
func TestATicketIsDrawnBeforeItsCall(t *testing.T) {
	logs := t.TempDir()
	var drawnBy *tickets // nil until the task is there
	read := uint64(0)    // the ticket that the clock drew last
	config := TaskConfig{Control: []string{"http://127.0.0.1:1"}, Job: "shop", Task: 1, Logs: logs}
	config.local = func() (uint64, error) {
		if drawnBy != nil {
			read = drawn(t, drawnBy)
		}
		return hourstable.LocalTicks()
	}
	task := lone(t, config, 1<<32)
	drawnBy = task.tickets
	lease := &Lease{Key: "hello", sliceKey: 7, isLogged: true, task: task, leases: task.leases}
	for _, it := range []struct {
		name string
		call func() error
	}{
		{"a question", func() error { return task.leases.enter(lease) }},
		{"a check", func() error { return task.leases.check(lease) }},
		{"a release", func() error { _, err := task.leases.release(hourstable.Guard); return err }},
		{"a refusal", func() error {
			if err := task.leases.start(); !errors.Is(err, hourstable.ErrOldLife) {
				return errors.New("it starts twice")
			}
			return nil
		}},
	} {
		before := drawn(t, task.tickets)
		if err := it.call(); err != nil {
			t.Fatal(it.name, err)
		}
		if ticket := lastTicket(t, logs); ticket <= before || ticket >= read {
			t.Errorf("%s has ticket %d: %d was drawn before it, and its clock drew %d", it.name, ticket, before, read)
		}
	}
}

// A grant is heard after what is called before it, and has a ticket above that.
func TestTheTicketOfAGrantWaitsForTheCallBefore(t *testing.T) {
	logs := t.TempDir()
	task := lone(t, TaskConfig{Control: []string{"http://127.0.0.1:1"}, Job: "shop", Task: 1, Logs: logs}, 1<<32)
	_, err := task.leases.release(hourstable.Guard)
	must(t, err)
	task.leases.mutex.Lock()
	heard := make(chan struct{})
	go func() {
		defer close(heard)
		hearGuard(t, task.leases, 2, 1<<32)
	}()
	time.Sleep(100 * time.Millisecond)
	before := drawn(t, task.tickets)
	task.leases.mutex.Unlock()
	<-heard
	if ticket := lastTicket(t, logs); ticket <= before {
		t.Errorf("the grant has ticket %d, and %d was drawn while another call ran", ticket, before)
	}
}

// Who looks at the leases does not meet a call that changes them.
func TestLeasesAreReadBesideTheirCalls(t *testing.T) {
	task := lone(t, TaskConfig{Control: []string{"http://127.0.0.1:1"}, Job: "shop", Task: 1}, 1<<32)
	ended := make(chan struct{})
	var readers sync.WaitGroup
	for range [4]int{} {
		readers.Add(1)
		go func() {
			defer readers.Done()
			for isEnded := false; !isEnded; {
				grant, isHeld := task.leases.lease(hourstable.Guard)
				if isHeld != (grant.Ends == 1<<32) {
					t.Error("half of a lease is read:", grant)
				}
				task.State()
				task.leases.live(7)
				select {
				case <-ended:
					isEnded = true
				default:
				}
			}
		}()
	}
	for number := uint64(2); number < 200; number++ {
		if _, err := task.leases.release(hourstable.Guard); err != nil || task.leases.hasLease() {
			t.Fatal("it is released, and held:", err)
		}
		hearGuard(t, task.leases, number, 1<<32)
	}
	close(ended)
	readers.Wait()
}

func TestALeaseEndsAtItsEnd(t *testing.T) {
	held := &leases{held: map[hourstable.Kind]hourstable.Grant{
		hourstable.Guard:  {Ends: 10, Ranges: ranges(1, 9)},
		hourstable.Bridge: {Ends: 20, Ranges: ranges(5, 12)},
	}}
	for at, wanted := range map[uint64][]hourstable.Range{
		9: ranges(1, 12), 10: ranges(5, 12), 19: ranges(5, 12), 20: ranges(),
	} {
		if found := held.live(at); !reflect.DeepEqual(found, wanted) {
			t.Errorf("at %d these keys are live: %v", at, found)
		}
	}
}

func TestKeysThatAreLostWithoutALease(t *testing.T) {
	held := &leases{held: map[hourstable.Kind]hourstable.Grant{
		hourstable.Guard: {Ranges: ranges(1, 9)}, hourstable.Bridge: {Ranges: ranges(5, 12)},
	}}
	for _, it := range []struct {
		kind   hourstable.Kind
		isLast bool
		lost   []hourstable.Range
	}{
		{hourstable.Guard, false, ranges(1, 5)}, {hourstable.Bridge, false, ranges(9, 12)},
		{hourstable.Guard, true, ranges(1, 9)}, {hourstable.Bridge, true, ranges(5, 12)},
	} {
		if lost := held.lostWithout(it.kind, it.isLast); !reflect.DeepEqual(lost, it.lost) {
			t.Errorf("without %v these keys are lost: %v", it, lost)
		}
	}
}

// A token of a bridge lease would fall, unless a guard lease of its generation or a later one is held.
func TestWhenABridgeLeaseMayBeGivenUp(t *testing.T) {
	for _, it := range []struct {
		guard, bridge uint64 // generations; 0 for none
		may           bool
	}{
		{0, 0, true}, {1, 0, true}, {0, 2, false}, {1, 2, false}, {2, 2, true}, {3, 2, true},
	} {
		held := &leases{held: map[hourstable.Kind]hourstable.Grant{}}
		if it.guard > 0 {
			held.held[hourstable.Guard] = hourstable.Grant{Generation: it.guard}
		}
		if it.bridge > 0 {
			held.held[hourstable.Bridge] = hourstable.Grant{Generation: it.bridge}
		}
		wanted := []hourstable.Kind{hourstable.Guard}
		if it.may {
			wanted = []hourstable.Kind{hourstable.Bridge, hourstable.Guard}
		}
		if found := held.toGiveUp(); !reflect.DeepEqual(found, wanted) {
			t.Errorf("with %+v a life that ends gives up %v", it, found)
		}
	}
}

// Once its leases have ended another process may be let in, which logs its own calls.
func TestALifeWithNoLeaseLogsNoQuestion(t *testing.T) {
	clock, logs := &shifted{}, t.TempDir()
	config := TaskConfig{Control: []string{"http://127.0.0.1:1"}, Job: "shop", Task: 1, Logs: logs, local: clock.read}
	task := &ran{Task: lone(t, config, 1<<20)}
	if !task.serves("hello") {
		t.Fatal("it does not serve")
	}
	before := len(linesOf(t, logs))
	clock.passed.Store(1 << 21)
	for range [3]int{} {
		err := task.Serving(context.Background(), "hello", func(context.Context, *Lease) error { return nil })
		if !errors.Is(err, hourstable.ErrEnded) {
			t.Fatal(err)
		}
	}
	if lines := linesOf(t, logs); len(lines) != before {
		t.Errorf("it logs %v", lines[before:])
	}
}

// A process that stands still while it gives up a lease may go on after the lease has ended, and another process was let
// in, which logs its own calls.
func TestALeaseIsGivenUpWhileOneLasts(t *testing.T) {
	within, cancel := context.WithTimeout(context.Background(), 5*time.Second)
	defer cancel()
	for name, giveUp := range map[string]func(*Task) error{
		"keys move":         func(task *Task) error { return task.giveUp(within, task.leases, hourstable.Guard, false) },
		"a life ends":       func(task *Task) error { return task.endLife(within) },
		"a life is dropped": func(task *Task) error { task.tellLost(nil, 0); return task.dropLife() },
	} {
		for _, isLate := range []bool{false, true} {
			clock, logs := &shifted{}, t.TempDir()
			task := lone(t, TaskConfig{
				Control: []string{"http://127.0.0.1:1"}, Job: "shop", Task: 1, Logs: logs, local: clock.read,
				OnLose: func(context.Context, []hourstable.Range, uint64) {
					if isLate {
						clock.passed.Store(1 << 21)
					}
				},
			}, 1<<20)
			before := len(linesOf(t, logs))
			if err := giveUp(task); err != nil && (isLate || !errors.Is(err, context.DeadlineExceeded)) {
				t.Errorf("%s: %v", name, err) // no plane takes the note of a lease that lasts
			}
			lines, hasLife := linesOf(t, logs)[before:], task.life() != nil
			if isLate && (len(lines) > 0 || hasLife || len(task.dropped) != 1 || task.dropped[0].until != 1<<20) {
				t.Errorf("%s: it logs %v, and has dropped %v", name, lines, task.dropped)
			}
			if !isLate && (len(lines) == 0 || lines[len(lines)-1]["reply"] != "released life 1 number 1" || hasLife != (name == "keys move")) {
				t.Errorf("%s: it logs %v", name, lines)
			}
		}
	}
}

func TestAnAnswerPastTheEndOfItsLease(t *testing.T) {
	clock := &shifted{}
	config := TaskConfig{Control: []string{"http://127.0.0.1:1"}, Job: "shop", Task: 1, local: clock.read}
	task := lone(t, config, 1<<20)
	err := task.Serving(context.Background(), "hello", func(_ context.Context, lease *Lease) error {
		if err := lease.Check(); err != nil {
			t.Error("at once:", err)
		}
		clock.passed.Store(1 << 21)
		return nil
	})
	if !errors.Is(err, ErrLeaseLost) || task.Counts().LeaseLost != 1 {
		t.Errorf("%v %+v", err, task.Counts())
	}
}

// Who gives up a key sees each question that is asked for it.
func TestAQuestionThatIsAskedIsOpen(t *testing.T) {
	var task *Task
	var isAsked, isOpen bool
	config := TaskConfig{Control: []string{"http://127.0.0.1:1"}, Job: "shop", Task: 1}
	config.local = func() (uint64, error) {
		if isAsked {
			isOpen = isOpen || task.isOpen(ranges(0, keys))
		}
		return hourstable.LocalTicks()
	}
	task = lone(t, config, 1<<32)
	isAsked = true
	err := task.Serving(context.Background(), "hello", func(context.Context, *Lease) error {
		isAsked = false
		return nil
	})
	if err != nil || !isOpen || task.isOpen(ranges(0, keys)) {
		t.Error(err, isOpen)
	}
}

// Tasks whose leases begin together do not renew them together.
func TestRenewalsAreSpread(t *testing.T) {
	const ends = uint64(1) << 32
	task := lone(t, TaskConfig{Control: []string{"http://127.0.0.1:1"}, Job: "shop", Task: 1}, ends)
	least, most := ends, uint64(0)
	for range [20]int{} {
		must(t, task.heard(task.leases, hourstable.Grant{Kind: hourstable.Guard, Generation: 1, Ends: ends}))
		if task.renewAt < least {
			least = task.renewAt
		}
		if task.renewAt > most {
			most = task.renewAt
		}
	}
	if least < ends*44/100 || most > ends*56/100 || most-least < ends/100 {
		t.Errorf("a lease until %d is renewed from %d to %d", ends, least, most)
	}
}

// A plane that stands by may tell of a phase that has passed.
func TestAPhaseOfBefore(t *testing.T) {
	task, err := NewTask(TaskConfig{Control: []string{"http://127.0.0.1:1"}, Job: "shop", Task: 1})
	must(t, err)
	defer task.end()
	for _, it := range []struct {
		phase   hourstable.Phase
		isLater bool
	}{
		{hourstable.Phase{Committed: 5}, true}, {hourstable.Phase{Committed: 5}, false},
		{hourstable.Phase{Committed: 5, Proposed: 6}, true}, {hourstable.Phase{Committed: 5}, false},
		{hourstable.Phase{Committed: 4, Proposed: 5}, false}, {hourstable.Phase{Committed: 6}, true},
		{hourstable.Phase{Committed: 5, Proposed: 6}, false}, {hourstable.Phase{Committed: 8}, true},
	} {
		before := task.phase
		if isLater := task.learnPhase(it.phase); isLater != it.isLater {
			t.Errorf("after %+v comes %+v: %v", before, it.phase, isLater)
		}
		if it.isLater && *task.phase != it.phase || !it.isLater && task.phase != before {
			t.Errorf("after %+v it knows %+v", it.phase, *task.phase)
		}
	}
}

// A question that is denied is no load.
func TestLoadsAreThoseOfAnswers(t *testing.T) {
	task := &ran{Task: lone(t, TaskConfig{Control: []string{"http://127.0.0.1:1"}, Job: "shop", Task: 1}, 300)}
	for task.serves("hello") {
		time.Sleep(time.Millisecond)
	}
	task.told()
	if task.serves("hello") {
		t.Fatal("it serves after the end of its lease")
	}
	if loads := task.told()["loads"]; !reflect.DeepEqual(loads, [][3]any{}) {
		t.Errorf("it reports %v", loads)
	}
}

// What a task reports: how many answers each part of the keys had since the last report, and of which life it is.
func TestReports(t *testing.T) {
	task := &ran{Task: lone(t, TaskConfig{Control: []string{"http://127.0.0.1:1"}, Job: "shop", Task: 1}, 1<<32)}
	must(t, task.lives.draw(ownLife{Life: 1, Key: "key-1"}))
	const width = uint64(1) << 53 // of 1,024 parts of the keys
	for count := 3; count > 0; count-- {
		for asked := 0; asked < count; asked++ {
			if !task.serves("hello") {
				t.Fatal("it does not serve")
			}
		}
		told := task.told()
		part := hourstable.SliceKey([]byte("hello")) / width
		wanted := [][3]any{{fmt.Sprint(part * width), fmt.Sprint((part + 1) * width), uint64(count)}}
		if !reflect.DeepEqual(told["loads"], wanted) {
			t.Errorf("after %d answers it reports %v, and not %v", count, told["loads"], wanted)
		}
		if told["task"] != uint64(1) || told["life"] != uint32(1) || told["key"] != "key-1" {
			t.Errorf("it reports %v", told)
		}
	}
	if loads := task.told()["loads"]; !reflect.DeepEqual(loads, [][3]any{}) {
		t.Errorf("it reports %v again", loads)
	}
}
