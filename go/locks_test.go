package hourstable

import (
	"sync"
	"testing"
	"time"
)

type call struct {
	name string
	make func()
}

// runsBesideReaders says whether a call ends while the lock is held for reading. The
// lock is free again, and the call has ended, when it returns.
func runsBesideReaders(lock *sync.RWMutex, call func()) bool {
	ended := make(chan struct{})
	lock.RLock()
	go func() {
		defer close(ended)
		call()
	}()
	var runs bool
	select {
	case <-ended:
		runs = true
	case <-time.After(50 * time.Millisecond):
	}
	lock.RUnlock()
	<-ended
	return runs
}

func checkLocks(t *testing.T, lock *sync.RWMutex, reads, writes []call) {
	t.Helper()
	for _, it := range writes {
		if runsBesideReaders(lock, it.make) {
			t.Errorf("%s runs beside a reader", it.name)
		}
	}
	for _, it := range reads {
		ran := false
		for try := 0; try < 20 && !ran; try++ { // a busy machine may be slow
			ran = runsBesideReaders(lock, it.make)
		}
		if !ran {
			t.Errorf("%s waits for a reader", it.name)
		}
	}
}

// Calls that the header makes on a const place run beside readers, and the others do
// not. What they return does not matter here.
func TestLocks(t *testing.T) {
	slicelet, err := NewSlicelet("shop", 1)
	if err != nil {
		t.Fatal(err)
	}
	clock, err := NewTaskClock(Drift{Per: 1}, 9)
	if err != nil {
		t.Fatal(err)
	}
	checkLocks(t, &slicelet.mutex, []call{
		{"Serve", func() { slicelet.Serve(nil, 1) }},
		{"ServeAt", func() { slicelet.ServeAt(0, 1) }},
		{"Serving", func() { slicelet.Serving(nil, 1, nil) }},
		{"Hold", func() { slicelet.Hold(nil, 1) }},
		{"HoldAt", func() { slicelet.HoldAt(0, 1) }},
		{"HoldServed", func() { slicelet.HoldServed(nil, 1) }},
		{"HoldServedAt", func() { slicelet.HoldServedAt(0, 1) }},
		{"Check", func() { slicelet.Check(Handle{}, 1) }},
		{"Enter", func() { slicelet.Enter(clock, BoottimeTicks, nil, new(Block)) }},
		{"EnterAt", func() { slicelet.EnterAt(clock, BoottimeTicks, 0, new(Block)) }},
		{"Leave", func() { slicelet.Leave(clock, BoottimeTicks, new(Block)) }},
		{"Held", func() { slicelet.Held(Guard) }},
		{"Next", func() { slicelet.Next(Phase{}, 1) }},
		{"CallsLeft", func() { slicelet.CallsLeft() }},
	}, []call{
		{"Start", func() { slicelet.Start(1, 1) }},
		{"Hear", func() { slicelet.Hear(nil, 1) }},
		{"Release", func() { slicelet.Release(Guard, 1) }},
		{"Close", func() { slicelet.Close() }},
	})
	clerk, err := NewClerk("shop")
	if err != nil {
		t.Fatal(err)
	}
	checkLocks(t, &clerk.mutex, []call{
		{"Look", func() { clerk.Look(nil) }},
		{"LookAt", func() { clerk.LookAt(0) }},
	}, []call{
		{"Learn", func() { clerk.Learn(nil) }},
		{"Forget", func() { clerk.Forget() }},
		{"Close", func() { clerk.Close() }},
	})
}

func TestLocksOfAControlPlane(t *testing.T) {
	table, err := NewTable("shop", Policy{Low: 1, High: 1, Skew: 1, Guard: 9, Bridge: 9, Job: 9, Numbers: 9})
	if err != nil {
		t.Fatal(err)
	}
	checkLocks(t, &table.mutex, []call{
		{"Kept", func() { table.Kept() }},
		{"Save", func() { table.Save(nil, 1, 1) }},
		{"Phase", func() { table.Phase() }},
		{"Rows", func() { table.Rows() }},
		{"Committed", func() { table.Committed() }},
	}, []call{
		{"Take", func() { table.Take(1, 1) }},
		{"Renew", func() { table.Renew(1, 1) }},
		{"Propose", func() { table.Propose(1, nil, 1) }},
		{"Commit", func() { table.Commit(1, 1) }},
		{"Grant", func() { table.Grant(1, 1, 1) }},
		{"Free", func() { table.Free(nil, 1) }},
		{"Restart", func() { table.Restart() }},
		{"Close", func() { table.Close() }},
	})
	book, err := NewLoadBook("shop")
	if err != nil {
		t.Fatal(err)
	}
	checkLocks(t, &book.mutex, []call{
		{"Total", func() { book.Total(1) }},
	}, []call{
		{"Gather", func() { book.Gather(nil, 1, nil) }},
		{"Close", func() { book.Close() }},
	})
	assigner, err := NewAssigner(1, 9)
	if err != nil {
		t.Fatal(err)
	}
	checkLocks(t, &assigner.mutex, []call{
		{"Next", func() { assigner.Next(1, Phase{}, false) }},
	}, []call{
		{"Adopt", func() { assigner.Adopt(Term{}) }},
		{"DropTerm", func() { assigner.DropTerm() }},
		{"Close", func() { assigner.Close() }},
	})
}
