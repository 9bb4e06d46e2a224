package hourstable_test

import (
	"errors"
	"sync"
	"testing"
	"time"

	. "hourstable"
)

// Goroutines serve and check a key while its lease is renewed, which never takes it
// away; the last renewal ends at 120.
func TestReadersBesideAWriter(t *testing.T) {
	const renewals = 100
	task := newSlicelet(t, 2)
	succeeds(t, "start", task.Start(1, 0))
	succeeds(t, "hear", task.Hear(grant(1, 3, 1000), 1))
	handle, err := task.Hold([]byte("apples"), 1)
	succeeds(t, "hold", err)
	var readers sync.WaitGroup
	done := make(chan struct{})
	for reader := 0; reader < 4; reader++ {
		readers.Add(1)
		go func() {
			defer readers.Done()
			for {
				if served, err := task.Serve([]byte("apples"), 500); err != nil || served.Kind != Guard || served.Generation != 3 {
					t.Errorf("serve: %v, %v", served, err)
				}
				if err := task.Check(handle, 500); err != nil {
					t.Errorf("check: %v", err)
				}
				select {
				case <-done:
					return
				default:
				}
			}
		}()
	}
	for number := 2; number < 2+renewals; number++ {
		if err := task.Hear(grant(number, 3, 1000), 1); err != nil {
			t.Errorf("hear: %v", err)
		}
	}
	close(done)
	readers.Wait()
	left, err := task.CallsLeft()
	succeeds(t, "calls left", err)
	is(t, "calls left", left, 65536-2-renewals)
}

// A release waits for an answer that is being given, and is done once it is.
func TestReleaseWaitsForAnAnswer(t *testing.T) {
	task := newSlicelet(t, 2)
	succeeds(t, "start", task.Start(1, 3))
	succeeds(t, "hear", task.Hear(grant(7, 3, 8), 5))
	serving, released := make(chan struct{}), make(chan error, 1)
	var isReleased bool
	given := errors.New("an answer that failed")
	go func() {
		<-serving
		_, err := task.Release(Guard, 6)
		isReleased = true
		released <- err
	}()
	err := task.Serving([]byte("apples"), 5, func(Served) error {
		close(serving)
		time.Sleep(50 * time.Millisecond)
		if isReleased {
			t.Error("the lease was released during the answer")
		}
		return given
	})
	is(t, "the answer's error is returned", err == given, true)
	succeeds(t, "release", <-released)
	err = task.Serving([]byte("apples"), 6, func(Served) error {
		t.Error("an answer without a lease")
		return nil
	})
	refuses(t, "serving after the release", err, ErrNoLease, "no-lease")
}

// Values of a clock that goroutines share do not fall in any of them.
func TestSharedClock(t *testing.T) {
	clock, err := NewTaskClock(Drift{Extra: 201, Per: 1_000_000, Grain: 2}, 1<<40)
	succeeds(t, "a clock", err)
	now, err := BoottimeTicks()
	succeeds(t, "the local clock", err)
	succeeds(t, "sample", clock.Sample(now, 1000, now))
	var readers sync.WaitGroup
	for reader := 0; reader < 4; reader++ {
		readers.Add(1)
		go func() {
			defer readers.Done()
			last := uint64(1002)
			for read := 0; read < 1000; read++ {
				value, err := clock.ReadNow(BoottimeTicks)
				if err != nil || value < last {
					t.Errorf("read: %d after %d, %v", value, last, err)
				}
				last = value
			}
		}()
	}
	readers.Wait()
}

// BoottimeTicks counts milliseconds.
func TestBoottimeTicks(t *testing.T) {
	before, err := BoottimeTicks()
	succeeds(t, "the local clock", err)
	time.Sleep(30 * time.Millisecond)
	after, err := BoottimeTicks()
	succeeds(t, "the local clock", err)
	if after < before+29 || after > before+10_000 {
		t.Errorf("%d ticks in 30 ms", after-before)
	}
}
