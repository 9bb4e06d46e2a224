package service

import (
	"context"
	"errors"
	"net/http"
	"strings"
	"sync/atomic"
	"testing"
	"time"

	"hourstable"
)

// fails lets a plane fail calls of a path, so many of them.
func fails(path string, times int64) func(http.ResponseWriter, *http.Request) bool {
	var left atomic.Int64
	left.Store(times)
	return func(out http.ResponseWriter, in *http.Request) bool {
		isFailed := strings.HasSuffix(in.URL.Path, path) && left.Add(-1) >= 0
		if isFailed {
			wrongAnswers["500"](out)
		}
		return isFailed
	}
}

func TestKeysThatMoveAreDenied(t *testing.T) {
	job := newJob(t, 600_000)
	release := make(chan struct{})
	task := runs(t, TaskConfig{
		Control: []string{job.plane().URL}, Patience: time.Minute,
		OnLose: func(context.Context, []hourstable.Range, uint64) { <-release },
	})
	eventually(t, "the task serves", func() bool { return task.serves(keyIn(true)) })
	job.propose(halfOfTheKeys)
	task.is(t, Moving, true)
	err := task.Serving(context.Background(), keyIn(true), func(context.Context, *Lease) error { return nil })
	if !errors.Is(err, ErrDenied) || !errors.Is(err, ErrMoving) || task.Counts().Denied["moving"] == 0 {
		t.Errorf("a key that moves: %v", err)
	}
	if !task.serves(keyIn(false)) {
		t.Error("a key that stays is denied")
	}
	close(release)
	job.commit()
}

// A note that a plane does not take is sent again: the table does not wait until the lease ends.
func TestANoteIsSentAgain(t *testing.T) {
	job := newJob(t, 600_000)
	plane := job.plane()
	plane.fail(fails("/free", 2))
	task := runs(t, TaskConfig{Control: []string{plane.URL}})
	eventually(t, "the task serves", func() bool { return task.serves("hello") })
	job.propose(`[["0",[2]]]`)
	job.commit()
	if times := len(plane.times("free")); times < 3 {
		t.Errorf("it was sent %d times", times)
	}
}

// A note is of no use once the lease has ended by itself.
func TestANoteThatNoPlaneTakes(t *testing.T) {
	job := newJob(t, 1000)
	plane, logger := job.plane(), &kept{}
	plane.fail(fails("/free", 1<<40))
	task := runs(t, TaskConfig{Control: []string{plane.URL}, Logger: logger})
	eventually(t, "the task serves", func() bool { return task.serves("hello") })
	job.propose(`[["0",[2]]]`)
	eventually(t, "it sends the note no more", func() bool { return logger.has("a lease was not freed") })
}

func TestATaskEndsThoughNoPlaneAnswers(t *testing.T) {
	job := newJob(t, 600_000)
	plane := job.plane()
	task := runs(t, TaskConfig{Control: []string{plane.URL}, Patience: 50 * time.Millisecond})
	eventually(t, "the task serves", func() bool { return task.serves("hello") })
	plane.fail(always(wrongAnswers["500"]))
	task.cancel()
	select {
	case err := <-task.ended:
		if err != nil {
			t.Error(err)
		}
	case <-time.After(30 * time.Second): // it has 5 s for its notes
		plane.fail(nil)
		t.Fatal("Run goes on")
	}
}

func TestALeaseThatEndsIsTold(t *testing.T) {
	job := newJob(t, 1000)
	plane := job.plane()
	lost := make(chan []hourstable.Range, 100)
	task := runs(t, TaskConfig{
		Control: []string{plane.URL},
		OnLose:  func(_ context.Context, ranges []hourstable.Range, _ uint64) { lost <- ranges },
	})
	eventually(t, "the task serves", func() bool { return task.serves("hello") })
	plane.fail(always(wrongAnswers["500"]))
	select {
	case found := <-lost:
		if !holds(found, hourstable.SliceKey([]byte("hello"))) {
			t.Errorf("it is told that %v is lost", found)
		}
	case <-time.After(30 * time.Second):
		t.Error("nobody is told")
	}
}

// The plane says a reading that is a second behind the one of its grants: they end later than the task's clock allows.
func TestAClockThatBreaksItsDrift(t *testing.T) {
	job := newJob(t, 60_000)
	job.behind = 1000
	logger := &kept{}
	task := runs(t, TaskConfig{Control: []string{job.plane().URL}, Logger: logger})
	select {
	case err := <-task.ended:
		if !errors.Is(err, ErrClockBroken) || task.Counts().ClockBehind == 0 || !logger.has("a clock breaks its drift") {
			t.Error(err, task.Counts())
		}
	case <-time.After(30 * time.Second):
		t.Fatal("Run goes on")
	}
}

// A plane that stands by is behind: its answers do not keep the task busy.
func TestAPlaneWhosePhaseIsBehind(t *testing.T) {
	job := newJob(t, 60_000)
	plane := job.plane()
	task := runs(t, TaskConfig{Control: []string{plane.URL}})
	eventually(t, "the task serves", func() bool { return task.serves("hello") })
	plane.fail(func(out http.ResponseWriter, in *http.Request) bool {
		isPhase := strings.HasSuffix(in.URL.Path, "/phase")
		if isPhase {
			answerWith(out, 200, map[string]any{"committed": 0, "pending": nil})
		}
		return isPhase
	})
	before := len(plane.times("phase"))
	eventually(t, "it asks four times", func() bool { return len(plane.times("phase")) >= before+4 })
	times := plane.times("phase")[before:]
	for at := range times[1:] {
		if apart := times[at+1].Sub(times[at]); at > 0 && apart < 150*time.Millisecond {
			t.Errorf("it asked again after %v", apart)
		}
	}
}
