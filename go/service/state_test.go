package service

import (
	"context"
	"net/http"
	"testing"
	"time"

	"hourstable"
)

func (r *ran) is(t *testing.T, wanted State, ready bool) (since time.Time) {
	t.Helper()
	eventually(t, "the state is "+string(wanted), func() bool {
		var state State
		state, since = r.State()
		return state == wanted
	})
	if r.Ready() != ready {
		t.Errorf("%s: ready %v", wanted, !ready)
	}
	return since
}

// The states of a task from its start to its end.
func TestStates(t *testing.T) {
	job := newJob(t, 3000)
	plane := job.plane()
	told, release := make(chan struct{}, 100), make(chan struct{})
	plane.fail(func(_ http.ResponseWriter, in *http.Request) bool {
		if in.URL.Path == "/jobs/shop/grant" {
			<-release
		}
		return false
	})
	task := runs(t, TaskConfig{
		Control: []string{plane.URL}, Patience: time.Minute,
		OnLose: func(ctx context.Context, _ []hourstable.Range, _ uint64) {
			told <- struct{}{}
			<-release
		},
	})
	task.is(t, Starting, false)
	close(release)
	task.is(t, Serving, true)
	begun := time.Now()
	plane.fail(always(wrongAnswers["500"]))
	if since := task.is(t, CutOff, true); since.Before(begun) || since.After(time.Now()) {
		t.Errorf("cut off since %v, not %v", since, begun)
	}
	eventually(t, "its leases end", func() bool { return !task.serves(keyIn(true)) })
	task.is(t, CutOff, true)
	plane.fail(nil)
	task.is(t, Serving, true)
	eventually(t, "it serves again", func() bool { return task.serves(keyIn(true)) })
}

// While keys move the task is ready, and from the end of its context on it is not.
func TestStatesWhileKeysMove(t *testing.T) {
	job := newJob(t, 600_000)
	release := make(chan struct{})
	task := runs(t, TaskConfig{
		Control: []string{job.plane().URL}, Patience: time.Minute,
		OnLose: func(context.Context, []hourstable.Range, uint64) { <-release },
	})
	task.is(t, Serving, true)
	job.propose(halfOfTheKeys)
	task.is(t, Moving, true)
	task.cancel()
	task.is(t, Draining, false)
	select {
	case err := <-task.ended:
		t.Fatalf("Run returned %v while keys moved", err)
	default:
	}
	close(release)
	if err := <-task.ended; err != nil {
		t.Error(err)
	}
	task.is(t, Stopped, false)
	job.commit() // the leases were freed
}

// An operator drains the task: it has no keys, and is not ready, until it has some again.
func TestStatesOfATaskThatIsDrained(t *testing.T) {
	job := newJob(t, 3000) // a bridge lease may stay until it ends, if the next assignment comes before its guard lease
	task := runs(t, TaskConfig{Control: []string{job.plane().URL}, Report: 20 * time.Millisecond})
	task.is(t, Serving, true)
	job.drain(1, 7)
	job.propose(`[["0",[2]]]`)
	job.commit()
	task.is(t, Draining, false)
	job.drain(7)
	job.propose(everyKey)
	job.commit()
	task.is(t, Serving, true)
}
