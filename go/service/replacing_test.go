package service

import (
	"context"
	"net/http"
	"strings"
	"testing"
	"time"
)

// soon lets a slicelet be replaced after its first renewal.
func soon(t *testing.T) {
	before := replacedAt
	replacedAt = 1 << 20
	t.Cleanup(func() { replacedAt = before })
}

func (k *keyed) drawn() uint32 {
	k.mutex.Lock()
	defer k.mutex.Unlock()
	return k.lives
}

func TestNoKeyIsDeniedWhileASliceletIsReplaced(t *testing.T) {
	soon(t)
	plane := newKeyed(t)
	task := runs(t, TaskConfig{Control: []string{plane.URL}})
	eventually(t, "the task serves", func() bool { return serves(task.Task) })
	for asked := 0; plane.drawn() < 5; asked++ {
		err := task.Serving(context.Background(), "hello", func(context.Context, *Lease) error {
			time.Sleep(time.Millisecond)
			return nil
		})
		if err != nil {
			t.Fatalf("question %d: %v", asked, err)
		}
	}
	counts := task.Counts()
	if counts.LeaseLost != 0 || len(counts.Denied) != 0 || counts.Lives < 4 {
		t.Fatalf("%d leases lost, denied %v, in %d lives", counts.LeaseLost, counts.Denied, counts.Lives)
	}
}

func TestAnAnswerThatRunsIsWaitedFor(t *testing.T) {
	soon(t)
	plane := newKeyed(t)
	task := runs(t, TaskConfig{Control: []string{plane.URL}, Patience: 20 * time.Second})
	eventually(t, "the task serves", func() bool { return serves(task.Task) })
	waited := make(chan error, 1)
	err := task.Serving(context.Background(), "hello", func(_ context.Context, lease *Lease) error {
		eventually(t, "new answers wait", func() bool { return task.admits.Load().replaced != nil })
		go func() {
			waited <- task.Serving(context.Background(), "hello", func(context.Context, *Lease) error { return nil })
		}()
		select {
		case err := <-waited:
			t.Errorf("a new answer ran: %v", err)
		case <-time.After(200 * time.Millisecond):
		}
		return lease.Check()
	})
	if err != nil {
		t.Fatal(err)
	}
	select {
	case err := <-waited:
		if err != nil {
			t.Fatal(err)
		}
	case <-time.After(10 * time.Second): // of the patience of 20 s
		t.Fatal("the new answer waits, though the one before it has ended")
	}
}

func TestATaskDrainsItself(t *testing.T) {
	plane := newKeyed(t)
	plane.fail(func(out http.ResponseWriter, in *http.Request) bool {
		if strings.HasSuffix(in.URL.Path, "/drain") {
			plane.job.drain(1)
			out.WriteHeader(http.StatusNoContent)
			return true
		}
		return plane.answer(out, in)
	})
	task := runs(t, TaskConfig{Control: []string{plane.URL}})
	eventually(t, "the task serves", func() bool { return serves(task.Task) })
	short, cancel := context.WithTimeout(context.Background(), 200*time.Millisecond)
	defer cancel()
	if err := task.Drain(short); err == nil {
		t.Fatal("nobody took its keys")
	}
	if state, _ := task.State(); state != Draining || task.Ready() {
		t.Fatalf("it is %s while it is drained", state)
	}
	drained := make(chan error, 1)
	go func() { drained <- task.Drain(context.Background()) }()
	plane.job.propose(`[["0",[2]]]`)
	plane.job.commit()
	if err := <-drained; err != nil {
		t.Fatal(err)
	}
	if len(task.Served()) > 0 {
		t.Fatal("it has keys")
	}
}

// The next life frees the leases of the one that it replaces, with the key of that one, and goes on from it.
func TestALifeThatIsReplacedGivesItsLeasesBack(t *testing.T) {
	soon(t)
	plane, logs := newKeyed(t), t.TempDir()
	task := runs(t, TaskConfig{Control: []string{plane.URL}, Logs: logs, State: t.TempDir()})
	eventually(t, "the second life frees the leases of the first", func() bool {
		return task.Counts().Lives >= 2 && plane.noted("key-1")
	})
	opened := []any{}
	for _, call := range linesOf(t, logs) {
		if call["do"] == "open" {
			opened = append(opened, call["life"])
		}
	}
	if len(opened) < 2 || opened[0] != 0.0 || opened[1] != 1.0 {
		t.Errorf("the slicelets know these lives before them: %v", opened)
	}
}

// A plane of a version up to 1.0 gives no keys: it cannot know that the next life is of the same process.
func TestALifeWithNoKeyIsNotReplaced(t *testing.T) {
	soon(t)
	task := runs(t, TaskConfig{Control: []string{newJob(t, 1000).plane().URL}})
	task.renews(t)
	if lives := task.Counts().Lives; lives != 1 {
		t.Errorf("it began %d lives", lives)
	}
}

func TestALifeThatIsNotLetInReplacesNone(t *testing.T) {
	soon(t)
	plane := keyedFor(t, 60_000)
	plane.set(func(life uint32) map[string]any {
		if life == 1 {
			return nil
		}
		return map[string]any{"refused": "waiting", "admitted": 1, "after": 0.05}
	})
	task := runs(t, TaskConfig{Control: []string{plane.URL}})
	eventually(t, "three lives ask", func() bool { return plane.drawn() >= 4 })
	if !task.serves("hello") || task.Counts().Lives != 1 {
		t.Errorf("%+v", task.Counts())
	}
}

// An answer runs for so long that another life may be let in meanwhile.
func TestALifeThatWaitedForAnswersIsLetInAgain(t *testing.T) {
	soon(t)
	plane, clock := keyedFor(t, 60_000), &shifted{}
	task := runs(t, TaskConfig{Control: []string{plane.URL}, Patience: 20 * time.Second, local: clock.read})
	last := uint64(0)
	eventually(t, "the task serves", func() bool {
		return task.Serving(context.Background(), "hello", func(_ context.Context, lease *Lease) error {
			eventually(t, "new answers wait", func() bool { return task.admits.Load().replaced != nil })
			clock.passed.Add(2 * just)
			last = uint64(lease.leases.life)
			return nil
		}) == nil
	})
	eventually(t, "the next life begins", func() bool { return task.Counts().Lives > last })
	if times := plane.letIns(); times < 2 {
		t.Errorf("each life asked %d times to be let in", times)
	}
}
