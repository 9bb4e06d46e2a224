package service

import (
	"context"
	"errors"
	"net/http"
	"strings"
	"sync"
	"sync/atomic"
	"testing"
	"time"

	"hourstable"
)

// kept keeps what is logged.
type kept struct {
	mutex sync.Mutex
	lines []string
}

func (k *kept) Info(message string, _ ...any) { k.keep(message) }
func (k *kept) Warn(message string, _ ...any) { k.keep(message) }
func (k *kept) Error(message string, attributes ...any) {
	for _, it := range attributes {
		switch it := it.(type) {
		case string:
			message += " " + it
		case error:
			message += " " + it.Error()
		}
	}
	k.keep(message)
}

func (k *kept) keep(line string) {
	k.mutex.Lock()
	defer k.mutex.Unlock()
	k.lines = append(k.lines, line)
}

func (k *kept) has(word string) bool {
	k.mutex.Lock()
	defer k.mutex.Unlock()
	return strings.Contains(strings.Join(k.lines, "\n"), word)
}

// half of the keys stays with task 1, the other goes to task 2.
const halfOfTheKeys = `[["0",[1]],["4611686018427387904",[2]]]`

// keyIn returns a key of the first or of the second half.
func keyIn(second bool) string {
	for key := "a"; ; key += "a" {
		if (hourstable.SliceKey([]byte(key)) >= 1<<62) == second {
			return key
		}
	}
}

// A callback that panics keeps no lease from being given up, and no task from its renewals.
func TestCallbacksThatPanic(t *testing.T) {
	job := newJob(t, 600_000) // it does not end by itself within the test
	logger := &kept{}
	task := runs(t, TaskConfig{
		Control: []string{job.plane().URL}, Logger: logger,
		OnGain: func([]hourstable.Range) { panic("gained") },
		OnLose: func(context.Context, []hourstable.Range, uint64) { panic("lost") },
	})
	eventually(t, "the task serves", func() bool { return task.serves(keyIn(true)) })
	job.propose(halfOfTheKeys)
	job.commit()
	eventually(t, "it serves what it keeps", func() bool { return task.serves(keyIn(false)) && !task.serves(keyIn(true)) })
	eventually(t, "it hears the guard of the next generation", func() bool { return task.Counts().Heard["guard"] > 1 })
	failed := task.Counts().Internal
	if failed["on-gain"] == 0 || failed["on-lose"] == 0 || task.Counts().Lives != 1 {
		t.Errorf("%+v", task.Counts())
	}
	if !logger.has("TestCallbacksThatPanic") {
		t.Error("nothing was logged with its stack")
	}
}

// OnLose and the answers have the patience of a task each: one that overruns does not take that of the other.
func TestPatienceOfCallbacksAndOfAnswers(t *testing.T) {
	job := newJob(t, 600_000) // a lease does not end by itself within the test
	release := make(chan struct{})
	defer close(release)
	told := make(chan struct{})
	var once sync.Once
	task := runs(t, TaskConfig{
		Control: []string{job.plane().URL}, Patience: 5 * time.Second,
		OnLose: func(ctx context.Context, _ []hourstable.Range, _ uint64) {
			once.Do(func() {
				<-ctx.Done() // it overruns
				close(told)
				<-release
			})
		},
	})
	eventually(t, "the task serves", func() bool { return task.serves(keyIn(true)) })
	answered := make(chan error, 1)
	entered := make(chan struct{})
	go func() {
		answered <- task.Serving(context.Background(), keyIn(true), func(context.Context, *Lease) error {
			close(entered)
			<-told
			time.Sleep(100 * time.Millisecond) // of the five seconds that it has
			return nil
		})
	}()
	<-entered
	job.propose(halfOfTheKeys)
	if err := <-answered; err != nil {
		t.Error(err)
	}
	job.commit()
}

// What a task is not written for: its transport panics, its clock fails.
func TestLoopsBeginAgain(t *testing.T) {
	for _, it := range []struct {
		name, where string
		fails       func(config *TaskConfig, isBroken *atomic.Bool)
	}{
		{"a transport that panics in the phase", "phase", func(config *TaskConfig, isBroken *atomic.Bool) {
			config.Client = &http.Client{Transport: panics{"/phase", isBroken}}
		}},
		{"a transport that panics in a grant", "leases", func(config *TaskConfig, isBroken *atomic.Bool) {
			config.Client = &http.Client{Transport: panics{"/grant", isBroken}}
		}},
		{"a transport that panics in a report", "loads", func(config *TaskConfig, isBroken *atomic.Bool) {
			config.Client = &http.Client{Transport: panics{"/loads", isBroken}}
		}},
		{"a local clock that fails", "leases", func(config *TaskConfig, isBroken *atomic.Bool) {
			config.local = func() (uint64, error) {
				if isBroken.Load() {
					return 0, errors.New("the system gives no clock")
				}
				return hourstable.LocalTicks()
			}
		}},
		{"a local clock that goes back", "leases", func(config *TaskConfig, isBroken *atomic.Bool) {
			config.local = func() (uint64, error) {
				now, err := hourstable.LocalTicks()
				if !isBroken.Load() {
					now += 3_600_000
				}
				return now, err
			}
		}},
	} {
		it := it
		t.Run(it.name, func(t *testing.T) {
			t.Parallel()
			job := newJob(t, 2000)
			logger := &kept{}
			config := TaskConfig{
				Control: []string{job.plane().URL}, Logs: t.TempDir(), Report: 20 * time.Millisecond, Logger: logger,
			}
			isBroken := &atomic.Bool{}
			it.fails(&config, isBroken)
			task := runs(t, config)
			eventually(t, "the task serves", func() bool { return task.serves("hello") })
			isBroken.Store(true)
			eventually(t, "it fails", func() bool { return task.Counts().Internal[it.where] > 0 })
			isBroken.Store(false)
			task.renews(t)
			eventually(t, "the task serves again", func() bool { return task.serves("hello") })
			if lives := task.Counts().Lives; (lives > 1) != (it.where == "leases") {
				t.Errorf("it began %d lives", lives)
			}
			if strings.Contains(it.name, "panics") != logger.has("panic: the transport is broken") {
				t.Error("it is not logged, or something else is, why it failed")
			}
		})
	}
}

// panics panics in requests of a path, while it is broken.
type panics struct {
	path     string
	isBroken *atomic.Bool
}

func (p panics) RoundTrip(in *http.Request) (*http.Response, error) {
	if strings.HasSuffix(in.URL.Path, p.path) && p.isBroken.Load() {
		panic("the transport is broken")
	}
	return http.DefaultTransport.RoundTrip(in)
}

// A life that the supervisor drops frees its leases: the table commits long before they end.
func TestALifeThatIsDroppedFreesItsLeases(t *testing.T) {
	job := newJob(t, 600_000)
	isBroken := &atomic.Bool{}
	task := runs(t, TaskConfig{
		Control: []string{job.plane().URL}, Client: &http.Client{Transport: panics{"/grant", isBroken}},
	})
	eventually(t, "the task serves", func() bool { return task.serves("hello") })
	isBroken.Store(true)
	job.propose(`[["0",[2]]]`) // so that the task asks for a bridge
	eventually(t, "it fails", func() bool { return task.Counts().Internal["leases"] > 0 })
	job.commit()
}

func TestARouterWhoseTransportPanics(t *testing.T) {
	job := newJob(t, 2000)
	isBroken := &atomic.Bool{}
	isBroken.Store(true)
	router, err := NewRouter(RouterConfig{
		Control: []string{job.plane().URL}, Job: "shop", Client: &http.Client{Transport: panics{"/assignment", isBroken}},
	})
	if err != nil {
		t.Fatal(err)
	}
	defer router.Close()
	ctx, cancel := context.WithCancel(context.Background())
	ended := make(chan error, 1)
	go func() { ended <- router.Run(ctx) }()
	eventually(t, "it fails", func() bool { return router.Troubles().Internal["assignments"] > 0 })
	isBroken.Store(false)
	eventually(t, "the router knows the owner", func() bool { _, err := router.Owners("hello"); return err == nil })
	cancel()
	if err := <-ended; err != nil {
		t.Error(err)
	}
}

type broken struct{}

func (broken) Info(string, ...any)  { panic("info") }
func (broken) Warn(string, ...any)  { panic("warn") }
func (broken) Error(string, ...any) { panic("error") }

func TestALoggerThatPanics(t *testing.T) {
	job := newJob(t, 2000)
	first, second := job.plane(), job.plane()
	task := runs(t, TaskConfig{Control: []string{first.URL, second.URL}, Logger: broken{}})
	eventually(t, "the task serves", func() bool { return task.serves("hello") })
	first.fail(always(wrongAnswers["401"]))
	task.renews(t)
	if counts := task.Counts(); counts.Lives != 1 || len(counts.Internal) != 0 {
		t.Errorf("%+v", counts)
	}
}

// The waits of a loop that fails are from half of 200 ms up.
func TestALoopThatFailsPauses(t *testing.T) {
	ctx, cancel := context.WithCancel(context.Background())
	defer cancel()
	runs, begun := 0, time.Now()
	failures := &backoff{least: 200 * time.Millisecond, most: 200 * time.Millisecond}
	err := newSupervisor(&kept{}).loop(ctx, "test", failures, func(context.Context) error {
		if runs++; runs == 4 {
			return nil
		}
		return errors.New("it fails")
	}, nil)
	if took := time.Since(begun); err != nil || took < 300*time.Millisecond {
		t.Errorf("%d runs took %v: %v", runs, took, err)
	}
}
