package service

import (
	"context"
	"errors"
	"fmt"
	"net/http"
	"strings"
	"sync"
	"sync/atomic"
	"testing"
	"time"
)

// counted is a local clock that goes on each time that it is read.
type counted struct{ atomic.Uint64 }

func (c *counted) read() (uint64, error) { return c.Add(1), nil }

// A sample is of the time before its request left.
func TestACallIsSentBeforeItsAnswer(t *testing.T) {
	var clock counted
	var answered atomic.Uint64
	asks := controlOf(t, plane(t, func(out http.ResponseWriter, _ *http.Request) {
		answered.Store(clock.Add(1))
		out.Write([]byte("{}"))
	}))
	asks.local = clock.read
	made, err := asks.call(context.Background(), request{method: "POST", path: "/grant"})
	if err != nil || made.sent == 0 || made.sent >= answered.Load() {
		t.Errorf("it was sent at %d, and answered at %d: %v", made.sent, answered.Load(), err)
	}
}

// A hedge and the try before it each have the reading at which they were sent.
func TestAHedgedCallHasTheReadingOfItsTry(t *testing.T) {
	var clock counted
	hedged := make(chan uint64, 1) // the reading at which the hedge was answered
	first := plane(t, func(out http.ResponseWriter, _ *http.Request) {
		at := <-hedged
		hedged <- at
		time.Sleep(100 * time.Millisecond)
		out.Write([]byte("{}"))
	})
	second := plane(t, func(out http.ResponseWriter, _ *http.Request) {
		hedged <- clock.Add(1)
		out.Write([]byte("{}"))
	})
	asks := controlOf(t, first, second)
	asks.local, asks.timeout = clock.read, 6*time.Second
	late := make(chan answer, 1)
	made, err := asks.call(context.Background(), request{
		method: "POST", path: "/grant", late: func(it answer) { late <- it },
	})
	if err != nil {
		t.Fatal(err)
	}
	select {
	case it := <-late:
		if at := <-hedged; it.sent >= made.sent || made.sent >= at {
			t.Errorf("they were sent at %d and %d, and the second one was answered at %d", it.sent, made.sent, at)
		}
	case <-time.After(30 * time.Second):
		t.Fatal("the first plane does not answer")
	}
}

// Readings of a table are below 2^62.
func TestReadingsThatNoTableHas(t *testing.T) {
	for text, isTaken := range map[string]bool{
		"0": true, "4611686018427387903": true, "4611686018427387904": false, "18446744073709551616": false, "-1": false,
	} {
		asks := controlOf(t, plane(t, func(out http.ResponseWriter, _ *http.Request) {
			out.Header().Set(readingHeader, text)
			out.Write([]byte("{}"))
		}))
		made, err := asks.call(context.Background(), request{method: "POST", path: "/grant"})
		if (err == nil) != isTaken || isTaken && fmt.Sprint(*made.reading) != text {
			t.Errorf("the reading %s: %v", text, err)
		}
		if !isTaken && asks.counts()["unreadable"] != 1 {
			t.Errorf("the reading %s: %v", text, asks.counts())
		}
	}
}

func TestEachTryHasATicketOfItsOwn(t *testing.T) {
	var mutex sync.Mutex
	var tickets []string
	down := func() string {
		return plane(t, func(out http.ResponseWriter, in *http.Request) {
			mutex.Lock()
			defer mutex.Unlock()
			tickets = append(tickets, in.Header.Get(ticketHeader))
			out.WriteHeader(http.StatusServiceUnavailable)
		})
	}
	asks := controlOf(t, down(), down())
	for range [2]int{} {
		if _, err := asks.call(context.Background(), request{method: "GET"}); !errors.Is(err, ErrUnreachable) {
			t.Fatal(err)
		}
	}
	mutex.Lock()
	defer mutex.Unlock()
	if wanted := "[320 576 832 1088]"; fmt.Sprint(tickets) != wanted { // of process 64: 1 to 4 times 256
		t.Errorf("the tries have the tickets %v, and not %s", tickets, wanted)
	}
}

func TestWaitsGrowToAMost(t *testing.T) {
	failures := backoff{least: 10 * time.Millisecond, most: 50 * time.Millisecond}
	for range [2]int{} {
		for at, most := range []time.Duration{10, 20, 40, 50, 50, 50} {
			most *= time.Millisecond
			if wait := failures.wait(); wait < most/2 || wait > most {
				t.Errorf("after %d failures it waits %v, and not from %v to %v", at+1, wait, most/2, most)
			}
		}
		failures.reset()
	}
}

// A plane that was silent at the last call, however long ago, is asked only after the others failed.
func TestNoHedgeAtASilentPlane(t *testing.T) {
	first := plane(t, func(out http.ResponseWriter, _ *http.Request) {
		time.Sleep(2 * time.Second) // and a hedge comes after one
		out.Write([]byte("{}"))
	})
	var asked atomic.Int64
	second := plane(t, func(out http.ResponseWriter, _ *http.Request) {
		asked.Add(1)
		out.Write([]byte("{}"))
	})
	asks := controlOf(t, first, second)
	asks.timeout = 3 * time.Second
	asks.planes.silent[second] = time.Now().Add(-time.Minute)
	for range [2]int{} { // the second time the plane is no longer silent
		expected := int64(0)
		if !asks.planes.isSilent(second) {
			expected = 1
		}
		_, err := asks.call(context.Background(), request{method: "POST", path: "/grant", late: func(answer) {}})
		if err != nil || asked.Load() != expected {
			t.Errorf("the second plane was asked %d times, and not %d: %v", asked.Load(), expected, err)
		}
		asks.planes.answered(second)
	}
}

func TestAPlaneThatFailsIsLoggedOnce(t *testing.T) {
	asks := controlOf(t, plane(t, func(out http.ResponseWriter, _ *http.Request) {
		out.WriteHeader(http.StatusServiceUnavailable)
	}))
	logger := &kept{}
	asks.logger = logger
	var calling sync.WaitGroup
	for range [20]int{} {
		calling.Add(1)
		go func() {
			defer calling.Done()
			if _, err := asks.call(context.Background(), request{method: "GET"}); !errors.Is(err, ErrUnreachable) {
				t.Error(err)
			}
		}()
	}
	calling.Wait()
	if len(logger.lines) != 1 || asks.counts()["503"] != 20 {
		t.Errorf("%v %v", logger.lines, asks.counts())
	}
}

func TestPlanesAreAskedSideBySide(t *testing.T) {
	asked := newPlanes([]string{"a", "b"})
	var asking sync.WaitGroup
	for range [8]int{} {
		asking.Add(1)
		go func() {
			defer asking.Done()
			for range [1000]int{} {
				plane := asked.next(nil, 0)
				asked.failed(plane, true, 0)
				asked.answered(plane)
			}
		}()
	}
	asking.Wait()
	asked.failed("a", false, 0)
	if plane := asked.next([]string{"a"}, time.Minute); plane != "b" {
		t.Errorf("after a comes %q", plane)
	}
}

func TestFailuresAreCountedSideBySide(t *testing.T) {
	asks := controlOf(t, "http://127.0.0.1:1")
	var counting sync.WaitGroup
	for range [8]int{} {
		counting.Add(1)
		go func() {
			defer counting.Done()
			for range [1000]int{} {
				asks.count("http://127.0.0.1:1", &unreached{what: "503"})
			}
		}()
	}
	counting.Wait()
	if counts := asks.counts(); counts["503"] != 8000 {
		t.Error(counts)
	}
}

func TestAJobOfAnotherPolicy(t *testing.T) {
	job := newJob(t, 1000)
	plane := job.plane()
	plane.fail(func(out http.ResponseWriter, in *http.Request) bool {
		if in.Method != http.MethodPut {
			return false
		}
		answerWith(out, http.StatusConflict, map[string]any{"refused": "exists"})
		return true
	})
	task := runs(t, TaskConfig{Control: []string{plane.URL}, Policy: job.policy})
	select {
	case err := <-task.ended:
		var rejected *Rejected
		if !errors.As(err, &rejected) || rejected.Status != 409 || !strings.Contains(err.Error(), "another policy") {
			t.Error(err)
		}
	case <-time.After(30 * time.Second):
		t.Fatal("Run goes on")
	}
}

// What wakes a task, as another phase, is no reason to ask a plane that is at a limit.
func TestABusyPlaneIsLeftAloneWhenThePhaseChanges(t *testing.T) {
	job := newJob(t, 2500)
	plane := job.plane()
	task := runs(t, TaskConfig{Control: []string{plane.URL}})
	eventually(t, "the task serves", func() bool { return task.serves("hello") })
	before := len(plane.times("grant"))
	plane.fail(func(out http.ResponseWriter, in *http.Request) bool {
		isGrant := strings.HasSuffix(in.URL.Path, "/grant")
		if isGrant {
			wrongAnswers["429"](out)
		}
		return isGrant
	})
	eventually(t, "the task asks", func() bool { return len(plane.times("grant")) > before })
	time.Sleep(50 * time.Millisecond)
	job.propose(halfOfTheKeys)
	eventually(t, "the task asks twice more", func() bool { return len(plane.times("grant")) >= before+3 })
	areApart(t, plane.times("grant")[before:])
}

func TestSendWaitsForAnOwner(t *testing.T) {
	job := newJob(t, 60_000)
	plane := job.plane()
	plane.fail(always(wrongAnswers["500"]))
	router := routes(t, plane.URL)
	ctx, cancel := context.WithTimeout(context.Background(), 30*time.Second)
	defer cancel()
	sent := make(chan error, 1)
	go func() {
		sent <- router.Send(ctx, "hello", func(context.Context, uint64) error { return nil })
	}()
	eventually(t, "the router asks twice", func() bool { return len(plane.times("assignment")) >= 2 })
	plane.fail(nil)
	if err := <-sent; err != nil {
		t.Error(err)
	}
}

func TestTheOwnerOfTheFewestAttempts(t *testing.T) {
	router, err := NewRouter(RouterConfig{Control: []string{"http://127.0.0.1:1"}, Job: "shop"})
	if err != nil {
		t.Fatal(err)
	}
	defer router.Close()
	owners := []uint64{1, 2, 3}
	picked := map[uint64]int{}
	for range [6]int{} {
		picked[router.pick(owners)]++
	}
	if fmt.Sprint(picked) != "map[1:2 2:2 3:2]" {
		t.Errorf("of six attempts the owners have %v", picked)
	}
	router.done(2)
	if owner := router.pick(owners); owner != 2 {
		t.Errorf("owner %d is picked, and 2 has the fewest", owner)
	}
}
