package service

import (
	"context"
	"errors"
	"fmt"
	"net/http"
	"net/http/httptest"
	"os"
	"os/exec"
	"path/filepath"
	"reflect"
	"strings"
	"sync"
	"testing"
	"time"

	"hourstable"
)

func ranges(edges ...uint64) []hourstable.Range {
	var made []hourstable.Range
	for at := 0; at < len(edges); at += 2 {
		made = append(made, hourstable.Range{First: edges[at], End: edges[at+1]})
	}
	return made
}

func TestRanges(t *testing.T) {
	for _, it := range []struct{ some, others, minus, union []hourstable.Range }{
		{ranges(), ranges(1, 3), ranges(), ranges(1, 3)},
		{ranges(1, 3), ranges(), ranges(1, 3), ranges(1, 3)},
		{ranges(1, 9), ranges(3, 5), ranges(1, 3, 5, 9), ranges(1, 9)},
		{ranges(1, 3, 5, 9), ranges(2, 6), ranges(1, 2, 6, 9), ranges(1, 9)},
		{ranges(1, 3), ranges(3, 5), ranges(1, 3), ranges(1, 5)},
		{ranges(1, 3), ranges(0, 5), ranges(), ranges(0, 5)},
		{ranges(6, 8), ranges(1, 2), ranges(6, 8), ranges(1, 2, 6, 8)},
	} {
		if found := minus(it.some, it.others); !reflect.DeepEqual(found, it.minus) {
			t.Errorf("%v minus %v is %v", it.some, it.others, found)
		}
		if found := union(it.some, it.others); !reflect.DeepEqual(found, it.union) {
			t.Errorf("%v and %v are %v", it.some, it.others, found)
		}
	}
	if holds(ranges(1, 3), 3) || !holds(ranges(1, 3), 1) {
		t.Error("a range has its first key and not its end")
	}
}

func drawn(t *testing.T, from *tickets) uint64 {
	t.Helper()
	ticket, err := from.draw()
	if err != nil {
		t.Fatal(err)
	}
	return ticket
}

// Tickets rise over processes, also after one that lost what was not on the disk.
func TestTicketsOutlastAProcess(t *testing.T) {
	path := filepath.Join(t.TempDir(), "task-1.ticket")
	one, err := openTickets(64, path)
	if err != nil {
		t.Fatal(err)
	}
	if _, err := openTickets(64, path); err == nil {
		t.Error("two processes draw from one file")
	}
	first, second := drawn(t, one), drawn(t, one)
	if first>>8 != 1 || second>>8 != 2 || second&255 != 64 {
		t.Errorf("drawn %d %d", first, second)
	}
	if one.observe("66816"); drawn(t, one)>>8 != 262 { // 66816 is 261 * 256
		t.Error("261 is not observed")
	}
	one.close()
	again, err := openTickets(64, path)
	if err != nil || drawn(t, again)>>8 != 263 {
		t.Errorf("the next process: %v", err)
	}
	again.close()
	text, _ := os.ReadFile(path)
	copy(text[bootAt:], strings.Repeat("x", 36)) // as after a crash of the machine,
	copy(text[lastAt:], make([]byte, 8))         // whose disk did not have the last tickets
	os.WriteFile(path, text, 0o644)
	after, err := openTickets(64, path)
	if err != nil || drawn(t, after)>>8 < 263 {
		t.Errorf("after a crash: %v", err)
	}
	after.close()
	os.WriteFile(path, []byte("no tickets"), 0o644)
	if _, err := openTickets(64, path); err == nil {
		t.Error("a file of something else is opened")
	}
}

func plane(t *testing.T, handler http.HandlerFunc) string {
	t.Helper()
	server := httptest.NewServer(handler)
	t.Cleanup(server.Close)
	return server.URL
}

func controlOf(t *testing.T, urls ...string) *control {
	t.Helper()
	made := newControl(urls, "shop")
	made.secret, made.timeout = "0123456789abcdef", time.Second
	made.tickets, _ = openTickets(64, "")
	made.local = func() (uint64, error) { return 7, nil }
	return made
}

func TestAnotherPlaneIsAsked(t *testing.T) {
	asked := 0
	down := plane(t, func(out http.ResponseWriter, _ *http.Request) {
		asked++
		out.Header().Set("Retry-After", "3")
		out.WriteHeader(http.StatusServiceUnavailable)
	})
	up := plane(t, func(out http.ResponseWriter, in *http.Request) {
		if in.URL.Path != "/jobs/shop/grant" || in.Header.Get("Authorization") != "Bearer 0123456789abcdef" {
			t.Error(in.URL, in.Header)
		}
		out.Header().Set(readingHeader, "12")
		out.Header().Set(ticketHeader, "66816")
		out.Write([]byte("{}"))
	})
	asks := controlOf(t, down, up)
	for range [2]int{} {
		made, err := asks.call(context.Background(), request{method: "POST", path: "/grant"})
		if err != nil || made.reading == nil || *made.reading != 12 || made.sent != 7 {
			t.Error(made, err)
		}
	}
	if asked != 1 {
		t.Errorf("the plane that is down was asked %d times", asked)
	}
	if drawn(t, asks.tickets)>>8 < 262 {
		t.Error("the ticket of the answer was not observed")
	}
	_, err := controlOf(t, down).call(context.Background(), request{method: "POST", path: "/grant"})
	var trouble *unreached
	if !errors.As(err, &trouble) || !errors.Is(err, ErrUnreachable) || trouble.after != 3*time.Second {
		t.Error(err)
	}
}

// A call ends with its context, and at its limit of time it may be made again.
func TestContextsOfCalls(t *testing.T) {
	ended := make(chan struct{})
	asks := controlOf(t, plane(t, func(_ http.ResponseWriter, in *http.Request) {
		select {
		case <-in.Context().Done():
		case <-ended:
		}
	}))
	defer close(ended)
	_, err := asks.call(context.Background(), request{method: "GET", timeout: 20 * time.Millisecond})
	if !errors.Is(err, ErrUnreachable) {
		t.Error("at its limit:", err)
	}
	ctx, cancel := context.WithCancel(context.Background())
	time.AfterFunc(20*time.Millisecond, cancel)
	if _, err := asks.call(ctx, request{method: "GET", timeout: time.Minute}); !errors.Is(err, context.Canceled) {
		t.Error("cancelled:", err)
	}
}

// Processes that fail at once do not try again at once: each has chance of its own.
func TestProcessesDrawOtherNumbers(t *testing.T) {
	if os.Getenv("HOURSTABLE_DRAWS") != "" {
		fmt.Println("drawn", (&backoff{least: time.Hour, most: time.Hour}).wait())
		return
	}
	drawn := map[string]bool{}
	for range [3]int{} {
		process := exec.Command(os.Args[0], "-test.run=^TestProcessesDrawOtherNumbers$")
		process.Env = append(os.Environ(), "HOURSTABLE_DRAWS=1")
		said, err := process.Output()
		if err != nil || !strings.HasPrefix(string(said), "drawn ") {
			t.Fatalf("%s %v", said, err)
		}
		drawn[strings.SplitN(string(said), "\n", 2)[0]] = true
	}
	if len(drawn) != 3 {
		t.Error(drawn)
	}
}

func TestATaskOfAnotherNumber(t *testing.T) {
	for _, number := range []uint64{0, 65, 193, 1 << 40} {
		config := TaskConfig{Control: []string{"http://127.0.0.1:1"}, Job: "shop", Task: number}
		if task, err := NewTask(config); err == nil {
			task.tickets.close()
			t.Errorf("task %d is taken", number)
		}
	}
}

// A plane that stands by answers that it cannot do a call yet: nobody goes back to the
// one that is silent for it.
func TestAPlaneThatStandsByLeadsNobodyBack(t *testing.T) {
	ends := make(chan struct{})
	defer close(ends)
	var mutex sync.Mutex
	asked := 0
	dead := plane(t, func(_ http.ResponseWriter, in *http.Request) {
		mutex.Lock()
		asked++
		mutex.Unlock()
		<-ends
	})
	standby := plane(t, func(out http.ResponseWriter, _ *http.Request) {
		out.WriteHeader(http.StatusServiceUnavailable)
	})
	asks := controlOf(t, dead, standby)
	for range [5]int{} {
		if _, err := asks.call(context.Background(), request{method: "GET"}); !errors.Is(err, ErrUnreachable) {
			t.Fatal(err)
		}
	}
	mutex.Lock()
	defer mutex.Unlock()
	if asked != 1 {
		t.Errorf("the silent plane was asked %d times", asked)
	}
}

// A silent plane is asked again after a while.
func TestAPlaneThatRests(t *testing.T) {
	asks := newPlanes([]string{"a", "b", "c"})
	asks.failed("a", true, time.Minute)
	asks.failed("b", false, time.Minute)
	for rest, order := range map[time.Duration]string{time.Minute: "cb", 0: "cab"} {
		tried := []string{}
		for plane := asks.next(tried, rest); plane != ""; plane = asks.next(tried, rest) {
			tried = append(tried, plane)
		}
		if made := strings.Join(tried, ""); made != order {
			t.Errorf("%v: %s, and not %s", rest, made, order)
		}
	}
}

// hedged makes calls at two planes, so many at a time, of which the first one answers
// after a while, and returns how often each was asked.
func hedged(t *testing.T, times, calls int, timeout, while time.Duration) (first, second int, took time.Duration) {
	t.Helper()
	var mutex sync.Mutex
	asked := map[string]int{}
	server := func(name string, while time.Duration) string {
		return plane(t, func(out http.ResponseWriter, in *http.Request) {
			mutex.Lock()
			asked[name]++
			mutex.Unlock()
			select {
			case <-in.Context().Done(): // the try is over
			case <-time.After(while):
			}
			out.Write([]byte("{}"))
		})
	}
	asks := controlOf(t, server("first", while), server("second", 0))
	asks.timeout = timeout
	begun := time.Now()
	for ; times > 0; times-- {
		var calling sync.WaitGroup
		for made := 0; made < calls; made++ {
			calling.Add(1)
			go func() {
				defer calling.Done()
				_, err := asks.call(context.Background(), request{method: "POST", path: "/grant", late: func(answer) {}})
				if err != nil {
					t.Error(err)
				}
			}()
		}
		calling.Wait()
	}
	took = time.Since(begun)
	mutex.Lock()
	defer mutex.Unlock()
	return asked["first"], asked["second"], took
}

func TestAHedgedCall(t *testing.T) {
	first, second, took := hedged(t, 1, 1, time.Minute, 3*time.Second)
	if first != 1 || second != 0 {
		t.Errorf("%d and %d requests before a third of the time was over", first, second)
	}
	first, second, took = hedged(t, 1, 1, 3*time.Second, 10*time.Second)
	if first != 1 || second != 1 || took > 3*time.Second {
		t.Errorf("%d and %d requests, %v", first, second, took)
	}
}

func TestHedgesAreATenthOfTheCalls(t *testing.T) {
	const times, calls = 3, 50
	first, second, _ := hedged(t, times, calls, 9*time.Second, 5*time.Second)
	if first != times*calls || second != mostRetries+(times-1)*calls/retryCosts { // those that were saved up come first
		t.Errorf("%d and %d requests", first, second)
	}
}

// A plane that hands a call on tells the address of the holder, which is asked from then
// on; not if it was silent to this caller.
func TestTheHolderThatAPlaneTells(t *testing.T) {
	for _, isSilent := range []bool{false, true} {
		var mutex sync.Mutex
		asked, address := 0, ""
		holder := plane(t, func(out http.ResponseWriter, _ *http.Request) {
			mutex.Lock()
			defer mutex.Unlock()
			asked++
			out.Write([]byte("{}"))
		})
		address = holder
		standby := plane(t, func(out http.ResponseWriter, _ *http.Request) {
			out.Header().Set(holderHeader, address)
			out.Write([]byte("{}"))
		})
		asks := controlOf(t, standby, holder)
		expected := 2
		if isSilent {
			asks.planes.failed(holder, true, 0)
			expected = 0
		}
		for range [3]int{} {
			if _, err := asks.call(context.Background(), request{method: "POST", path: "/grant"}); err != nil {
				t.Error(err)
			}
		}
		mutex.Lock()
		if asked != expected {
			t.Errorf("the holder was asked %d times, and not %d", asked, expected)
		}
		mutex.Unlock()
	}
}

// A plane is upgraded before its callers; one that is newer than it says is refused by name.
func TestAnAnswerOfANewerVersion(t *testing.T) {
	said := make(chan string, 8)
	url := plane(t, func(out http.ResponseWriter, in *http.Request) {
		said <- in.Header.Get(versionHeader)
		out.Header().Set(versionHeader, "2")
		answerWith(out, 200, map[string]any{})
	})
	_, err := controlOf(t, url).call(context.Background(), request{method: http.MethodGet})
	if err == nil || !strings.Contains(err.Error(), "the answer is of version 2") {
		t.Fatalf("an answer of a newer version is %v", err)
	}
	if first := <-said; first != "1" {
		t.Fatalf("the call is of version %q", first)
	}
}
