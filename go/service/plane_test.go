package service

import (
	"context"
	"encoding/json"
	"errors"
	"fmt"
	"io"
	"net/http"
	"net/http/httptest"
	"strconv"
	"strings"
	"sync"
	"testing"
	"time"

	"hourstable"
)

const everyKey = `[["0",[1]]]` // of task 1

// job is a real table behind real servers: its planes, each of which may fail.
type job struct {
	t      *testing.T
	policy map[string]any
	begun  time.Time

	mutex   sync.Mutex
	table   *hourstable.Table
	term    uint64
	lives   map[string]uint32
	tickets uint64
	drains  []uint64      // tasks
	grants  []uint32      // the lives that asked for leases
	isOld   bool          // a life that asks to be let in gets a lease
	behind  uint64        // ticks by which the readings that it says are behind the table's
	changed chan struct{} // closed at the next phase
}

func (j *job) drained() []uint64 {
	j.mutex.Lock()
	defer j.mutex.Unlock()
	return append([]uint64{}, j.drains...)
}

func (j *job) drain(tasks ...uint64) {
	j.mutex.Lock()
	defer j.mutex.Unlock()
	j.drains = tasks
}

func newJob(t *testing.T, guard uint64) *job {
	t.Helper()
	policy := hourstable.Policy{Low: 1, High: 1, Guard: guard, Bridge: guard, Job: 1 << 31, Numbers: 1 << 20}
	table, err := hourstable.NewTable("shop", policy)
	if err != nil {
		t.Fatal(err)
	}
	t.Cleanup(func() { table.Close() })
	made := &job{
		t: t, table: table, begun: time.Now().Add(-time.Minute), lives: map[string]uint32{}, changed: make(chan struct{}),
		policy: map[string]any{
			"redundancy": []int{1, 1}, "skew": 0, "guard": guard, "bridge": guard, "job": 1 << 31, "numbers": 1 << 20,
		},
	}
	term, err := table.Take(1, made.now())
	if err != nil {
		t.Fatal(err)
	}
	made.term = term.Number
	made.propose(everyKey)
	made.commit()
	return made
}

// now is the reading of the table; the mutex is held.
func (j *job) now() uint64 { return uint64(time.Since(j.begun).Milliseconds()) + 1 }

func (j *job) propose(slices string) {
	j.t.Helper()
	j.mutex.Lock()
	defer j.mutex.Unlock()
	phase, err := j.table.Phase()
	if err != nil {
		j.t.Fatal(err)
	}
	message := fmt.Sprintf(`{"job":"shop","type":"assignment","value":{"generation":"%d","slices":%s},"version":2}`,
		phase.Committed+1, slices)
	if err := j.table.Propose(j.term, []byte(message), j.now()); err != nil {
		j.t.Fatal(err)
	}
	close(j.changed)
	j.changed = make(chan struct{})
}

// commit commits what is proposed, once no lease is in its way.
func (j *job) commit() {
	j.t.Helper()
	last := ""
	j.t.Cleanup(func() {
		if last != "" {
			j.t.Logf("the table did not commit: %s", last)
		}
	})
	eventually(j.t, "the table commits", func() bool {
		j.mutex.Lock()
		defer j.mutex.Unlock()
		if _, err := j.table.Commit(j.term, j.now()); err != nil {
			last = err.Error()
			return false
		}
		last = ""
		close(j.changed)
		j.changed = make(chan struct{})
		return true
	})
}

// testPlane is one plane of a job.
type testPlane struct {
	*httptest.Server
	job *job

	mutex sync.Mutex
	wrong func(http.ResponseWriter, *http.Request) bool // answers in place of the plane, if it does
	asked map[string][]time.Time                        // by the last word of the path
	first string                                        // id of a request
}

// request returns the id of the first request.
func (p *testPlane) request() string {
	p.mutex.Lock()
	defer p.mutex.Unlock()
	return p.first
}

func (j *job) plane() *testPlane {
	made := &testPlane{job: j, asked: map[string][]time.Time{}}
	made.Server = httptest.NewServer(made)
	j.t.Cleanup(made.Close)
	return made
}

// fail lets the plane answer as given; nil mends it.
func (p *testPlane) fail(wrong func(http.ResponseWriter, *http.Request) bool) {
	p.mutex.Lock()
	defer p.mutex.Unlock()
	p.wrong = wrong
}

// times returns when a call was asked for.
func (p *testPlane) times(call string) []time.Time {
	p.mutex.Lock()
	defer p.mutex.Unlock()
	return append([]time.Time{}, p.asked[call]...)
}

func (p *testPlane) ServeHTTP(out http.ResponseWriter, in *http.Request) {
	call := in.URL.Path[strings.LastIndex(in.URL.Path, "/")+1:]
	p.mutex.Lock()
	wrong := p.wrong
	p.asked[call] = append(p.asked[call], time.Now())
	if p.first == "" {
		p.first = in.Header.Get(requestHeader)
	}
	p.mutex.Unlock()
	if wrong != nil && wrong(out, in) {
		return
	}
	body, err := io.ReadAll(in.Body)
	if err != nil {
		return
	}
	switch call {
	case "shop":
		answerWith(out, 200, map[string]any{"policy": p.job.policy, "draining": p.job.drained()})
	case "phase":
		p.job.answerPhase(out, in)
	case "assignment":
		p.job.answerAssignment(out, in)
	case "life":
		p.job.answerLife(out, in.URL.Path)
	case "loads":
		out.WriteHeader(http.StatusNoContent)
	default:
		p.job.answerCall(out, call, body)
	}
}

func answerWith(out http.ResponseWriter, status int, value any) {
	out.WriteHeader(status)
	json.NewEncoder(out).Encode(value)
}

// wait waits for another phase, but not long.
func (j *job) wait(in *http.Request, isOld func() bool) {
	for end := time.Now().Add(time.Second); time.Now().Before(end) && in.Context().Err() == nil; {
		j.mutex.Lock()
		changed, old := j.changed, isOld()
		j.mutex.Unlock()
		if !old {
			return
		}
		within, cancel := context.WithDeadline(in.Context(), end)
		select {
		case <-changed:
		case <-within.Done():
		}
		cancel()
	}
}

func (j *job) answerPhase(out http.ResponseWriter, in *http.Request) {
	var phase hourstable.Phase
	j.wait(in, func() bool {
		phase, _ = j.table.Phase()
		known := fmt.Sprintf("committed=%d&pending=%d", phase.Committed, phase.Proposed)
		return in.URL.RawQuery == known
	})
	var pending any
	if phase.Proposed != 0 {
		pending = phase.Proposed
	}
	answerWith(out, 200, map[string]any{"committed": phase.Committed, "pending": pending})
}

func (j *job) answerAssignment(out http.ResponseWriter, in *http.Request) {
	after, _ := strconv.ParseUint(in.URL.Query().Get("after"), 10, 64)
	var phase hourstable.Phase
	j.wait(in, func() bool {
		phase, _ = j.table.Phase()
		return phase.Committed <= after
	})
	if phase.Committed <= after {
		out.WriteHeader(http.StatusNoContent)
		return
	}
	j.mutex.Lock()
	defer j.mutex.Unlock()
	message, _ := j.table.Committed()
	out.Write(message)
}

func (j *job) answerLife(out http.ResponseWriter, path string) {
	j.mutex.Lock()
	defer j.mutex.Unlock()
	j.lives[path]++
	answerWith(out, 200, map[string]any{"life": j.lives[path], "last": j.lives[path] - 1})
}

// answerCall makes a grant or frees a note.
func (j *job) answerCall(out http.ResponseWriter, call string, body []byte) {
	j.mutex.Lock()
	defer j.mutex.Unlock()
	at := j.now()
	j.tickets += 1 << 8
	out.Header().Set(ticketHeader, fmt.Sprint(j.tickets))
	out.Header().Set(readingHeader, fmt.Sprint(at-j.behind))
	var made []byte
	var err error
	if call == "grant" {
		var asked struct {
			Task  uint64
			Life  uint32
			LetIn bool `json:"let_in"`
		}
		json.Unmarshal(body, &asked)
		if asked.LetIn && !j.isOld {
			answerWith(out, 200, map[string]any{"let_in": asked.Life, "epoch": 7})
			return
		}
		j.grants = append(j.grants, asked.Life)
		made, err = j.table.Grant(asked.Task, asked.Life, at)
	} else {
		made = []byte("{}")
		_, err = j.table.Free(body, at)
	}
	var refused *hourstable.Refused
	if errors.As(err, &refused) {
		answerWith(out, 409, map[string]any{"refused": strings.Fields(refused.Reply())[0], "told": map[string]any{}})
		return
	}
	out.Write(made)
}

// eventually waits for what must become true.
func eventually(t *testing.T, what string, holds func() bool) {
	t.Helper()
	for end := time.Now().Add(60 * time.Second); !holds(); time.Sleep(5 * time.Millisecond) {
		if time.Now().After(end) {
			t.Fatalf("it does not come true: %s", what)
		}
	}
}

// ran is a task that runs until the end of the test.
type ran struct {
	*Task
	cancel context.CancelFunc
	ended  chan error // has what Run returned
}

func runs(t *testing.T, config TaskConfig) *ran {
	t.Helper()
	config.Job, config.Task = "shop", 1
	task, err := NewTask(config)
	if err != nil {
		t.Fatal(err)
	}
	ctx, cancel := context.WithCancel(context.Background())
	made := &ran{task, cancel, make(chan error, 1)}
	stopped := make(chan struct{})
	go func() {
		defer close(stopped)
		made.ended <- task.Run(ctx)
	}()
	t.Cleanup(func() {
		cancel()
		<-stopped
	})
	return made
}

func (r *ran) serves(key string) bool {
	return r.Serving(context.Background(), key, func(context.Context, *Lease) error { return nil }) == nil
}

// renewals returns how many leases the task heard.
func (r *ran) renewals() uint64 {
	heard := r.Counts().Heard
	return heard["guard"] + heard["bridge"]
}

// renews waits until the task has renewed twice from now on, and Run goes on.
func (r *ran) renews(t *testing.T) {
	t.Helper()
	before := r.renewals()
	eventually(t, "the task renews twice", func() bool {
		select {
		case err := <-r.ended:
			t.Fatalf("Run returned %v", err)
		default:
		}
		return r.renewals() >= before+2
	})
}
