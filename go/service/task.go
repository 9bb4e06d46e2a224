package service

import (
	"context"
	"errors"
	"fmt"
	"net/http"
	"os"
	"path/filepath"
	"sync"
	"sync/atomic"
	"time"

	"hourstable"
)

const (
	keys         = uint64(1) << 63
	loadBits     = 10                     // loads are reported for 1,024 parts of the slice keys
	lastCalls    = 64                     // a slicelet that accepts no more calls than these is replaced
	jitter       = 0.1                    // of half a lease, by which a renewal comes earlier or later
	leastWait    = 100 * time.Millisecond // between two questions of a life that waits
	firstProcess = 64                     // of tasks: task 1 draws the tickets of process 64
	mostTasks    = 64
)

// TaskConfig says which task a process is, and where its control planes are.
type TaskConfig struct {
	Control []string // URLs of control planes
	Job     string
	Task    uint64  // 1 to 64; of two processes of one task the second waits
	Logs    string  // the folder of logs, which has one for each job; none is written if empty
	State   string  // the folder of tickets, the lock and keys; if empty, tickets are with the logs, and the others beside
	Sample  float64 // the part of the answers of Serving whose calls are logged, all if 0

	Policy map[string]any // creates the job if it is not there; nil if it is there
	Secret string
	Client *http.Client // http.DefaultClient if nil
	Logger Logger
	Drift  hourstable.Drift // 1,001 in 1,000,000 with a grain of 2 if zero
	Oldest uint64           // ticks without an answer of the table; a guard term if 0, in which leases end

	// OnGain is told of slice keys that the task may serve from now on, and OnLose of
	// those that it gives up, before it does: it has Patience for it, and then as long
	// have the answers of Serving that run on these keys. Ends is the reading of the
	// task's clock at which the lease ends anyway. If one of them panics, that is logged
	// and counted, and the task goes on.
	OnGain   func([]hourstable.Range)
	OnLose   func(ctx context.Context, lost []hourstable.Range, ends uint64)
	Patience time.Duration // 1 s if 0
	Report   time.Duration // between two reports of loads, 5 s if 0

	local func() (uint64, error)
}

// Task is a server process that owns keys of a job, and answers for them only while
// it may. It does nothing until Run. Any goroutines may use it at the same time.
type Task struct {
	config     TaskConfig
	control    *control
	tickets    *tickets
	lives      *ownLives
	supervisor *supervisor
	policy     hourstable.Policy
	woken      chan struct{}
	lasting    context.Context // of what goes on while the task gives up its leases
	stop       context.CancelFunc

	mutex      sync.Mutex
	log        *callLog // nil for none
	leases     *leases  // nil between two lives
	coming     *ownLife // a life that was drawn, and is not let in; for the loop of leases alone
	late       []lateAnswer
	dropped    []droppedLife // whose bridge leases are freed once the next life has begun
	phase      *hourstable.Phase
	renewAt    uint64
	served     []hourstable.Range
	moving     []hourstable.Range
	isBehind   bool
	hasServed  bool          // it had a lease
	isDraining bool          // the context of Run has ended
	isDrained  bool          // an operator drains it, and it has no keys
	renewed    time.Time     // when it heard a lease last
	replaced   chan struct{} // while a slicelet is replaced: what is closed then
	isStopped  bool

	drainsItself bool      // its life was drained by Drain
	isWaiting    bool      // another process of the task may have leases
	cutOff       time.Time // since when no control plane gives leases; zero if one does
	left         chan struct{}
	counts       Counts // but for Requests, which desks count

	desks  desks
	admits atomic.Pointer[admission] // of leases and moving, which publish sets
}

// lateAnswer is an answer to a call for a grant that came after another one.
type lateAnswer struct {
	made answer
	held *leases
}

// NewTask locks a task and opens its tickets. An error if a number or a URL is none, or
// another process has the lock or the tickets.
func NewTask(config TaskConfig) (*Task, error) {
	if config.Task < 1 || config.Task > mostTasks {
		return nil, fmt.Errorf("hourstable: task %d is not 1 to %d", config.Task, mostTasks)
	}
	if err := checkPlanes(config.Control); err != nil {
		return nil, err
	}
	config = config.withDefaults()
	process := uint8(firstProcess + config.Task - 1)
	path, err := config.ticketFile()
	if err != nil {
		return nil, err
	}
	lives, err := openLives(config.lockFolder(), config.Task)
	if err != nil {
		return nil, err
	}
	drawn, err := openTickets(process, path)
	if err != nil {
		lives.close()
		return nil, err
	}
	made := &Task{
		lives:  lives,
		config: config, tickets: drawn, supervisor: newSupervisor(config.Logger), woken: make(chan struct{}, 1),
		left:   make(chan struct{}, 1),
		counts: Counts{Denied: map[string]uint64{}, Heard: map[string]uint64{}},
	}
	made.publish()
	made.lasting, made.stop = context.WithCancel(context.Background())
	made.control = newControl(config.Control, config.Job)
	made.control.secret, made.control.client, made.control.logger = config.Secret, config.Client, config.Logger
	made.control.tickets, made.control.local = drawn, config.now
	return made, nil
}

func (c TaskConfig) withDefaults() TaskConfig {
	if c.Client == nil {
		c.Client = http.DefaultClient
	}
	if c.Drift == (hourstable.Drift{}) {
		c.Drift = hourstable.Drift{Extra: 1001, Per: 1_000_000, Grain: 2}
	}
	if c.Patience == 0 {
		c.Patience = time.Second
	}
	if c.Sample == 0 {
		c.Sample = 1
	}
	if c.Report == 0 {
		c.Report = 5 * time.Second
	}
	c.Logger = loggerOf(c.Logger, "job", c.Job, "task", c.Task)
	return c
}

// now returns the local reading.
func (c TaskConfig) now() (uint64, error) {
	if c.local == nil {
		return hourstable.LocalTicks()
	}
	return c.local()
}

// lockFolder returns the folder of the lock and the keys of the task: that of state, or
// else that of systemd, or the one beside the logs; "" for none.
func (c TaskConfig) lockFolder() string {
	folder := c.State
	if folder == "" && c.Logs != "" {
		if folder = os.Getenv("STATE_DIRECTORY"); folder == "" {
			folder = filepath.Clean(c.Logs) + ".state"
		}
	}
	if folder == "" {
		return ""
	}
	return filepath.Join(folder, c.Job)
}

// ticketFile returns the path of the tickets, "" for none. A file in the folder of logs
// is moved to that of state.
func (c TaskConfig) ticketFile() (string, error) {
	name := filepath.Join(c.Job, fmt.Sprintf("task-%d.ticket", c.Task))
	beside := filepath.Join(c.Logs, name)
	switch {
	case c.State == "" && c.Logs == "":
		return "", nil
	case c.State == "":
		return beside, nil
	case c.Logs == "":
		return filepath.Join(c.State, name), nil
	}
	path := filepath.Join(c.State, name)
	return path, moveTickets(beside, path)
}

// Run follows the table until the context ends, then gives up all leases and frees
// them at the table, and returns nil. Before that it returns only what cannot mend
// itself: ErrClockBroken, ErrOvertaken, ErrNoJob if there is no job and no policy to create it,
// *Rejected if the job has another policy, or that its log is one of another policy.
func (t *Task) Run(ctx context.Context) error {
	defer t.end()
	inner, cancel := context.WithCancel(ctx)
	defer cancel()
	t.supervisor.spawn("drain", func() error {
		<-inner.Done()
		t.drain()
		return nil
	})
	why := t.follow(inner)
	cancel()
	t.drain()
	// Each kind of lease has the patience of a callback and of the answers.
	patience := 2 * time.Duration(len(kinds)) * t.config.Patience
	last, stop := context.WithTimeout(t.lasting, patience+t.control.timeout)
	defer stop()
	err := t.supervisor.guarded(func() error { return t.endAll(last) })
	if err != nil {
		t.config.Logger.Warn("a task ends with leases that were not freed", "error", err)
	}
	t.supervisor.wait(last)
	return ifNotEnded(ctx, why)
}

// follow learns the policy of the job, and follows its table until the context ends or
// something cannot mend itself.
func (t *Task) follow(ctx context.Context) error {
	if err := t.supervisor.loop(ctx, "policy", t.failures(), t.learnPolicy, nil); err != nil {
		return err
	}
	inner, cancel := context.WithCancel(ctx)
	defer cancel()
	loops := []struct {
		where string
		work  func(context.Context) error
		mend  func() error
	}{{"phase", t.watch, nil}, {"leases", t.act, t.dropLife}, {"loads", t.report, nil}}
	ended := make(chan error, len(loops))
	for _, it := range loops {
		it := it
		go func() { ended <- t.supervisor.loop(inner, it.where, t.failures(), it.work, it.mend) }()
	}
	first := <-ended
	cancel()
	for range loops[1:] {
		<-ended
	}
	return first
}

// end closes what Run leaves.
func (t *Task) end() {
	t.stop()
	if held := t.life(); held != nil { // what it serves by ends before another process may have the lock
		t.forget(held)
	}
	t.lives.close()
	t.mutex.Lock()
	log := t.log
	t.isStopped = true
	t.mutex.Unlock()
	log.close()
	t.tickets.close()
}

func ifNotEnded(ctx context.Context, err error) error {
	if ctx.Err() != nil && errors.Is(err, ctx.Err()) {
		return nil
	}
	return err
}

// Reading returns the reading of the task's clock. ErrClockBehind.
func (t *Task) Reading() (uint64, error) {
	if held := t.life(); held != nil {
		return held.read()
	}
	return 0, ErrClockBehind
}

// Served returns the slice keys that the task may serve, as far as it last noticed.
func (t *Task) Served() []hourstable.Range {
	t.mutex.Lock()
	defer t.mutex.Unlock()
	return minus(t.served, t.moving)
}

func (t *Task) life() *leases {
	t.mutex.Lock()
	defer t.mutex.Unlock()
	return t.leases
}
