package service

import (
	"context"
	"errors"
	"fmt"
	"math"
	"net/http"
	"sync"
	"time"

	"hourstable"
)

const (
	firstRouter    = 144 // the number of the process whose tickets a router draws: no log has them
	retriesASecond = 10  // of Send, beside a tenth of its calls
)

// RouterConfig says of which job a router finds owners.
type RouterConfig struct {
	Control []string // URLs of control planes
	Job     string
	Secret  string
	Client  *http.Client // http.DefaultClient if nil
	Logger  Logger
}

// Router knows the newest assignment of a job that it was given, and picks an owner
// of a key. It may be wrong: a task that does not own the key says so. It knows
// nothing until Run. Any goroutines may use it at the same time.
type Router struct {
	config     RouterConfig
	control    *control
	clerk      *hourstable.Clerk
	supervisor *supervisor
	retries    *budget // of Send

	mutex      sync.Mutex
	generation uint64
	isMissing  bool      // no control plane has the job
	heard      time.Time // when a control plane last answered
	underway   map[uint64]int
	changed    chan struct{} // closed at the next assignment
}

// NewRouter returns a router, which knows no assignment.
func NewRouter(config RouterConfig) (*Router, error) {
	if err := checkPlanes(config.Control); err != nil {
		return nil, err
	}
	clerk, err := hourstable.NewClerk(config.Job)
	if err != nil {
		return nil, err
	}
	if config.Client == nil {
		config.Client = http.DefaultClient
	}
	config.Logger = loggerOf(config.Logger, "job", config.Job)
	drawn, err := openTickets(firstRouter, "")
	if err != nil {
		return nil, err
	}
	made := &Router{
		config: config, clerk: clerk, underway: map[uint64]int{}, changed: make(chan struct{}),
		control: newControl(config.Control, config.Job), supervisor: newSupervisor(config.Logger),
		retries: newBudget(retriesASecond),
	}
	made.control.secret, made.control.client, made.control.logger = config.Secret, config.Client, config.Logger
	made.control.tickets, made.control.local = drawn, hourstable.LocalTicks
	return made, nil
}

// Run follows the assignments of the job until the context ends, and returns nil.
func (r *Router) Run(ctx context.Context) error {
	failures := &backoff{least: 50 * time.Millisecond, most: 2 * time.Second}
	return ifNotEnded(ctx, r.supervisor.loop(ctx, "assignments", failures, r.follow, nil))
}

func (r *Router) follow(ctx context.Context) error {
	failures := &backoff{least: 50 * time.Millisecond, most: 2 * time.Second}
	for {
		err := r.learn(ctx)
		if err == nil {
			failures.reset()
			continue
		}
		var trouble *unreached
		if !errors.As(err, &trouble) {
			return err
		}
		r.miss(trouble.isMissing)
		if err := pause(ctx, trouble.wait(failures, 0), nil); err != nil {
			return err
		}
	}
}

func (r *Router) miss(isMissing bool) {
	r.mutex.Lock()
	defer r.mutex.Unlock()
	r.isMissing = isMissing
}

// learn learns the next assignment, as soon as there is one.
func (r *Router) learn(ctx context.Context) error {
	made, err := r.control.call(ctx, request{
		method: http.MethodGet, path: fmt.Sprintf("/assignment?after=%d", r.Generation()),
		timeout: longestWait + usualTimeout, read: func(made answer) error {
			if made.status == http.StatusNoContent {
				return nil
			}
			return r.clerk.Learn(made.body) // a plane that stands by is behind
		},
	})
	if err != nil {
		return err
	}
	r.mutex.Lock()
	defer r.mutex.Unlock()
	r.heard, r.isMissing = time.Now(), false
	if made.status == http.StatusNoContent {
		return nil
	}
	found, err := r.clerk.LookAt(0)
	if err != nil {
		return err
	}
	r.generation = found.Generation
	close(r.changed)
	r.changed = make(chan struct{})
	return nil
}

// Troubles returns what the router counted of failures.
func (r *Router) Troubles() Troubles { return troublesOf(r.control, r.supervisor) }

// Generation returns the generation of the known assignment, 0 for none.
func (r *Router) Generation() uint64 {
	r.mutex.Lock()
	defer r.mutex.Unlock()
	return r.generation
}

// Stale returns how long ago a control plane answered: up to 30 s if all is well.
func (r *Router) Stale() time.Duration {
	r.mutex.Lock()
	defer r.mutex.Unlock()
	if r.heard.IsZero() {
		return math.MaxInt64
	}
	return time.Since(r.heard)
}

// Owners returns the owners of a key. ErrNoOwner, which is ErrNoJob too if no control
// plane has the job.
func (r *Router) Owners(key string) (hourstable.Owners, error) {
	found, err := r.clerk.Look([]byte(key))
	if !errors.Is(err, hourstable.ErrUnknown) {
		return found, err
	}
	r.mutex.Lock()
	defer r.mutex.Unlock()
	if r.isMissing {
		return found, &noOwner{key, ErrNoJob}
	}
	return found, &noOwner{key, err}
}

// noOwner is ErrNoOwner, and why.
type noOwner struct {
	key string
	why error
}

func (n *noOwner) Error() string        { return fmt.Sprintf("%v of %q: %v", ErrNoOwner, n.key, n.why) }
func (n *noOwner) Unwrap() error        { return n.why }
func (n *noOwner) Is(target error) bool { return target == ErrNoOwner }

// Send returns nil once an attempt at an owner of a key did. An attempt that returns
// ErrAgain is made again, with waits that grow, at an owner as known then, until the
// context ends: then the last error of an attempt is returned, or ErrNoOwner. Attempts
// that are made again at one owner are at most a tenth of all calls, and ten a second.
func (r *Router) Send(ctx context.Context, key string, attempt func(ctx context.Context, task uint64) error) error {
	failures := &backoff{least: 10 * time.Millisecond, most: 500 * time.Millisecond}
	tried := map[place]bool{}
	var failed error
	r.retries.add()
	for {
		r.mutex.Lock()
		changed := r.changed
		r.mutex.Unlock()
		if isMade, err := r.attempt(ctx, key, tried, attempt); isMade {
			if !errors.Is(err, ErrAgain) && !errors.Is(err, ErrNoOwner) {
				return err
			}
			failed = err
		}
		if pause(ctx, failures.wait(), changed) != nil {
			return failed
		}
	}
}

// place is an owner of a key in a generation.
type place struct{ generation, task uint64 }

// attempt makes an attempt at an owner, and says whether it did: not at one that was
// tried if no retry is left.
func (r *Router) attempt(
	ctx context.Context, key string, tried map[place]bool, attempt func(context.Context, uint64) error,
) (isMade bool, err error) {
	found, err := r.Owners(key)
	if err != nil {
		return true, err
	}
	task := r.pick(found.Tasks)
	defer r.done(task)
	it := place{found.Generation, task}
	if tried[it] && !r.retries.take() {
		return false, nil
	}
	tried[it] = true
	return true, attempt(ctx, task)
}

// pick picks the owner to which the fewest attempts are underway, of several at
// random.
func (r *Router) pick(tasks []uint64) uint64 {
	r.mutex.Lock()
	defer r.mutex.Unlock()
	var least []uint64
	for _, task := range tasks {
		if len(least) > 0 && r.underway[task] < r.underway[least[0]] {
			least = least[:0]
		}
		if len(least) == 0 || r.underway[task] == r.underway[least[0]] {
			least = append(least, task)
		}
	}
	picked := least[int(random()*float64(len(least)))]
	r.underway[picked]++
	return picked
}

func (r *Router) done(task uint64) {
	r.mutex.Lock()
	defer r.mutex.Unlock()
	r.underway[task]--
}

// Close frees what the router holds, after Run has returned.
func (r *Router) Close() error {
	r.control.tickets.close()
	return r.clerk.Close()
}
