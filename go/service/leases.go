package service

import (
	"errors"
	"fmt"
	"sync"

	"hourstable"
)

var kinds = []hourstable.Kind{hourstable.Guard, hourstable.Bridge}

// leases are those of a task in one life: its slicelet and its clock, each call of
// which is logged. A call draws its ticket, then reads the clock, asks the library and
// writes its line. Calls that change the slicelet run alone, so that tickets, readings
// and calls are in one order; those that ask for a key run side by side.
type leases struct {
	job      string
	task     uint64
	life     uint32
	epoch    uint32 // of the job; 0 if it is not known
	slicelet *hourstable.Slicelet
	clock    *hourstable.TaskClock
	local    func() (uint64, error) // nil for LocalTicks, which a call of a block reads by itself
	tickets  *tickets
	log      *callLog // nil for none
	part     uint64   // of the log; 0 if it was stopped when the life began

	mutex            sync.RWMutex
	started, sampled bool
	held             map[hourstable.Kind]hourstable.Grant
	greatest         heard
}

// heard is the greatest number of a grant that a life heard, and the greatest
// generation. Planes notice by it that their store went back.
type heard struct {
	Number     uint64 `json:"number"`
	Generation uint64 `json:"generation"`
}

func (h *heard) take(grant hourstable.Grant) {
	if grant.Number > h.Number {
		h.Number = grant.Number
	}
	if grant.Generation > h.Generation {
		h.Generation = grant.Generation
	}
}

// begin begins a life: last is the one before it.
func (l *leases) begin(last uint32) error {
	slicelet, err := hourstable.ResumeSlicelet(l.job, l.task, last)
	if err != nil {
		return err
	}
	l.slicelet, l.held = slicelet, map[hourstable.Kind]hourstable.Grant{}
	l.part = l.log.open()
	ticket, err := l.ticket(true)
	if err != nil {
		return err
	}
	return l.write(hourstable.LoggedCall{Ticket: ticket, Call: hourstable.CallOpen, Life: last}, nil)
}

// close destroys the slicelet. Nothing is released.
func (l *leases) close() {
	l.mutex.Lock()
	defer l.mutex.Unlock()
	l.slicelet.Close()
}

// localNow returns the local reading.
func (l *leases) localNow() (uint64, error) {
	if l.local == nil {
		return hourstable.LocalTicks()
	}
	return l.local()
}

// read returns the task's reading now. ErrClockBehind.
func (l *leases) read() (uint64, error) {
	at, err := l.clock.ReadNow(l.local)
	var refused *hourstable.Refused
	if errors.As(err, &refused) {
		return 0, fmt.Errorf("%w: %s", ErrClockBehind, refused.Reply())
	}
	return at, err
}

// sample takes an answer of the table to a request, and logs it.
func (l *leases) sample(made answer) error {
	l.mutex.Lock()
	defer l.mutex.Unlock()
	now, err := l.localNow()
	if err != nil {
		return err
	}
	if err := l.clock.Sample(made.sent, *made.reading, now); err != nil {
		return err
	}
	l.sampled = true
	ticket, err := l.ticket(true)
	if err != nil {
		return err
	}
	return l.write(hourstable.LoggedCall{
		Ticket: ticket, Call: hourstable.CallSample, Sent: made.sent, Reading: *made.reading, At: now,
	}, nil)
}

// ticket draws the ticket of a call that is logged; it is 0 if none is.
func (l *leases) ticket(isLogged bool) (uint64, error) {
	if !isLogged || l.log == nil {
		return 0, nil
	}
	return l.tickets.draw()
}

// write writes the line of a call of this task.
func (l *leases) write(call hourstable.LoggedCall, message []byte) error {
	if l.log == nil {
		return nil
	}
	call.Task = l.task
	line, err := hourstable.LogLine(l.job, call, message)
	if err != nil {
		return err
	}
	l.append(line)
	return nil
}

// append writes a line of the library, which has its line feed; none for an empty one.
func (l *leases) append(line []byte) {
	if len(line) > 0 {
		l.log.append(l.part, line[:len(line)-1])
	}
}

// call makes a call that changes the slicelet at the reading of now, and logs it with the
// message that it made, if the slicelet was asked.
func (l *leases) call(call hourstable.LoggedCall, ask func(at uint64) ([]byte, error)) error {
	l.mutex.Lock()
	defer l.mutex.Unlock()
	var err error
	if call.Ticket, err = l.ticket(true); err != nil {
		return err
	}
	if call.At, err = l.read(); err != nil {
		return err
	}
	made, err := ask(call.At)
	if err != nil && !isRefused(err) {
		return err
	}
	call.Err = err
	if failed := l.write(call, made); failed != nil {
		return failed
	}
	return err
}

// isRefused says whether a slicelet or a clock was asked and refused a call.
func isRefused(err error) bool {
	var refused *hourstable.Refused
	return errors.As(err, &refused) && refused.Code > 0
}

func (l *leases) start() error {
	call := hourstable.LoggedCall{Call: hourstable.CallStart, Life: l.life}
	return l.call(call, func(at uint64) ([]byte, error) {
		err := l.slicelet.Start(l.life, at)
		l.started = l.started || err == nil
		return nil, err
	})
}

// hear hears a grant, given as its message and as what it says, unless it shows that
// clocks are not timely: then it returns false.
func (l *leases) hear(message []byte, grant hourstable.Grant, policy hourstable.Policy) (bool, error) {
	l.mutex.Lock()
	defer l.mutex.Unlock()
	ticket, err := l.ticket(true)
	if err != nil {
		return false, err
	}
	receipt := hourstable.Receipt{Ticket: ticket}
	if l.log != nil {
		receipt.Line = make([]byte, 0, hourstable.LineRoom+len(message))
	}
	err = l.slicelet.Receive(l.clock, l.local, policy, message, &receipt)
	l.append(receipt.Line)
	if err != nil {
		return false, l.behind(err, receipt.Called)
	}
	if !receipt.Evidence {
		l.held[grant.Kind] = grant
		l.greatest.take(grant)
	}
	return !receipt.Evidence, nil
}

// most returns the greatest that the life heard.
func (l *leases) most() heard {
	if l == nil {
		return heard{}
	}
	l.mutex.RLock()
	defer l.mutex.RUnlock()
	return l.greatest
}

// behind returns the error of a call: ErrClockBehind if the clock refused, so that the
// call was not made.
func (l *leases) behind(err error, isCalled bool) error {
	var refused *hourstable.Refused
	if !isCalled && errors.As(err, &refused) && refused.Code > 0 {
		return fmt.Errorf("%w: %s", ErrClockBehind, refused.Reply())
	}
	return err
}

// errAllEnded is returned where no lease of a life lasts, so that another process of the
// task may have been let in, which logs its own calls.
var errAllEnded = errors.New("no lease lasts")

// giveUp gives up the lease of a kind, and returns the message of its note. errAllEnded:
// then no call is made, and none is logged.
func (l *leases) giveUp(kind hourstable.Kind) ([]byte, error) {
	return l.releaseIf(kind, func(at uint64) bool { return at < l.lastEnd() })
}

// release gives up the lease of a kind, also once no lease lasts, and returns the message
// of its note.
func (l *leases) release(kind hourstable.Kind) ([]byte, error) {
	return l.releaseIf(kind, func(uint64) bool { return true })
}

func (l *leases) releaseIf(kind hourstable.Kind, lasts func(at uint64) bool) (note []byte, err error) {
	call := hourstable.LoggedCall{Call: hourstable.CallRelease, Kind: kind}
	err = l.call(call, func(at uint64) ([]byte, error) {
		if !lasts(at) {
			return nil, errAllEnded
		}
		if note, err = l.slicelet.Release(kind, at); err != nil {
			return nil, err
		}
		delete(l.held, kind)
		return note, nil
	})
	return note, err
}

// blocks are those of calls that are logged, and unlogged those of calls that are not. They
// are used again, with the room for their lines.
var (
	blocks   = sync.Pool{New: func() any { return &hourstable.Block{Line: make([]byte, 0, hourstable.LineRoom)} }}
	unlogged = sync.Pool{New: func() any { return &hourstable.Block{} }}
)

// enter asks whether the task may serve the slice key of a lease, and takes a handle on
// it.
func (l *leases) enter(lease *Lease) error {
	return l.ask(lease, func(block *hourstable.Block) error {
		err := l.slicelet.EnterAt(l.clock, l.local, lease.sliceKey, block)
		lease.Kind, lease.Generation, lease.handle = block.Lease.Kind, block.Lease.Generation, block.Handle
		lease.covering = block.Lease.Covering
		lease.ticket = block.Ticket
		return err
	})
}

// check returns nil if the task has held the key of a lease without a break.
func (l *leases) check(lease *Lease) error {
	return l.ask(lease, func(block *hourstable.Block) error {
		block.Handle = lease.handle
		return l.slicelet.Leave(l.clock, l.local, block)
	})
}

// wrote writes the line of a write with the token of a lease, if its question was logged: an
// audit knows no other token. It is no call of the slicelet, so it may come once the life
// has ended.
func (l *leases) wrote(lease *Lease, write hourstable.LoggedWrite) (err error) {
	if write.Ticket, err = l.ticket(lease.ticket != 0); err != nil {
		return err
	}
	line, err := hourstable.LogWrite(write)
	if err == nil && write.Ticket != 0 {
		l.append(line)
	}
	return err
}

// ask makes a call of a block, beside others, and writes its line.
func (l *leases) ask(lease *Lease, call func(*hourstable.Block) error) error {
	pool := &unlogged
	if lease.isLogged && l.log != nil {
		pool = &blocks
	}
	block := pool.Get().(*hourstable.Block)
	defer pool.Put(block)
	err := l.askOnce(block, lease.isLogged, call)
	if err == nil || l.mayLog() {
		l.append(block.Line)
	}
	return err
}

// mayLog says whether a lease has not ended. Else another process of the task may have
// been let in, which logs its own calls.
func (l *leases) mayLog() bool {
	at, err := l.read()
	return err == nil && len(l.live(at)) > 0
}

func (l *leases) askOnce(block *hourstable.Block, isLogged bool, call func(*hourstable.Block) error) (err error) {
	l.mutex.RLock()
	defer l.mutex.RUnlock()
	block.Called, block.Line = false, block.Line[:0]
	if block.Ticket, err = l.ticket(isLogged); err != nil {
		return err
	}
	if err = call(block); err != nil {
		return l.behind(err, block.Called)
	}
	return nil
}

// lease returns the lease of a kind that is held.
func (l *leases) lease(kind hourstable.Kind) (hourstable.Grant, bool) {
	l.mutex.RLock()
	defer l.mutex.RUnlock()
	grant, isHeld := l.held[kind]
	return grant, isHeld
}

// mayGiveUpBridge says whether a bridge lease may be given up, so that no token falls: while
// a guard lease of its generation or a later one is held.
func (l *leases) mayGiveUpBridge() bool {
	l.mutex.RLock()
	defer l.mutex.RUnlock()
	guard, hasGuard := l.held[hourstable.Guard]
	bridge, hasBridge := l.held[hourstable.Bridge]
	return !hasBridge || hasGuard && bridge.Generation <= guard.Generation
}

// toGiveUp returns the kinds of leases in the order in which a life that ends gives them up.
func (l *leases) toGiveUp() []hourstable.Kind {
	if l.mayGiveUpBridge() {
		return []hourstable.Kind{hourstable.Bridge, hourstable.Guard}
	}
	return []hourstable.Kind{hourstable.Guard}
}

func (l *leases) hasLease() bool {
	l.mutex.RLock()
	defer l.mutex.RUnlock()
	return len(l.held) > 0
}

// ends returns until when a lease is held.
func (l *leases) ends() uint64 {
	l.mutex.RLock()
	defer l.mutex.RUnlock()
	return l.lastEnd()
}

// lastEnd is ends for who has the mutex.
func (l *leases) lastEnd() (last uint64) {
	for _, grant := range l.held {
		if grant.Ends > last {
			last = grant.Ends
		}
	}
	return last
}

// live returns the slice keys of the leases that have not ended at a reading.
func (l *leases) live(at uint64) []hourstable.Range {
	l.mutex.RLock()
	defer l.mutex.RUnlock()
	var made []hourstable.Range
	for _, grant := range l.held {
		if at < grant.Ends {
			made = union(made, grant.Ranges)
		}
	}
	return made
}

// lostWithout returns the slice keys of the lease of a kind that no other held lease
// has; of the last leases of a life, all of its keys.
func (l *leases) lostWithout(kind hourstable.Kind, isLast bool) []hourstable.Range {
	l.mutex.RLock()
	defer l.mutex.RUnlock()
	lost := l.held[kind].Ranges
	for other, grant := range l.held {
		if other != kind && !isLast {
			lost = minus(lost, grant.Ranges)
		}
	}
	return lost
}

func (l *leases) state() (started, sampled bool) {
	l.mutex.RLock()
	defer l.mutex.RUnlock()
	return l.started, l.sampled
}
