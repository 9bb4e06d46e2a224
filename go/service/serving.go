package service

import (
	"context"
	"errors"
	"fmt"
	"strings"

	"hourstable"
)

// Lease is the right to a key while an answer of Serving runs.
type Lease struct {
	Key        string
	Kind       hourstable.Kind
	Generation uint64

	sliceKey  uint64
	covering  uint64 // the greatest generation of the leases that cover the key
	ticket    uint64 // of the question in the log; 0 if it is not logged
	isLogged  bool
	isAllowed bool
	handle    hourstable.Handle
	leases    *leases
	desk      *desk
	task      *Task
}

// Check returns ErrLeaseLost unless the task has held the key since the answer was
// begun, and still does. Call it just before each write that others see.
func (l *Lease) Check() error {
	if l.task.admits.Load().leases != l.leases {
		return ErrLeaseLost // another life, whose slicelet did not give the handle
	}
	err := l.leases.check(l)
	if err == nil {
		return nil
	}
	return lostBy(err)
}

// lostBy returns ErrLeaseLost where a check was refused, and any other error as it is.
func lostBy(err error) error {
	var refused *hourstable.Refused
	if errors.As(err, &refused) || errors.Is(err, ErrClockBehind) {
		return fmt.Errorf("%w: %v", ErrLeaseLost, err)
	}
	return err
}

// Token returns the fencing token that the task had when the answer was begun, which it
// sends to a store with each write of the key: the store keeps the greatest one, and
// refuses a write with a lower one. ErrManyOwners if a slice of the job may have more than
// one owner, ErrNoEpoch if the control plane that let the task in is of a version
// up to 1.0.
func (l *Lease) Token() (hourstable.Token, error) {
	switch {
	case l.task.policy.High > 1:
		return hourstable.Token{}, ErrManyOwners
	case l.leases.epoch == 0:
		return hourstable.Token{}, ErrNoEpoch
	}
	return hourstable.TokenOf(l.leases.epoch, l.covering, l.leases.life), nil
}

// Ticket returns the ticket of the question in the log, by which an audit finds the token;
// 0 if the task does not log the answer.
func (l *Lease) Ticket() uint64 { return l.ticket }

// Wrote logs a write of the key with the token, once the store has answered, so that an
// audit judges it. revision is the number that the store gave a write that it took, nil if
// it gives none: of two writes of a key the one taken later has the greater one. Nothing is
// written of an answer that the task does not log, or once the task has ended. The errors
// of Token, and ErrWrongForm if the store cannot say so.
func (l *Lease) Wrote(reply hourstable.StoreReply, revision *uint64) error {
	token, err := l.Token()
	if err != nil {
		return err
	}
	return l.leases.wrote(l, hourstable.LoggedWrite{
		SliceKey: l.sliceKey, Token: token, Reply: reply, Revision: revision,
	})
}

// Serving runs answer if the task may serve a key, and returns its error. If the
// task did not hold the key until answer returned nil, it returns ErrLeaseLost: then
// there is no answer. If the key is denied, the error is a *Denied.
func (t *Task) Serving(ctx context.Context, key string, answer func(context.Context, *Lease) error) error {
	lease, err := t.enter(ctx, key)
	if err != nil {
		return err
	}
	defer t.leave(lease)
	if err := answer(ctx, lease); err != nil {
		return err
	}
	err = lease.Check()
	if err != nil && errors.Is(err, ErrLeaseLost) {
		t.mutex.Lock()
		t.counts.LeaseLost++
		t.mutex.Unlock()
	}
	return err
}

// enter asks for a key. The lease is among the open ones from before the question on,
// so that who gives up the key either denies it or waits for its end.
func (t *Task) enter(ctx context.Context, key string) (*Lease, error) {
	lease := &Lease{
		Key: key, sliceKey: hourstable.SliceKey([]byte(key)), task: t,
		isLogged: t.config.Sample >= 1 || random() < t.config.Sample,
	}
	if err := t.admitted(ctx, lease); err != nil {
		return nil, err
	}
	err := lease.leases.enter(lease)
	if err == nil {
		lease.isAllowed = true
		return lease, nil
	}
	t.leave(lease)
	return nil, t.notAllowed(key, err)
}

// notAllowed returns the error of a question that the library did not allow.
func (t *Task) notAllowed(key string, err error) error {
	var refused *hourstable.Refused
	switch {
	case errors.Is(err, hourstable.ErrOtherPlace): // the life has just ended
		return t.denied(key, "down", hourstable.ErrDown)
	case errors.As(err, &refused):
		ground, _, _ := strings.Cut(refused.Reply(), " ")
		return t.denied(key, ground, refused)
	case errors.Is(err, ErrClockBehind):
		return t.denied(key, "clock-behind", err)
	}
	return err
}

// admission is what decides whether a question is asked at all.
type admission struct {
	leases   *leases
	moving   []hourstable.Range
	replaced chan struct{}
}

// publish lets questions see the leases and the moving keys; the mutex is held.
func (t *Task) publish() { t.admits.Store(&admission{t.leases, t.moving, t.replaced}) }

// admitted admits a question, once a slicelet that is replaced just now is replaced.
func (t *Task) admitted(ctx context.Context, lease *Lease) error {
	for {
		replaced, err := t.admit(lease)
		if replaced == nil {
			return err
		}
		select {
		case <-replaced:
		case <-ctx.Done():
			return ctx.Err()
		}
	}
}

// admit counts a question, and puts its lease among the open ones unless its key is
// given up: who gives up a key publishes it before it looks at the desks.
func (t *Task) admit(lease *Lease) (replaced chan struct{}, err error) {
	desk := t.desks.take()
	defer t.desks.free.Put(desk)
	desk.mutex.Lock()
	defer desk.mutex.Unlock()
	admits := t.admits.Load()
	if admits.replaced != nil {
		return admits.replaced, nil
	}
	desk.requests++
	if holds(admits.moving, lease.sliceKey) {
		return nil, t.denied(lease.Key, "moving", ErrMoving)
	}
	if admits.leases == nil {
		return nil, t.denied(lease.Key, "down", hourstable.ErrDown)
	}
	lease.leases, lease.desk = admits.leases, desk
	desk.open[lease] = struct{}{}
	return nil, nil
}

// denied counts a denial.
func (t *Task) denied(key, ground string, cause error) error {
	t.mutex.Lock()
	defer t.mutex.Unlock()
	t.counts.Denied[ground]++
	return &Denied{key, ground, cause}
}

func (t *Task) leave(lease *Lease) {
	lease.desk.end(lease)
	wake(t.left)
}
