package service

import (
	"context"
	"fmt"
	"net/http"
	"time"

	"hourstable"
)

// replacedAt are the calls left of a slicelet below which it is replaced, once a renewal
// was answered; a slicelet accepts 65,536.
var replacedAt uint64 = 1024

const (
	just       = uint64(1000) // ticks in which a plane must have answered before a slicelet is replaced
	drainedFor = 50 * time.Millisecond
)

// isSpent says whether the slicelet is replaced now: few of its calls are left, a plane
// has just answered, and no key moves. The key of its life shows that the next one is of
// the same process.
func (t *Task) isSpent(held *leases, left uint64, phase *hourstable.Phase) bool {
	_, isGuarded := held.lease(hourstable.Guard)
	_, isBridged := held.lease(hourstable.Bridge)
	isStill := phase != nil && phase.Proposed == 0 && isGuarded && !isBridged
	if left >= replacedAt || !isStill || t.lives.key(held.life) == "" {
		return false
	}
	t.mutex.Lock()
	defer t.mutex.Unlock()
	return !t.leaves() && time.Since(t.renewed) < time.Duration(just)*time.Millisecond
}

// replace begins another life in place of one whose slicelet accepts few more calls, and
// denies no key for it: new answers wait until those that run have ended, and then for
// one answer of the table.
func (t *Task) replace(ctx context.Context, old *leases) (time.Duration, error) {
	life, err := t.drawLife(ctx)
	if err != nil {
		return 0, err
	}
	made, epoch, err := t.letIn(ctx, life.Life)
	if err != nil {
		return 0, err
	}
	defer t.keepWaiting()()
	grant, _ := old.lease(hourstable.Guard)
	t.waitForAnswers(grant.Ranges)
	if now, err := t.config.now(); err != nil || now-made.sent >= atMost(just, t.policy.Guard/2) {
		// else it would start a life that nobody may answer
		if made, epoch, err = t.letIn(ctx, life.Life); err != nil {
			return 0, err
		}
	}
	if made.status == http.StatusConflict {
		return leastWait, nil
	}
	held, err := t.startAfter(old, life, epoch)
	if err != nil {
		return 0, err
	}
	if made.letIn().LetIn != 0 {
		made, err = t.askWith(ctx, life.Life, func(made answer) { t.cameLate(made, held) })
		if err != nil {
			return 0, err
		}
	}
	t.lives.heard(life.Life)
	t.freeDropped(0)
	return t.hear(held, made)
}

func atMost(one, other uint64) uint64 {
	if one < other {
		return one
	}
	return other
}

// keepWaiting lets new answers wait until what it returns is called.
func (t *Task) keepWaiting() func() {
	replaced := make(chan struct{})
	set := func(to chan struct{}) {
		t.mutex.Lock()
		defer t.mutex.Unlock()
		t.replaced = to
		t.publish()
	}
	set(replaced)
	return func() {
		set(nil)
		close(replaced)
	}
}

// waitForAnswers waits until no answer runs on keys, for the patience of the task.
func (t *Task) waitForAnswers(keys []hourstable.Range) {
	within, cancel := context.WithTimeout(t.lasting, t.config.Patience)
	defer cancel()
	for t.isOpen(keys) {
		if err := pause(within, t.config.Patience, t.left); err != nil {
			return
		}
	}
}

// startAfter begins and starts a life in place of another one, whose slicelet is not
// asked again. Its clock goes on. No life in between was let in, so none was started: the
// notes of the old one are those of the last.
func (t *Task) startAfter(old *leases, life ownLife, epoch uint32) (*leases, error) {
	held := &leases{
		job: old.job, task: old.task, life: life.Life, epoch: epoch, clock: old.clock, local: old.local,
		tickets: t.tickets, log: t.log, sampled: true,
	}
	if err := held.begin(old.life); err != nil {
		return nil, err
	}
	t.mutex.Lock()
	t.counts.Lives++
	t.leases = held
	t.dropped = append(t.dropped, droppedLife{life: old.life, key: t.lives.key(old.life), isTold: true})
	t.publish()
	t.mutex.Unlock()
	old.close()
	return held, held.start()
}

// Drain lets the assigner give the keys of this task to others, and returns when it has
// none: then the end of Run denies nobody. Another life of the task takes keys again. The
// error is that of the context, if the task then still has keys.
func (t *Task) Drain(ctx context.Context) error {
	body := []byte(fmt.Sprintf(`{"task":%d}`, t.config.Task))
	failures := t.failures()
	for {
		_, err := t.control.call(ctx, request{method: http.MethodPost, path: "/drain", body: body})
		if err == nil {
			break
		}
		if err := t.waitAfter(ctx, err, failures); err != nil {
			return err
		}
	}
	t.mutex.Lock()
	t.drainsItself = true
	t.mutex.Unlock()
	for t.hasKeys() {
		if err := pause(ctx, drainedFor, nil); err != nil {
			return err
		}
	}
	return nil
}

func (t *Task) hasKeys() bool {
	held := t.life()
	if held == nil {
		return false
	}
	for _, kind := range kinds {
		if grant, isHeld := held.lease(kind); isHeld && len(grant.Ranges) > 0 {
			return true
		}
	}
	return false
}
