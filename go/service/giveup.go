package service

import (
	"context"
	"errors"
	"net/http"
	"time"

	"hourstable"
)

// giveUp gives up the lease of a kind, and frees it at the table. Before that, what
// the task loses by it is told, and answers that run on these keys end. A life none of
// whose leases lasts then, as after the process stood still, is dropped.
func (t *Task) giveUp(ctx context.Context, held *leases, kind hourstable.Kind, isLast bool) error {
	note, err := t.release(held, kind, isLast)
	if errors.Is(err, errAllEnded) {
		t.drop(held)
		t.forget(held)
		t.notice()
		return nil
	}
	if err != nil {
		return err
	}
	if isLast {
		return t.free(ctx, note, held.life)
	}
	t.spawnFree(note, held.life)
	return nil
}

func (t *Task) release(held *leases, kind hourstable.Kind, isLast bool) (note []byte, err error) {
	grant, _ := held.lease(kind)
	lost := held.lostWithout(kind, isLast)
	t.move(lost)
	defer t.moved(lost)
	if len(lost) > 0 {
		t.leaveKeys(lost, grant.Ends)
	}
	return held.giveUp(kind)
}

func (t *Task) move(lost []hourstable.Range) {
	t.mutex.Lock()
	defer t.mutex.Unlock()
	t.moving = lost
	t.publish()
}

func (t *Task) moved(lost []hourstable.Range) {
	t.mutex.Lock()
	defer t.mutex.Unlock()
	t.served, t.moving = minus(t.served, lost), nil
	t.publish()
}

// leaveKeys tells that keys are given up, and waits until no answer runs on them,
// each for the patience of the task.
func (t *Task) leaveKeys(lost []hourstable.Range, ends uint64) {
	t.tellLost(lost, ends)
	within, cancel := context.WithTimeout(t.lasting, t.config.Patience)
	defer cancel()
	for t.isOpen(lost) {
		if err := pause(within, t.config.Patience, t.left); err != nil {
			t.config.Logger.Info("keys are given up on which an answer runs")
			return
		}
	}
}

// tellLost tells the application of a loss, and waits for it as long as the patience of
// the task is.
func (t *Task) tellLost(lost []hourstable.Range, ends uint64) {
	if t.config.OnLose == nil {
		return
	}
	within, cancel := context.WithTimeout(t.lasting, t.config.Patience)
	told := make(chan struct{})
	go func() {
		defer close(told)
		defer cancel()
		t.supervisor.run("on-lose", func() error {
			t.config.OnLose(within, lost, ends)
			return nil
		})
	}()
	select {
	case <-told:
	case <-within.Done():
		t.config.Logger.Warn("OnLose runs longer than the patience of its task")
	}
}

func (t *Task) tellGained(gained []hourstable.Range) {
	t.supervisor.run("on-gain", func() error {
		t.config.OnGain(gained)
		return nil
	})
}

func (t *Task) isOpen(lost []hourstable.Range) (isOpen bool) {
	t.desks.each(func(it *desk) {
		for lease := range it.open {
			isOpen = isOpen || holds(lost, lease.sliceKey)
		}
	})
	return isOpen
}

// free brings a note to the table, as long as it may be of use.
func (t *Task) free(ctx context.Context, note []byte, life uint32) error {
	return t.freeWith(ctx, note, t.lives.key(life))
}

func (t *Task) freeWith(ctx context.Context, note []byte, key string) error {
	within, cancel := context.WithTimeout(ctx, time.Duration(t.policy.Guard)*time.Millisecond)
	defer cancel()
	failures := t.failures()
	for {
		_, err := t.control.call(within, request{
			method: http.MethodPost, path: "/free", body: note, key: key,
			read: func(made answer) error { return made.object(&struct{}{}) },
		})
		if err == nil {
			return nil
		}
		if err := t.waitAfter(within, err, failures); err != nil {
			return err
		}
	}
}

// spawnFree frees a lease while the task goes on.
func (t *Task) spawnFree(note []byte, life uint32) { t.spawnFreeWith(note, t.lives.key(life)) }

func (t *Task) spawnFreeWith(note []byte, key string) {
	t.supervisor.spawn("free", func() error {
		err := t.freeWith(t.lasting, note, key)
		if errors.Is(err, context.DeadlineExceeded) || errors.Is(err, context.Canceled) {
			t.config.Logger.Warn("a lease was not freed: it ends by itself")
			return nil
		}
		return err
	})
}

// stopAtEvidence ends the task, since a grant shows that a clock breaks its drift. The
// leases are released first, at the reading that shows it, so that the log has it.
func (t *Task) stopAtEvidence(held *leases) error {
	t.countBehind()
	for _, kind := range kinds {
		if note, err := held.release(kind); err == nil {
			t.spawnFree(note, held.life)
		}
	}
	t.notice()
	t.config.Logger.Error("a grant shows that a clock breaks its drift; the task ends")
	return ErrClockBroken
}
