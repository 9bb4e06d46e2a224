package service

import (
	"context"
	"errors"
	"fmt"
	"net/http"
	"time"

	"hourstable"
)

// watch follows the phase of the table.
func (t *Task) watch(ctx context.Context) error {
	failures := t.failures()
	for {
		err := t.look(ctx)
		if err == nil {
			failures.reset()
		} else if err := t.waitAfter(ctx, err, failures); err != nil {
			return err
		}
	}
}

// look learns the phase of the table, as soon as it is another than the known one.
func (t *Task) look(ctx context.Context) error {
	t.mutex.Lock()
	known := t.phase
	t.mutex.Unlock()
	asked := request{method: http.MethodGet, path: "/phase"}
	if known != nil {
		asked.path += fmt.Sprintf("?committed=%d&pending=%d", known.Committed, known.Proposed)
		asked.timeout = t.control.timeout + longestWait
	}
	var phase hourstable.Phase
	asked.read = func(made answer) error {
		var told struct{ Committed, Pending *uint64 } // no pending generation is null
		if err := made.object(&told); err != nil {
			return err
		}
		if told.Committed == nil {
			return errors.New("the answer has no phase")
		}
		phase.Committed = *told.Committed
		if told.Pending != nil {
			phase.Proposed = *told.Pending
		}
		return nil
	}
	if _, err := t.control.call(ctx, asked); err != nil {
		return err
	}
	if !t.learnPhase(phase) && known != nil {
		return pause(ctx, 200*time.Millisecond, nil) // a plane that stands by is behind
	}
	return nil
}

// learnPhase keeps a phase that comes after the known one, and says whether it did.
func (t *Task) learnPhase(phase hourstable.Phase) bool {
	t.mutex.Lock()
	defer t.mutex.Unlock()
	if known := t.phase; known != nil && (phase.Committed < known.Committed ||
		phase.Committed == known.Committed && phase.Proposed <= known.Proposed) {
		return false
	}
	t.phase = &phase
	wake(t.woken)
	return true
}
