package service

import (
	"context"
	"encoding/json"
	"errors"
	"fmt"
	"net/http"
	"sort"
	"time"

	"hourstable"
)

// notice notices which keys the task may serve, and tells of gains and losses.
func (t *Task) notice() {
	held := t.life()
	var live []hourstable.Range
	if held != nil {
		if at, err := held.read(); err == nil {
			live = held.live(at)
		}
	}
	t.mutex.Lock()
	gained, lost := minus(live, t.served), minus(t.served, live)
	t.served = live
	t.mutex.Unlock()
	if len(lost) > 0 && t.config.OnLose != nil {
		go t.tellLost(lost, 0)
	}
	if len(gained) > 0 && t.config.OnGain != nil {
		go t.tellGained(gained)
	}
}

// report reports how many requests each part of the keys had, and why keys were
// denied.
func (t *Task) report(ctx context.Context) error {
	failures := t.failures()
	for {
		if err := pause(ctx, t.config.Report, nil); err != nil {
			return err
		}
		if t.life() == nil { // one that waits acts for no life
			continue
		}
		body, err := json.Marshal(t.told())
		if err != nil {
			return err
		}
		_, err = t.control.call(ctx, request{method: http.MethodPost, path: "/loads", body: body})
		if err == nil {
			err = t.askIfDrained(ctx)
		}
		if err == nil {
			failures.reset()
		} else if err := t.waitAfter(ctx, err, failures); err != nil {
			return err
		}
	}
}

// askIfDrained asks whether an operator drains the task, as long as it has no keys.
func (t *Task) askIfDrained(ctx context.Context) error {
	t.mutex.Lock()
	mayBe := t.hasServed && len(t.served) == 0 && t.cutOff.IsZero()
	t.mutex.Unlock()
	if !mayBe {
		t.drained(false)
		return nil
	}
	var told struct{ Draining []uint64 }
	_, err := t.control.call(ctx, request{method: http.MethodGet, read: func(made answer) error {
		return made.object(&told)
	}})
	if err != nil {
		return err
	}
	isDrained := false
	for _, task := range told.Draining {
		isDrained = isDrained || task == t.config.Task
	}
	t.drained(isDrained)
	return nil
}

func (t *Task) drained(isDrained bool) {
	t.mutex.Lock()
	defer t.mutex.Unlock()
	t.isDrained = isDrained
}

// told returns what a report says, and begins to count loads anew.
func (t *Task) told() map[string]any {
	counted := t.desks.takeLoads()
	t.mutex.Lock()
	defer t.mutex.Unlock()
	parts := make([]uint64, 0, len(counted))
	for part := range counted {
		parts = append(parts, part)
	}
	sort.Slice(parts, func(one, other int) bool { return parts[one] < parts[other] })
	width := keys >> loadBits
	loads := make([][3]any, 0, len(parts))
	for _, part := range parts {
		first, end := fmt.Sprint(part*width), fmt.Sprint((part+1)*width)
		loads = append(loads, [3]any{first, end, counted[part]})
	}
	made := map[string]any{
		"task": t.config.Task, "loads": loads, "denied": t.counts.Denied, "clock_behind": t.counts.ClockBehind,
	}
	made["denied"] = copied(t.counts.Denied)
	if t.leases != nil {
		if key := t.lives.key(t.leases.life); key != "" {
			made["life"], made["key"] = t.leases.life, key
		}
		if left, err := t.leases.slicelet.CallsLeft(); err == nil {
			made["calls_left"] = left
		}
	}
	return made
}

func (t *Task) noteBehind(why error) {
	held := t.life()
	if held == nil {
		return
	}
	_, sampled := held.state()
	t.mutex.Lock()
	isNew := sampled && !t.isBehind
	t.isBehind = t.isBehind || isNew
	t.mutex.Unlock()
	if isNew {
		t.countBehind()
		t.config.Logger.Warn("a task serves nothing", "why", why)
	}
}

func (t *Task) countBehind() {
	t.mutex.Lock()
	defer t.mutex.Unlock()
	t.counts.ClockBehind++
}

func (t *Task) countUnreachable() {
	t.mutex.Lock()
	t.counts.Unreachable++
	t.mutex.Unlock()
}

// waitAfter waits after a call that no plane did. It returns the error if it is not one
// of planes, or that of the context.
func (t *Task) waitAfter(ctx context.Context, err error, failures *backoff) error {
	var trouble *unreached
	if !errors.As(err, &trouble) {
		return err
	}
	return pause(ctx, t.waitOf(trouble, failures), nil)
}

// waitOf counts a call that no plane did, and returns how long to wait before the next:
// while a lease is held at most a twentieth of the guard term.
func (t *Task) waitOf(trouble *unreached, failures *backoff) time.Duration {
	t.countUnreachable()
	limit := time.Duration(0)
	if held := t.life(); held != nil && held.hasLease() {
		limit = t.guardFifth() / 4
	}
	return trouble.wait(failures, limit)
}

func (t *Task) failures() *backoff {
	return &backoff{least: 50 * time.Millisecond, most: t.control.timeout}
}
