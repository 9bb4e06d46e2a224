package service

import (
	"context"
	"encoding/json"
	"errors"
	"fmt"
	"net/http"
	"time"

	"hourstable"
)

// act does what the slicelet says, one thing after the other.
func (t *Task) act(ctx context.Context) error {
	failures := t.failures()
	for {
		wait, err := t.step(ctx)
		woken := t.woken
		var trouble *unreached
		switch {
		case err == nil:
			failures.reset()
		case errors.As(err, &trouble):
			t.reached(err)
			if wait = t.waitOf(trouble, failures); trouble.isBusy {
				woken = nil
			}
		case errors.Is(err, ErrClockBehind):
			t.noteBehind(err)
			wait = failures.wait()
		default:
			return err
		}
		t.notice()
		if err := ctx.Err(); err != nil {
			return err
		}
		if wait > 0 {
			if err := pause(ctx, wait, woken); err != nil {
				return err
			}
		}
	}
}

// step does one thing, and returns for how long nothing is to be done.
func (t *Task) step(ctx context.Context) (time.Duration, error) {
	if err := t.hearLate(); err != nil {
		return 0, err
	}
	held := t.life()
	if held == nil {
		return t.comeIn(ctx)
	}
	left, err := held.slicelet.CallsLeft()
	if err != nil {
		return 0, err
	}
	if left < lastCalls || t.log.goesOn(held.part) {
		return 0, t.endLife(ctx)
	}
	if _, sampled := held.state(); !sampled {
		return t.ask(ctx, held)
	}
	at, err := held.read()
	if errors.Is(err, ErrClockBehind) {
		t.noteBehind(err)
		return t.ask(ctx, held)
	}
	if err != nil {
		return 0, err
	}
	t.mutex.Lock()
	t.isBehind = false
	phase := t.phase
	t.mutex.Unlock()
	if t.isSpent(held, left, phase) {
		return t.replace(ctx, held)
	}
	if phase == nil {
		return t.rest(ctx, held, at, hourstable.Guard)
	}
	return t.next(ctx, held, *phase, at)
}

// next does what the slicelet says, in a phase of the table.
func (t *Task) next(
	ctx context.Context, held *leases, phase hourstable.Phase, at uint64,
) (time.Duration, error) {
	action, err := held.slicelet.Next(phase, at)
	if err != nil {
		return 0, err
	}
	switch action {
	case hourstable.StartLife:
		return 0, held.start()
	case hourstable.AskGuard, hourstable.AskBridge:
		return t.ask(ctx, held)
	case hourstable.GiveUpGuard:
		return 0, t.giveUp(ctx, held, hourstable.Guard, false)
	case hourstable.GiveUpBridge:
		return 0, t.giveUp(ctx, held, hourstable.Bridge, false)
	}
	if phase.Proposed != 0 {
		return t.rest(ctx, held, at, hourstable.Bridge)
	}
	return t.rest(ctx, held, at, hourstable.Guard)
}

// ask asks the table for a grant, and hears it.
func (t *Task) ask(ctx context.Context, held *leases) (time.Duration, error) {
	made, err := t.askWith(ctx, held.life, func(made answer) { t.cameLate(made, held) })
	if err != nil {
		return 0, err
	}
	return t.hear(held, made)
}

// askWith asks the table for a grant of a life.
func (t *Task) askWith(ctx context.Context, life uint32, late func(answer)) (answer, error) {
	body, err := t.lives.asking(t.config.Task, life, false, t.life().most())
	if err != nil {
		return answer{}, err
	}
	return t.control.call(ctx, request{
		method: http.MethodPost, path: "/grant", body: body, late: late,
		read: func(made answer) error { return t.isGrant(made, life) },
	})
}

// cameLate lets an answer be heard that came after another one: a note closes the rows
// up to its number alone.
func (t *Task) cameLate(made answer, held *leases) {
	t.mutex.Lock()
	defer t.mutex.Unlock()
	t.late = append(t.late, lateAnswer{made, held})
	wake(t.woken)
}

// hearLate hears what came late in this life.
func (t *Task) hearLate() error {
	t.mutex.Lock()
	late, current := t.late, t.leases
	t.late = nil
	t.mutex.Unlock()
	for _, it := range late {
		if it.held != current || it.made.status == http.StatusConflict {
			continue
		}
		if _, err := t.hear(it.held, it.made); err != nil {
			return err
		}
	}
	return nil
}

// hear hears a grant, or returns for how long to wait after it was refused.
func (t *Task) hear(held *leases, made answer) (time.Duration, error) {
	t.reached(nil)
	if made.reading != nil { // an answer that repeats an earlier one has none
		if err := held.sample(made); err != nil {
			return 0, err
		}
	}
	if started, sampled := held.state(); sampled && !started {
		if err := held.start(); err != nil {
			return 0, err
		}
	}
	if made.status == http.StatusConflict {
		return t.refused(held.life, made.body)
	}
	if made.letIn().LetIn != 0 {
		return 0, nil
	}
	grant, err := grantOf(t.config.Job, made.body)
	if err != nil {
		return 0, err
	}
	isHeard, err := held.hear(made.body, grant, t.policy)
	var refused *hourstable.Refused
	switch {
	case errors.As(err, &refused):
		t.config.Logger.Info("a grant was not heard", "why", refused.Reply())
		if errors.Is(err, hourstable.ErrTooLate) && len(t.Served()) == 0 {
			return 100 * time.Millisecond, t.leaveBehind(held, grant.Ends)
		}
		return 100 * time.Millisecond, nil
	case err != nil:
		return 0, err
	case !isHeard:
		return 0, t.stopAtEvidence(held)
	}
	return 0, t.heard(held, grant)
}

// leaveBehind ends a life whose clock is so far ahead that it would hear no lease for
// long, as after a time in which the table's clock stood still. The next life has a
// clock of its own.
func (t *Task) leaveBehind(held *leases, ends uint64) error {
	at, err := held.read()
	if err != nil || at <= ends+t.policy.Guard/5 {
		return err
	}
	return t.dropLife()
}

// isGrant returns why an answer is none to a request for a grant.
func (t *Task) isGrant(made answer, life uint32) error {
	if made.status == http.StatusConflict {
		var told denial
		if err := made.object(&told); err != nil || told.Refused == "" {
			return fmt.Errorf("%.80q is no refusal", made.body)
		}
		return nil
	}
	grant, err := grantOf(t.config.Job, made.body)
	if err == nil && (grant.Task != t.config.Task || grant.Life != uint64(life)) {
		err = fmt.Errorf("the grant is of task %d in life %d", grant.Task, grant.Life)
	}
	return err
}

// denial is the body of an answer to a life that gets no lease. Where another life of the
// task is let in, Admitted says which, and After in how many seconds to ask again.
type denial struct {
	Refused  string
	Admitted uint32
	After    float64
}

// refused returns for how long to wait after a grant was refused. ErrOvertaken.
func (t *Task) refused(life uint32, body []byte) (time.Duration, error) {
	var told denial
	_ = json.Unmarshal(body, &told) // isGrant has read it
	switch told.Refused {
	case "waiting", "overtaken":
		return t.notLetIn(life, told)
	case "evicted":
		t.config.Logger.Error("an operator lets this life have no more leases; the process ends", "life", life)
		return 0, ErrOvertaken
	case "no-assignment":
		return 500 * time.Millisecond, nil
	}
	t.config.Logger.Warn("the table refused a grant", "why", told.Refused)
	return 2 * time.Second, nil
}

// heard learns the phase from a lease, since a bridge to a generation says that it is
// proposed, and sets when it is renewed: at half of it, a little earlier or later.
func (t *Task) heard(held *leases, grant hourstable.Grant) error {
	phase := hourstable.Phase{Committed: grant.Generation}
	if grant.Kind == hourstable.Bridge {
		phase = hourstable.Phase{Committed: grant.Generation - 1, Proposed: grant.Generation}
	}
	t.learnPhase(phase)
	at, err := held.read()
	if err != nil {
		return err
	}
	half := 0.0
	if at < grant.Ends {
		half = float64(grant.Ends-at) / 2
	}
	t.mutex.Lock()
	t.hasServed, t.renewed = true, time.Now()
	t.renewAt = at + uint64(half*(1+jitter*(2*random()-1)))
	t.counts.Heard[grant.Kind.String()]++
	t.mutex.Unlock()
	t.notice()
	return nil
}

// rest renews the lease of a kind if it is time, or returns how long there is nothing
// to do.
func (t *Task) rest(ctx context.Context, held *leases, at uint64, kind hourstable.Kind) (time.Duration, error) {
	grant, isHeld := held.lease(kind)
	t.mutex.Lock()
	until := t.renewAt
	t.mutex.Unlock()
	if !isHeld || at >= until {
		wait, err := t.ask(ctx, held)
		if wait == 0 && !isHeld {
			wait = 500 * time.Millisecond
		}
		return wait, err
	}
	if grant.Ends < until {
		until = grant.Ends
	}
	if until <= at {
		return time.Millisecond, nil
	}
	return time.Duration(until-at) * time.Millisecond, nil
}
