package service

import (
	"context"
	"fmt"
	"net/http"
	"time"

	"hourstable"
)

// comeIn asks to be let in with a life that has not begun, and begins it then, so that a
// process that waits for another one logs nothing, and no lease is asked for before the
// start of its life.
func (t *Task) comeIn(ctx context.Context) (time.Duration, error) {
	if t.coming == nil {
		life, err := t.drawLife(ctx)
		if err != nil {
			return 0, err
		}
		t.coming = &life
	}
	life := *t.coming
	made, epoch, err := t.letIn(ctx, life.Life)
	if err != nil {
		return 0, err
	}
	if made.status == http.StatusConflict {
		t.reached(nil)
		return t.refused(life.Life, made.body)
	}
	if now, err := t.config.now(); err != nil || now-made.sent >= t.policy.Guard/2 {
		return 0, err // it was stopped, and another life may be let in since
	}
	ended := t.endedBefore(life, made.reading)
	held, err := t.beginLife(life, ended, epoch)
	if err != nil {
		return 0, err
	}
	t.lives.heard(life.Life)
	t.freeDropped(ended)
	return t.hear(held, made)
}

// endedBefore returns the life that has ended before one that was let in at a reading. It
// is the one that was given out before, whoever drew it, or lost the answer; but the one
// that was dropped if its lease lasted: then none was let in since.
func (t *Task) endedBefore(life ownLife, at *uint64) uint32 {
	t.mutex.Lock()
	defer t.mutex.Unlock()
	ended := life.Last
	for _, it := range t.dropped {
		if it.key != "" && at != nil && *at < it.until {
			ended = it.life
		}
	}
	return ended
}

// letIn asks to be let in with a life. epoch is that of the job, 0 if a plane of a version
// up to 1.0 answered, which gives a lease instead.
func (t *Task) letIn(ctx context.Context, life uint32) (made answer, epoch uint32, err error) {
	body, err := t.lives.asking(t.config.Task, life, true, heard{})
	if err != nil {
		return answer{}, 0, err
	}
	made, err = t.control.call(ctx, request{
		method: http.MethodPost, path: "/grant", body: body, late: func(answer) {},
		read: func(made answer) error { return t.isLetIn(made, life) },
	})
	return made, made.letIn().Epoch, err
}

// letInMembers are those of the answer to a life that asks to be let in.
type letInMembers struct {
	LetIn uint32 `json:"let_in"`
	Epoch uint32
}

// letIn returns the members by which a life is let in, zero if it is not.
func (a answer) letIn() (told letInMembers) {
	if a.status != http.StatusOK || a.object(&told) != nil {
		return letInMembers{}
	}
	return told
}

// isLetIn returns why an answer is none to a life that asks to be let in.
func (t *Task) isLetIn(made answer, life uint32) error {
	told := made.letIn()
	if told.LetIn == 0 {
		return t.isGrant(made, life)
	}
	if made.reading == nil || told.LetIn != life || told.Epoch == 0 {
		return fmt.Errorf("life %d was let in otherwise: %.80q", life, made.body)
	}
	return nil
}

// drawLife draws a life that nobody else has.
func (t *Task) drawLife(ctx context.Context) (ownLife, error) {
	var told ownLife
	_, err := t.control.call(ctx, request{
		method: http.MethodPost, path: fmt.Sprintf("/tasks/%d/life", t.config.Task),
		read: func(made answer) error {
			if err := made.object(&told); err != nil {
				return err
			}
			if made.status == http.StatusConflict || told.Life <= told.Last {
				return fmt.Errorf("%.80q is no life", made.body)
			}
			return nil
		},
	})
	if err != nil {
		return told, err
	}
	t.reached(nil)
	return told, t.lives.draw(told)
}

// beginLife begins a life that is let in after one that has ended, with a clock of its own.
func (t *Task) beginLife(life ownLife, ended, epoch uint32) (*leases, error) {
	t.coming = nil
	oldest := t.config.Oldest
	if oldest == 0 {
		oldest = t.policy.Guard
	}
	clock, err := hourstable.NewTaskClock(t.config.Drift, oldest)
	if err != nil {
		return nil, err
	}
	held := &leases{
		job: t.config.Job, task: t.config.Task, life: life.Life, epoch: epoch, clock: clock, local: t.config.local,
		tickets: t.tickets, log: t.log,
	}
	if err := held.begin(ended); err != nil {
		return nil, err
	}
	t.mutex.Lock()
	defer t.mutex.Unlock()
	t.counts.Lives++
	t.leases, t.isWaiting, t.drainsItself = held, false, false
	t.publish()
	return held, nil
}

// notLetIn returns for how long to wait while another life is let in, be it one of this
// process. ErrOvertaken if it is one of a later process.
func (t *Task) notLetIn(life uint32, told denial) (time.Duration, error) {
	own, isOwn, greatest := t.lives.known(told.Admitted)
	if told.Admitted > greatest {
		t.config.Logger.Error("another process of the task is let in; this one ends", "life", told.Admitted, "own", life)
		if held := t.life(); held != nil {
			t.forget(held)
			t.notice()
		}
		return 0, ErrOvertaken
	}
	if told.Refused == "overtaken" {
		err := t.dropLife()
		if t.coming = nil; isOwn && told.Admitted != life {
			t.coming = &own
		}
		return 0, err
	}
	t.mutex.Lock()
	wasWaiting := t.isWaiting
	t.isWaiting = true
	t.mutex.Unlock()
	if !wasWaiting {
		t.config.Logger.Warn("it waits: another process of the task is let in", "life", told.Admitted)
	}
	after := time.Duration(told.After * (1 + jitter*random()) * float64(time.Second))
	if after < leastWait {
		after = leastWait
	}
	return after, nil
}

// endLife gives up all leases of the life, and ends it. A bridge lease that a task must
// keep for its tokens is freed once the next life has begun.
func (t *Task) endLife(ctx context.Context) error {
	held := t.life()
	if held == nil {
		return nil
	}
	var failed error
	for _, kind := range held.toGiveUp() {
		if _, isHeld := held.lease(kind); isHeld {
			if err := t.giveUp(ctx, held, kind, true); err != nil {
				failed = err
			}
		}
		if t.life() != held {
			return failed
		}
	}
	if bridge, isHeld := held.lease(hourstable.Bridge); isHeld {
		t.move(bridge.Ranges)
		t.leaveKeys(bridge.Ranges, bridge.Ends)
		t.drop(held)
	}
	t.notice()
	t.forget(held)
	return failed
}

// endAll ends the life, and frees what it kept by the notes of a life that has ended: the
// next one begins, and asks for no lease.
func (t *Task) endAll(ctx context.Context) error {
	if err := t.endLife(ctx); err != nil || !t.hasDropped() {
		return err
	}
	_, err := t.comeIn(ctx)
	if held := t.life(); held != nil {
		t.forget(held)
	}
	return err
}

// droppedLife is a life that has ended with a lease, its key, and until when by the
// table's clock that lasts. Its notes are sent if the log has told that it has ended: an
// audit knows them then.
type droppedLife struct {
	life   uint32
	key    string
	until  uint64
	isTold bool
}

// drop takes that a life ends whose leases are to be freed by the notes of a life that has
// ended.
func (t *Task) drop(held *leases) {
	made := droppedLife{life: held.life, key: t.lives.key(held.life), until: held.ends()}
	t.mutex.Lock()
	defer t.mutex.Unlock()
	t.dropped = append(t.dropped, made)
}

func (t *Task) hasDropped() bool {
	t.mutex.Lock()
	defer t.mutex.Unlock()
	return len(t.dropped) > 0
}

// freeDropped frees what lives may have that were dropped, once a later one is let in,
// before which the log tells that one has ended, 0 for none. The leases of a life of which
// it does not tell that end by themselves.
func (t *Task) freeDropped(ended uint32) {
	t.mutex.Lock()
	dropped := t.dropped
	t.dropped = nil
	t.mutex.Unlock()
	for _, it := range dropped {
		if !it.isTold && it.life != ended {
			continue
		}
		for _, kind := range kinds {
			if note, err := hourstable.EndedNote(t.config.Job, t.config.Task, it.life, kind); err == nil {
				t.spawnFreeWith(note, it.key)
			}
		}
	}
}

// dropLife ends a life whose slicelet may lack what was answered, or hold a lease that
// nothing else knows of. Nobody is waited for.
func (t *Task) dropLife() error {
	held := t.life()
	if held == nil {
		return nil
	}
	defer t.notice()
	defer t.forget(held)
	isFreed := false
	for _, kind := range held.toGiveUp() {
		if note, err := held.giveUp(kind); err == nil {
			t.spawnFree(note, held.life)
			isFreed = true
		}
	}
	if !isFreed || held.hasLease() {
		t.drop(held)
	}
	return nil
}

func (t *Task) forget(held *leases) {
	t.mutex.Lock()
	t.leases, t.moving = nil, nil
	t.publish()
	t.mutex.Unlock()
	held.close()
}
