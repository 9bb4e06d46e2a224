// Package service speaks to a control plane of the service in python/: [Task] is a
// server task that owns keys and answers for them only while it may, and [Router]
// is a client that finds the owner of a key.
//
// Each decision is a call of the library, by package hourstable. A task writes the
// log that `hourstable audit` judges, so tasks in Go and in Python of one job are
// audited together.
//
// An error is compared by errors.Is with the errors of this package and with the
// codes of package hourstable, such as hourstable.ErrNotOwned.
package service

import (
	"context"
	"errors"
	"fmt"
	"hash/maphash"
	"time"
)

var (
	// ErrDenied says that a task may not serve a key now. It comes with the code of
	// package hourstable, ErrMoving or ErrClockBehind.
	ErrDenied = errors.New("hourstable: denied")
	// ErrMoving says that a task is giving the key up.
	ErrMoving = errors.New("hourstable: moving")
	// ErrClockBehind says that a task has not heard the table for too long. It serves
	// nothing until it hears an answer.
	ErrClockBehind = errors.New("hourstable: clock-behind")
	// ErrLeaseLost says that a task lost the key before its answer was done, so that
	// there is no answer.
	ErrLeaseLost = errors.New("hourstable: lease lost")
	// ErrManyOwners says that the job gives no fencing tokens: a slice of it may have more
	// than one owner.
	ErrManyOwners = errors.New("hourstable: many-owners")
	// ErrNoEpoch says that the job gives no fencing tokens: the control plane that let the
	// task in is of a version up to 1.0.
	ErrNoEpoch = errors.New("hourstable: no-epoch")
	// ErrClockBroken says that a clock breaks the drift that it was given. The task
	// gave up its leases, and has ended.
	ErrClockBroken = errors.New("hourstable: a clock breaks its drift")
	// ErrUnreachable says that no control plane did a call. It may be made again.
	ErrUnreachable = errors.New("hourstable: no control plane did the call")
	// ErrNoOwner says that no owner of a key is known.
	ErrNoOwner = errors.New("hourstable: no owner is known")
	// ErrNoJob says that no control plane has the job.
	ErrNoJob = errors.New("hourstable: there is no such job: PUT /jobs/NAME with its policy creates it")
	// ErrAgain is returned by an attempt of Router.Send that may be made again, as one
	// that was denied.
	ErrAgain = errors.New("hourstable: again")
)

// Rejected is a call that a control plane will not do, however often it is made, as one
// that creates a job which has another policy.
type Rejected struct {
	Status int
	Text   string
}

func (r *Rejected) Error() string { return fmt.Sprintf("hourstable: %d %s", r.Status, r.Text) }

// Denied is the error of a key that a task may not serve: ErrDenied and the ground
// are found in it by errors.Is.
type Denied struct {
	Key    string
	Ground string // the word of the written rule, moving or clock-behind
	Cause  error
}

func (d *Denied) Error() string { return fmt.Sprintf("hourstable: %q: denied %s", d.Key, d.Ground) }

// Unwrap returns the code of the library, ErrMoving or ErrClockBehind.
func (d *Denied) Unwrap() error { return d.Cause }

// Is says that each of them is ErrDenied.
func (d *Denied) Is(target error) bool { return target == ErrDenied }

// Logger takes what a task or a router tells. *slog.Logger is one.
type Logger interface {
	Info(message string, attributes ...any)
	Warn(message string, attributes ...any)
	Error(message string, attributes ...any)
}

type silent struct{}

func (silent) Info(string, ...any)  {}
func (silent) Warn(string, ...any)  {}
func (silent) Error(string, ...any) {}

// loggerOf returns a logger whose lines have these attributes.
func loggerOf(given Logger, whose ...any) Logger {
	if given == nil {
		return silent{}
	}
	return guardedLogger{given, whose}
}

// backoff says how long to wait after failures: longer at each, and at random, so
// that many that failed at once do not try again at once.
type backoff struct{ least, most, next time.Duration }

func (b *backoff) reset() { b.next = 0 }

func (b *backoff) wait() time.Duration {
	if b.next < b.least {
		b.next = b.least
	}
	limit := b.next
	if b.next = 2 * limit; b.next > b.most {
		b.next = b.most
	}
	return time.Duration(float64(limit) * (0.5 + 0.5*random()))
}

// random returns a number from 0 up to 1. That of math/rand is the same in each process
// that is built with Go 1.19, so that all tasks would try again at once.
func random() float64 { return float64(new(maphash.Hash).Sum64()>>11) / (1 << 53) }

// pause waits, but not longer than the context lasts or until woken has something.
func pause(ctx context.Context, wait time.Duration, woken <-chan struct{}) error {
	timer := time.NewTimer(wait)
	defer timer.Stop()
	select {
	case <-ctx.Done():
		return ctx.Err()
	case <-woken:
	case <-timer.C:
	}
	return nil
}

// wake wakes who waits for a channel with room for one.
func wake(woken chan<- struct{}) {
	select {
	case woken <- struct{}{}:
	default:
	}
}
