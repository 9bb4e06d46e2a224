package service

import (
	"context"
	"errors"
	"fmt"
	"runtime/debug"
	"sync"
	"time"
)

// supervisor watches the goroutines of a task or a router. What they are not written
// for, a panic or an error that is not expected, is logged and counted, and a loop
// begins again.
type supervisor struct {
	logger  Logger
	running sync.WaitGroup // what spawn started

	mutex  sync.Mutex
	failed map[string]uint64 // by where
}

func newSupervisor(logger Logger) *supervisor {
	return &supervisor{logger: logger, failed: map[string]uint64{}}
}

// panicked is the error of work that panics.
type panicked struct {
	why   any
	stack []byte
}

func (p *panicked) Error() string { return fmt.Sprintf("panic: %v", p.why) }

// cannotMend says whether an error comes back however often a loop begins again.
func cannotMend(err error) bool {
	var rejected *Rejected
	return errors.Is(err, ErrClockBroken) || errors.Is(err, ErrNoJob) || errors.Is(err, errOtherJob) ||
		errors.Is(err, ErrOvertaken) || errors.As(err, &rejected)
}

// loop runs work until it returns nil, its context ends or it fails for good, and returns
// why. After any other failure, mend is called, and the work begins again after a wait.
func (s *supervisor) loop(
	ctx context.Context, where string, failures *backoff, work func(context.Context) error, mend func() error,
) error {
	for {
		begun := time.Now()
		err := s.guarded(func() error { return work(ctx) })
		if ctx.Err() != nil {
			return ctx.Err()
		}
		if err == nil || cannotMend(err) {
			return err
		}
		s.note(where, err)
		if mend != nil {
			s.run(where, mend)
		}
		if time.Since(begun) > time.Minute {
			failures.reset()
		}
		if err := pause(ctx, failures.wait(), nil); err != nil {
			return err
		}
	}
}

// spawn runs work once, beside the loops.
func (s *supervisor) spawn(where string, work func() error) {
	s.running.Add(1)
	go func() {
		defer s.running.Done()
		s.run(where, work)
	}()
}

// run runs work once; if it fails, that is logged and counted.
func (s *supervisor) run(where string, work func() error) {
	if err := s.guarded(work); err != nil {
		s.note(where, err)
	}
}

// wait waits until what spawn started has ended, or the context has.
func (s *supervisor) wait(ctx context.Context) {
	ended := make(chan struct{})
	go func() {
		defer close(ended)
		s.running.Wait()
	}()
	select {
	case <-ended:
	case <-ctx.Done():
	}
}

// guarded returns the error of work, which may panic.
func (s *supervisor) guarded(work func() error) (err error) {
	defer func() {
		if why := recover(); why != nil {
			err = &panicked{why, debug.Stack()}
		}
	}()
	return work()
}

// note logs and counts what was not expected.
func (s *supervisor) note(where string, err error) {
	s.mutex.Lock()
	s.failed[where]++
	s.mutex.Unlock()
	var it *panicked
	if errors.As(err, &it) {
		s.logger.Error("it goes on after an internal error", "where", where, "error", err, "stack", string(it.stack))
		return
	}
	s.logger.Error("it goes on after an internal error", "where", where, "error", err)
}

// counts returns how often what failed.
func (s *supervisor) counts() map[string]uint64 {
	s.mutex.Lock()
	defer s.mutex.Unlock()
	return copied(s.failed)
}

// guardedLogger keeps a panic of a logger from whoever logs, and tells in each line of
// whom it is.
type guardedLogger struct {
	given Logger
	whose []any
}

func (g guardedLogger) Info(message string, attributes ...any) {
	defer func() { _ = recover() }()
	g.given.Info(message, g.all(attributes)...)
}

func (g guardedLogger) Warn(message string, attributes ...any) {
	defer func() { _ = recover() }()
	g.given.Warn(message, g.all(attributes)...)
}

func (g guardedLogger) Error(message string, attributes ...any) {
	defer func() { _ = recover() }()
	g.given.Error(message, g.all(attributes)...)
}

func (g guardedLogger) all(attributes []any) []any {
	return append(append([]any{}, g.whose...), attributes...)
}
