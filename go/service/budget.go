package service

import (
	"sync"
	"time"
)

// budget is how often calls may be made again at once: for a tenth of them, so often
// more each second, and up to ten times after a quiet time. Without it each caller
// would make its calls twice, or more often, as soon as who answers is overloaded.
type budget struct {
	aSecond float64

	mutex sync.Mutex
	left  float64 // in tenths
	at    time.Time
}

const (
	mostRetries = 10 // that are saved up
	retryCosts  = 10 // calls
)

func newBudget(aSecond float64) *budget {
	return &budget{aSecond: aSecond, left: mostRetries * retryCosts, at: time.Now()}
}

// add notes a call that is made for the first time.
func (b *budget) add() {
	b.mutex.Lock()
	defer b.mutex.Unlock()
	b.save(1)
}

// take says whether a call may be made again, and counts it.
func (b *budget) take() bool {
	b.mutex.Lock()
	defer b.mutex.Unlock()
	now := time.Now()
	b.save(now.Sub(b.at).Seconds() * b.aSecond * retryCosts)
	b.at = now
	if b.left < retryCosts {
		return false
	}
	b.left -= retryCosts
	return true
}

// save saves so many tenths; the mutex is held.
func (b *budget) save(tenths float64) {
	if b.left += tenths; b.left > mostRetries*retryCosts {
		b.left = mostRetries * retryCosts
	}
}
