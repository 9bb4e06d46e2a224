package service

import (
	"strings"
	"sync"
	"time"
)

// planes says which of several control planes is asked. A caller asks one until that
// fails. It moves on only from the plane that failed, so that calls that fail together
// do not come back to it; and not to a plane that was silent a moment ago, as long as
// another one answers, be it that it cannot do the call yet.
type planes struct {
	mutex   sync.Mutex
	urls    []string
	first   int                  // that is asked first
	silent  map[string]time.Time // planes that gave no answer, and when
	silence map[string]time.Time // those that ever gave none
}

// trust is for how long after its silence a caller does not go to a plane just because
// another one names it.
const trust = time.Minute

func newPlanes(urls []string) *planes {
	made := &planes{silent: map[string]time.Time{}, silence: map[string]time.Time{}}
	for _, one := range urls {
		made.urls = append(made.urls, strings.TrimRight(one, "/"))
	}
	return made
}

// next returns the plane that is asked next, after those that were tried, "" for none.
// A plane that was silent rests for so long if one of the others answers.
func (p *planes) next(tried []string, rest time.Duration) string {
	p.mutex.Lock()
	defer p.mutex.Unlock()
	isAnswered := false
	for _, plane := range tried {
		_, isSilent := p.silent[plane]
		isAnswered = isAnswered || !isSilent
	}
	for _, plane := range p.round() {
		if !isIn(tried, plane) && !(isAnswered && p.rests(plane, rest)) {
			return plane
		}
	}
	return ""
}

func (p *planes) count() int { return len(p.urls) }

// isSilent says whether a plane gave no answer when it was asked last.
func (p *planes) isSilent(plane string) bool {
	p.mutex.Lock()
	defer p.mutex.Unlock()
	_, isSilent := p.silent[plane]
	return isSilent
}

// answered notes that a plane did a call.
func (p *planes) answered(plane string) {
	p.mutex.Lock()
	defer p.mutex.Unlock()
	delete(p.silent, plane)
}

// failed notes that a plane did not do a call, and moves on from it if it is the one
// that is asked first.
func (p *planes) failed(plane string, isSilent bool, rest time.Duration) {
	p.mutex.Lock()
	defer p.mutex.Unlock()
	delete(p.silent, plane)
	if isSilent {
		p.silent[plane] = time.Now()
		p.silence[plane] = time.Now()
	}
	if len(p.urls) < 2 || p.urls[p.first] != plane {
		return
	}
	for step := 1; step < len(p.urls); step++ {
		if at := (p.first + step) % len(p.urls); !p.rests(p.urls[at], rest) {
			p.first = at
			return
		}
	}
	if isSilent {
		p.first = (p.first + 1) % len(p.urls)
	}
}

// told takes that the plane of a URL holds the job, as another one said: it is asked
// first from now on, unless it was silent lately.
func (p *planes) told(holder string) {
	p.mutex.Lock()
	defer p.mutex.Unlock()
	for at, plane := range p.urls {
		if since, isKnown := p.silence[plane]; plane == holder && (!isKnown || time.Since(since) >= trust) {
			p.first = at
			return
		}
	}
}

// round returns the planes in the order in which they are asked; the mutex is held.
func (p *planes) round() []string {
	return append(append([]string{}, p.urls[p.first:]...), p.urls[:p.first]...)
}

func (p *planes) rests(plane string, rest time.Duration) bool {
	since, isSilent := p.silent[plane]
	return isSilent && time.Since(since) < rest
}

func isIn(some []string, one string) bool {
	for _, it := range some {
		if it == one {
			return true
		}
	}
	return false
}
