package service

import (
	"encoding/json"
	"errors"
	"fmt"
	"io"
	"net/http"
	"os"
	"path/filepath"
	"strings"
	"sync"
	"testing"
	"time"

	"hourstable"
)

// keyed is a plane that gives keys to lives and notes what grants and notes show.
type keyed struct {
	*testPlane
	mutex sync.Mutex
	lives uint32
	asked []map[string]any // of the grants
	keys  []string         // of the notes
	deny  func(life uint32) map[string]any
}

func newKeyed(t *testing.T) *keyed { return keyedFor(t, 2000) }

func keyedFor(t *testing.T, guard uint64) *keyed {
	made := &keyed{testPlane: newJob(t, guard).plane()}
	made.fail(made.answer)
	return made
}

// letIns returns how often a life asked to be let in, of those that asked most often.
func (k *keyed) letIns() (most int) {
	k.mutex.Lock()
	defer k.mutex.Unlock()
	times := map[any]int{}
	for _, asked := range k.asked {
		if asked["let_in"] == true {
			times[asked["life"]]++
		}
	}
	for _, it := range times {
		if it > most {
			most = it
		}
	}
	return most
}

// noted returns whether a note came with a key.
func (k *keyed) noted(key string) bool {
	k.mutex.Lock()
	defer k.mutex.Unlock()
	return isIn(k.keys, key)
}

func (k *keyed) answer(out http.ResponseWriter, in *http.Request) bool {
	k.mutex.Lock()
	defer k.mutex.Unlock()
	switch {
	case strings.HasSuffix(in.URL.Path, "/life"):
		k.lives++
		answerWith(out, 200, map[string]any{"life": k.lives, "last": k.lives - 1, "key": fmt.Sprintf("key-%d", k.lives)})
		return true
	case strings.HasSuffix(in.URL.Path, "/free"):
		k.keys = append(k.keys, in.Header.Get("Hourstable-Key"))
	case strings.HasSuffix(in.URL.Path, "/grant"):
		text, _ := io.ReadAll(in.Body)
		in.Body = io.NopCloser(strings.NewReader(string(text)))
		var members map[string]any
		json.Unmarshal(text, &members)
		k.asked = append(k.asked, members)
		if k.deny == nil {
			return false
		}
		if told := k.deny(uint32(members["life"].(float64))); told != nil {
			answerWith(out, 409, told)
			return true
		}
	}
	return false
}

func (k *keyed) set(deny func(life uint32) map[string]any) {
	k.mutex.Lock()
	defer k.mutex.Unlock()
	k.deny = deny
}

func (k *keyed) last() map[string]any {
	k.mutex.Lock()
	defer k.mutex.Unlock()
	if len(k.asked) == 0 {
		return nil
	}
	return k.asked[len(k.asked)-1]
}

func (k *keyed) first() map[string]any {
	k.mutex.Lock()
	defer k.mutex.Unlock()
	return k.asked[0]
}

func serves(task *Task) bool {
	state, _ := task.State()
	return state == Serving && len(task.Served()) > 0
}

func TestASecondProcessIsRefusedTheLock(t *testing.T) {
	plane, state := newKeyed(t), t.TempDir()
	config := TaskConfig{Control: []string{plane.URL}, State: state}
	first := runs(t, config)
	config.Job, config.Task = "shop", 1
	if _, err := NewTask(config); err == nil || !strings.Contains(err.Error(), "task-1.lock: another process") {
		t.Fatalf("a second process has the lock: %v", err)
	}
	eventually(t, "the task serves", func() bool { return serves(first.Task) })
	first.cancel()
	if err := <-first.ended; err != nil {
		t.Fatal(err)
	}
	again, err := NewTask(config)
	if err != nil {
		t.Fatalf("the lock outlasts its process: %v", err)
	}
	again.end()
}

func TestKeysAreShown(t *testing.T) {
	plane, state := newKeyed(t), t.TempDir()
	config := TaskConfig{Control: []string{plane.URL}, State: state}
	first := runs(t, config)
	eventually(t, "the task serves", func() bool { return serves(first.Task) })
	asked := plane.last()
	place, _ := asked["place"].(map[string]any)
	if asked["key"] != "key-1" || place["process"] == "" || place["boot"] == "" || place["inode"] == "" {
		t.Fatalf("a grant is asked for with %v", asked)
	}
	first.cancel()
	<-first.ended
	plane.mutex.Lock()
	if len(plane.keys) == 0 || plane.keys[0] != "key-1" {
		t.Errorf("leases are given back with %q", plane.keys)
	}
	plane.mutex.Unlock()
	plane.set(func(uint32) map[string]any { return map[string]any{"refused": "waiting", "admitted": 1, "after": 0.1} })
	second := runs(t, config)
	eventually(t, "the task waits", func() bool { state, _ := second.State(); return state == Waiting })
	asked = plane.last()
	shown, _ := asked["shown"].(map[string]any)
	other, _ := asked["place"].(map[string]any)
	if asked["key"] != "key-2" || shown["1"] != "key-1" {
		t.Fatalf("the key of the process before is not shown: %v", asked)
	}
	if other["inode"] != place["inode"] || other["process"] == place["process"] {
		t.Fatalf("the second process is at %v, the first one was at %v", other, place)
	}
	plane.set(nil)
	eventually(t, "the task serves", func() bool { return serves(second.Task) })
	text, err := os.ReadFile(filepath.Join(state, "shop", "task-1.keys"))
	if err != nil || string(text) != `{"2":"key-2"}` {
		t.Fatalf("the keys are %s, %v", text, err)
	}
}

func TestAProcessThatWaitsLogsNothing(t *testing.T) {
	plane, logs := newKeyed(t), t.TempDir()
	plane.set(func(uint32) map[string]any { return map[string]any{"refused": "waiting", "admitted": 0, "after": 0.05} })
	task := runs(t, TaskConfig{Control: []string{plane.URL}, Logs: logs, State: t.TempDir(), Report: 20 * time.Millisecond})
	eventually(t, "the task waits", func() bool { state, _ := task.State(); return state == Waiting })
	if task.serves("key") || task.Ready() {
		t.Fatal("it serves while it waits")
	}
	time.Sleep(200 * time.Millisecond)
	if found := linesOf(t, logs); len(found) > 0 || len(plane.times("loads")) > 0 {
		t.Fatalf("it logs %v, and reported %d times", found, len(plane.times("loads")))
	}
	plane.set(nil)
	eventually(t, "the task serves", func() bool { return serves(task.Task) && task.Ready() })
}

func TestAProcessThatIsOvertakenEnds(t *testing.T) {
	plane := newKeyed(t)
	task := runs(t, TaskConfig{Control: []string{plane.URL}})
	eventually(t, "the task serves", func() bool { return serves(task.Task) })
	plane.set(func(uint32) map[string]any { return map[string]any{"refused": "overtaken", "admitted": 7} })
	select {
	case err := <-task.ended:
		if !errors.Is(err, ErrOvertaken) {
			t.Fatal(err)
		}
	case <-time.After(20 * time.Second):
		t.Fatal("it does not end")
	}
	if task.serves("key") {
		t.Fatal("it serves after its end")
	}
}

func TestAProcessGoesOnWithItsOwnNextLife(t *testing.T) {
	plane := newKeyed(t)
	task := runs(t, TaskConfig{Control: []string{plane.URL}})
	eventually(t, "the task serves", func() bool { return serves(task.Task) })
	plane.set(func(life uint32) map[string]any {
		if life == 1 {
			return map[string]any{"refused": "overtaken", "admitted": 1}
		}
		return nil
	})
	eventually(t, "the next life serves", func() bool {
		asked := plane.last()
		return asked["life"] == 2.0 && serves(task.Task)
	})
}

// A plane notices by what a life heard that its store went back.
func TestALifeTellsWhatItHeard(t *testing.T) {
	plane := newKeyed(t)
	task := runs(t, TaskConfig{Control: []string{plane.URL}})
	eventually(t, "the task serves", func() bool { return serves(task.Task) })
	if told := plane.first()["heard"]; told != nil {
		t.Fatalf("a life that heard nothing says %v", told)
	}
	eventually(t, "a renewal", func() bool { return plane.last()["heard"] != nil })
	told := plane.last()["heard"].(map[string]any)
	if told["number"].(float64) < 1 || told["generation"].(float64) != 1 {
		t.Fatalf("it says that it heard %v", told)
	}
}

// After a store went back no life that was given out before counts: the process begins
// another one, and does not end.
func TestALifeOfBeforeTheStoreWentBack(t *testing.T) {
	plane := newKeyed(t)
	task := runs(t, TaskConfig{Control: []string{plane.URL}})
	eventually(t, "the task serves", func() bool { return serves(task.Task) })
	plane.set(func(life uint32) map[string]any {
		if life > 1 {
			return nil
		}
		return map[string]any{"refused": "overtaken", "admitted": 0}
	})
	eventually(t, "another life", func() bool {
		life, _ := plane.last()["life"].(float64)
		return life > 1 && serves(task.Task)
	})
}

// A process that was stopped between the answer that lets it in and its first step: another one may be let in since.
func TestALifeThatWasLetInLongAgo(t *testing.T) {
	plane, clock := newKeyed(t), &shifted{}
	var once sync.Once
	plane.set(func(uint32) map[string]any {
		once.Do(func() { clock.passed.Store(1500) }) // of a guard term of 2,000
		return nil
	})
	task := runs(t, TaskConfig{Control: []string{plane.URL}, local: clock.read})
	eventually(t, "the task serves", func() bool { return serves(task.Task) })
	if times := plane.letIns(); times < 2 || task.Counts().Lives != 1 {
		t.Errorf("it asked %d times to be let in, and began %d lives", times, task.Counts().Lives)
	}
}

// No life begins by an answer that no plane gives.
func TestWrongAnswersToALife(t *testing.T) {
	for _, it := range []struct {
		name, path string
		reading    string
		body       map[string]any
	}{
		{"a life that is not above the last", "/life", "", map[string]any{"life": 3, "last": 3}},
		{"another life is let in", "/grant", "12", map[string]any{"let_in": 9, "epoch": 7}},
		{"it is let in with no epoch", "/grant", "12", map[string]any{"let_in": 1}},
		{"it is let in at no reading", "/grant", "", map[string]any{"let_in": 1, "epoch": 7}},
	} {
		plane := newJob(t, 2000).plane()
		plane.fail(func(out http.ResponseWriter, in *http.Request) bool {
			if !strings.HasSuffix(in.URL.Path, it.path) {
				return false
			}
			if it.reading != "" {
				out.Header().Set(readingHeader, it.reading)
			}
			answerWith(out, 200, it.body)
			return true
		})
		task := runs(t, TaskConfig{Control: []string{plane.URL}})
		eventually(t, "an answer counts", func() bool {
			return task.Counts().Planes["unreadable"] > 0 || task.Counts().Lives > 0
		})
		if counts := task.Counts(); counts.Lives > 0 {
			t.Errorf("%s: %+v", it.name, counts)
		}
		plane.fail(nil)
		eventually(t, "the task serves", func() bool { return task.serves("hello") })
		task.cancel()
		<-task.ended
	}
}

func TestALifeThatIsEvicted(t *testing.T) {
	plane := newKeyed(t)
	task := runs(t, TaskConfig{Control: []string{plane.URL}})
	eventually(t, "the task serves", func() bool { return serves(task.Task) })
	plane.set(func(uint32) map[string]any { return map[string]any{"refused": "evicted"} })
	select {
	case err := <-task.ended:
		if !errors.Is(err, ErrOvertaken) {
			t.Fatal(err)
		}
	case <-time.After(20 * time.Second):
		t.Fatal("it does not end")
	}
}

// A plane that asks for no wait is not asked without one.
func TestAProcessThatWaitsForNoTime(t *testing.T) {
	plane := newKeyed(t)
	plane.set(func(uint32) map[string]any { return map[string]any{"refused": "waiting", "admitted": 0, "after": 0} })
	runs(t, TaskConfig{Control: []string{plane.URL}})
	eventually(t, "the task asks six times", func() bool { return len(plane.times("grant")) >= 6 })
	times := plane.times("grant")
	if took := times[5].Sub(times[0]); took < 4*leastWait { // the first phase wakes it once
		t.Errorf("it asked six times in %v", took)
	}
}

// While a task may serve, no other process has its lock.
func TestTheLockIsGivenBackLast(t *testing.T) {
	config := TaskConfig{Control: []string{"http://127.0.0.1:1"}, Job: "shop", Task: 1, State: t.TempDir()}
	task := lone(t, config, 1<<32)
	task.mutex.Lock() // so that what it serves by does not end
	ended := make(chan struct{})
	go func() {
		defer close(ended)
		task.end()
	}()
	time.Sleep(100 * time.Millisecond)
	_, err := NewTask(config)
	task.mutex.Unlock()
	<-ended
	if err == nil || !strings.Contains(err.Error(), "task-1.lock: another process") {
		t.Errorf("another process has the lock: %v", err)
	}
}

func TestTheNewestKeysAreKept(t *testing.T) {
	own := &ownLives{keys: map[uint32]string{}}
	for life := uint32(1); life <= 7; life++ {
		own.keys[life] = fmt.Sprint("key-", life)
	}
	if found := fmt.Sprint(own.newest(7)); found != "map[3:key-3 4:key-4 5:key-5 6:key-6]" {
		t.Errorf("beside life 7 these are kept: %v", found)
	}
}

// endedLives returns the lives that the log tells to have ended.
func endedLives(t *testing.T, logs string) (made []float64) {
	for _, call := range linesOf(t, logs) {
		if call["do"] == "open" {
			made = append(made, call["life"].(float64))
		}
	}
	return made
}

// The answer to a call for a life may be lost. While the lease that the last life kept
// lasts, no other one is let in: the log tells that this life has ended, and an audit
// knows the notes that free it.
func TestALeaseThatWasKeptIsFreedAfterALostLife(t *testing.T) {
	plane, logs := keyedFor(t, 600_000), t.TempDir()
	task := runs(t, TaskConfig{Control: []string{plane.URL}, Logs: logs})
	eventually(t, "the task serves", func() bool { return task.serves("hello") })
	plane.job.propose(`[["0",[1]],["5",[1]]]`)
	eventually(t, "it has a bridge lease", func() bool {
		made, err := tokenOf(task)
		return err == nil && made == hourstable.TokenOf(7, 2, 1)
	})
	plane.mutex.Lock()
	plane.lives++ // drawn, and the answer was lost
	plane.mutex.Unlock()
	task.cancel()
	<-task.ended
	plane.job.commit()
	if found := endedLives(t, logs); len(found) != 2 || found[0] != 0 || found[1] != 1 {
		t.Errorf("it tells that %v have ended", found)
	}
}

func TestTheLifeThatHasEnded(t *testing.T) {
	at := func(reading uint64) *uint64 { return &reading }
	for name, it := range map[string]struct {
		dropped []droppedLife
		at      *uint64
		wanted  uint32
	}{
		"none was dropped":   {nil, at(100), 4},
		"its lease lasts":    {[]droppedLife{{life: 3, key: "key", until: 101}}, at(100), 3},
		"it has ended":       {[]droppedLife{{life: 3, key: "key", until: 100}}, at(100), 4},
		"no reading is told": {[]droppedLife{{life: 3, key: "key", until: 101}}, nil, 4},
		"it has no key":      {[]droppedLife{{life: 3, until: 101}}, at(100), 4},
	} {
		task := &Task{dropped: it.dropped}
		if found := task.endedBefore(ownLife{Life: 5, Last: 4}, it.at); found != it.wanted {
			t.Errorf("%s: %d", name, found)
		}
	}
}

// An audit knows the notes of a life if the log tells that it has ended.
func TestNotesThatNoLogSendsAreNotSent(t *testing.T) {
	plane := newKeyed(t)
	task := runs(t, TaskConfig{Control: []string{plane.URL}})
	eventually(t, "the task serves", func() bool { return serves(task.Task) })
	free := func(ended uint32) {
		task.mutex.Lock()
		task.dropped = []droppedLife{{life: 11, key: "key-11"}, {life: 12, key: "key-12", isTold: true}, {life: 13, key: "key-13"}}
		task.mutex.Unlock()
		task.freeDropped(ended)
	}
	free(13)
	eventually(t, "the notes are sent", func() bool { return plane.noted("key-12") && plane.noted("key-13") })
	if plane.noted("key-11") {
		t.Error("a note was sent of a life of which no line tells that it has ended")
	}
}
