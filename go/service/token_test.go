package service

import (
	"context"
	"errors"
	"reflect"
	"testing"

	"hourstable"
)

// tokenOf returns the token of an answer for hello.
func tokenOf(task *ran) (made hourstable.Token, err error) {
	failed := task.Serving(context.Background(), "hello", func(_ context.Context, lease *Lease) error {
		made, err = lease.Token()
		return nil
	})
	if failed != nil {
		return made, failed
	}
	return made, err
}

// wordsOf returns what the task did, in its order, and of releases which kind.
func wordsOf(t *testing.T, logs string) (words []string) {
	t.Helper()
	for _, call := range linesOf(t, logs) {
		word, _ := call["do"].(string)
		if kind, isThere := call["kind"].(string); isThere {
			word += " " + kind
		}
		words = append(words, word)
	}
	return words
}

// A token has the epoch that the plane told when it let the life in, and the greatest
// generation of the leases, also while the guard lease of an earlier one serves.
func TestTokens(t *testing.T) {
	job := newJob(t, 60_000)
	task := runs(t, TaskConfig{Control: []string{job.plane().URL}})
	eventually(t, "the task serves", func() bool { return task.serves("hello") })
	first, err := tokenOf(task)
	if wanted := hourstable.TokenOf(7, 1, 1); err != nil || first != wanted {
		t.Errorf("the token is %v, %v, not %v", first, err, wanted)
	}
	job.propose(`[["0",[1]],["5",[1]]]`)
	eventually(t, "the token rises", func() bool {
		made, err := tokenOf(task)
		return err == nil && made == hourstable.TokenOf(7, 2, 1)
	})
	var fence hourstable.Fence
	if !fence.Accept(hourstable.TokenOf(7, 2, 1)) || fence.Accept(first) {
		t.Errorf("the store has %v", fence.Greatest)
	}
}

// The guard lease of an earlier generation serves, beside a bridge lease.
func TestATokenOfTwoLeases(t *testing.T) {
	task := lone(t, TaskConfig{Control: []string{"http://127.0.0.1:1"}, Job: "shop", Task: 1}, 1<<32)
	task.leases.epoch = 7
	message := `{"job":"shop","type":"grant","value":{"ends":"4294967296","generation":"2","kind":"bridge",` +
		`"life":1,"number":"2","ranges":[["0","9223372036854775808"]],"task":1,"until":"4294967296"},"version":2}`
	at, err := task.Reading()
	must(t, err)
	must(t, task.leases.slicelet.Hear([]byte(message), at))
	err = task.Serving(context.Background(), "hello", func(_ context.Context, lease *Lease) error {
		token, err := lease.Token()
		if lease.Kind != hourstable.Guard || lease.Generation != 1 || token != hourstable.TokenOf(7, 2, 1) {
			t.Errorf("the token is %v, and the lease %+v", token, lease)
		}
		return err
	})
	if err != nil {
		t.Error(err)
	}
}

// A task logs its writes with the token of the answer, at tickets after that of the question.
func TestWritesAreLogged(t *testing.T) {
	job := newJob(t, 60_000)
	folder, revision := t.TempDir(), uint64(9)
	task := runs(t, TaskConfig{Control: []string{job.plane().URL}, Logs: folder})
	eventually(t, "the task serves", func() bool { return task.serves("hello") })
	var kept *Lease
	must(t, task.Serving(context.Background(), "hello", func(_ context.Context, lease *Lease) error {
		kept = lease
		must(t, lease.Wrote(hourstable.WriteTaken, &revision))
		if err := lease.Wrote(hourstable.WriteRefused, &revision); !errors.Is(err, hourstable.ErrWrongForm) {
			t.Errorf("a write that was refused has a revision: %v", err)
		}
		return lease.Wrote(hourstable.WriteUnknown, nil)
	}))
	must(t, kept.Wrote(hourstable.WriteRefused, nil)) // late
	ticket := func(line map[string]any) uint64 { return uint64(line["ticket"].(float64)) }
	var entry, last uint64
	var replies []any
	for _, line := range linesOf(t, folder) {
		switch {
		case line["do"] == "hold":
			entry = ticket(line)
		case line["do"] == "write":
			token, _ := kept.Token()
			if line["token"] != token.String() || line["slice_key"] != float64(hourstable.SliceKey([]byte("hello"))) {
				t.Errorf("it logs %v", line)
			}
			if ticket(line) <= last || ticket(line) <= entry {
				t.Errorf("the ticket of %v is not above %d and %d", line, entry, last)
			}
			last, replies = ticket(line), append(replies, line["reply"], line["revision"])
		}
	}
	if float64(kept.Ticket()) != float64(entry) || entry == 0 {
		t.Errorf("the ticket of the answer is %d, and %d in the log", kept.Ticket(), entry)
	}
	if wanted := []any{"taken", 9.0, "unknown", nil, "refused", nil}; !reflect.DeepEqual(replies, wanted) {
		t.Errorf("it logs %v, and not %v", replies, wanted)
	}
}

// An audit knows no token of an answer that is not logged.
func TestAWriteOfAnAnswerThatIsNotLogged(t *testing.T) {
	job := newJob(t, 60_000)
	folder := t.TempDir()
	task := runs(t, TaskConfig{Control: []string{job.plane().URL}, Logs: folder, Sample: 1e-9})
	eventually(t, "the task serves", func() bool { return task.serves("hello") })
	must(t, task.Serving(context.Background(), "hello", func(_ context.Context, lease *Lease) error {
		if lease.Ticket() != 0 {
			t.Errorf("its ticket is %d", lease.Ticket())
		}
		return lease.Wrote(hourstable.WriteTaken, nil)
	}))
	for _, word := range wordsOf(t, folder) {
		if word == "write" {
			t.Error("it logs a write")
		}
	}
}

// No lease is asked for before the start of its life.
func TestALifeIsLetInBeforeItAsksForALease(t *testing.T) {
	job := newJob(t, 60_000)
	folder := t.TempDir()
	task := runs(t, TaskConfig{Control: []string{job.plane().URL}, Logs: folder})
	eventually(t, "the task serves", func() bool { return task.serves("hello") })
	wanted := []string{"open", "sample", "start", "sample", "hear"}
	if words := wordsOf(t, folder); len(words) < 5 || !reflect.DeepEqual(words[:5], wanted) {
		t.Errorf("it did %v, and not %v first", words, wanted)
	}
}

func TestAPlaneThatKnowsNoEpoch(t *testing.T) {
	job := newJob(t, 60_000)
	job.isOld = true
	task := runs(t, TaskConfig{Control: []string{job.plane().URL}})
	eventually(t, "the task serves", func() bool { return task.serves("hello") })
	if _, err := tokenOf(task); !errors.Is(err, ErrNoEpoch) {
		t.Errorf("the token fails by %v", err)
	}
}

func TestAJobOfTwoOwnersHasNoTokens(t *testing.T) {
	job := newJob(t, 60_000)
	job.policy["redundancy"] = []int{1, 2}
	task := runs(t, TaskConfig{Control: []string{job.plane().URL}})
	eventually(t, "the task serves", func() bool { return task.serves("hello") })
	if _, err := tokenOf(task); !errors.Is(err, ErrManyOwners) {
		t.Errorf("the token fails by %v", err)
	}
}

// A task that stops gives its guard lease up, and its next life frees the bridge lease that
// it must keep, by a note of a life that has ended. The table commits at once.
func TestATaskThatStopsKeepsItsBridgeLease(t *testing.T) {
	job := newJob(t, 600_000)
	folder := t.TempDir()
	task := runs(t, TaskConfig{Control: []string{job.plane().URL}, Logs: folder})
	eventually(t, "the task serves", func() bool { return task.serves("hello") })
	job.propose(`[["0",[1]],["5",[1]]]`)
	eventually(t, "it has a bridge lease", func() bool {
		made, err := tokenOf(task)
		return err == nil && made == hourstable.TokenOf(7, 2, 1)
	})
	task.cancel()
	<-task.ended
	job.commit()
	opens := 0
	for _, word := range wordsOf(t, folder) {
		if word == "release bridge" {
			t.Error("it released its bridge lease")
		}
		if word == "open" {
			opens++
		}
	}
	if opens != 2 {
		t.Errorf("it opened %d lives", opens)
	}
}
