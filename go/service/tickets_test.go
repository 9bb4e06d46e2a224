package service

import (
	"errors"
	"fmt"
	"math"
	"os"
	"path/filepath"
	"testing"
	"time"

	"hourstable"
)

func TestTicketsThatAreNotObserved(t *testing.T) {
	from, _ := openTickets(64, "")
	// No numbers, of 2^47 ms and more, and of more than 64 bits.
	for _, text := range []string{"-1", "x", "7x", "9223372036854775808", "18446744073709551615", "18446744073709551616"} {
		from.observe(text)
	}
	if drawn(t, from)>>8 != 1 {
		t.Error("what was not observed counts")
	}
	if passed, _ := from.counts(); passed != 6 {
		t.Errorf("%d tickets were counted", passed)
	}
}

// An answer that comes late has a ticket below those drawn since.
func TestTicketsThatWereSeenBefore(t *testing.T) {
	from, _ := openTickets(64, "")
	from.observe("66816") // 261 * 256
	from.observe("256")
	if place := drawn(t, from) >> 8; place != 262 {
		t.Errorf("%d is drawn after 261", place)
	}
}

// The real time of a plane, or of this host, may be days off.
func TestTicketsOfAPlaneThatIsAhead(t *testing.T) {
	from, _ := openTickets(64, "")
	ahead := uint64(time.Now().Add(48*time.Hour).UnixMilli()) << 16
	for _, ticket := range []uint64{ahead, math.MaxInt64} { // the last one is the greatest below 2^47 ms
		from.observe(fmt.Sprint(ticket))
		if after := drawn(t, from); after <= ticket {
			t.Errorf("%d was drawn after %d", after, ticket)
		}
	}
}

// A task whose state is moved out of the folder of logs draws on above its earlier tickets.
func TestTicketsThatMoveToTheirOwnFolder(t *testing.T) {
	config := TaskConfig{Control: []string{"http://127.0.0.1:1"}, Job: "shop", Task: 1, Logs: t.TempDir()}
	draw := func() (uint64, error) {
		task, err := NewTask(config)
		if err != nil {
			return 0, err
		}
		defer task.end()
		return task.tickets.draw()
	}
	first, err := draw()
	if err != nil {
		t.Fatal(err)
	}
	beside := filepath.Join(config.Logs, "shop", "task-1.ticket")
	used, err := openTickets(64, beside)
	if err != nil {
		t.Fatal(err)
	}
	config.State = filepath.Join(t.TempDir(), "state")
	if _, err := draw(); err == nil {
		t.Error("the file of a process that runs is moved")
	}
	used.close()
	for range [2]int{} {
		next, err := draw()
		if err != nil || next <= first {
			t.Errorf("%d was drawn after %d: %v", next, first, err)
		}
		first = next
	}
	if _, err := os.Stat(beside); !errors.Is(err, os.ErrNotExist) {
		t.Error("the file of tickets still stands among the logs:", err)
	}
}

func TestADiskThatDoesNotTakeTickets(t *testing.T) {
	from, err := openTickets(64, filepath.Join(t.TempDir(), "task-1.ticket"))
	if err != nil {
		t.Fatal(err)
	}
	from.file.Close() // each sync of it fails
	first := drawn(t, from)
	if second := drawn(t, from); second <= first {
		t.Errorf("%d was drawn after %d", second, first)
	}
	if _, unkept := from.counts(); unkept == 0 {
		t.Error("nothing was counted")
	}
}

// The local clock of a task is not slewed.
func TestTheClockOfATask(t *testing.T) {
	task, err := NewTask(TaskConfig{Control: []string{"http://127.0.0.1:1"}, Job: "shop", Task: 1, Logs: t.TempDir()})
	if err != nil {
		t.Fatal(err)
	}
	defer task.tickets.close()
	if task.config.Drift != (hourstable.Drift{Extra: 1001, Per: 1_000_000, Grain: 2}) {
		t.Errorf("the drift is %+v", task.config.Drift)
	}
	before, _ := hourstable.LocalTicks()
	now, _ := task.config.now()
	after, _ := hourstable.LocalTicks()
	if now < before || now > after {
		t.Errorf("%d is not from %d to %d", now, before, after)
	}
}
