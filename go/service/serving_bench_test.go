package service

import (
	"context"
	"fmt"
	"math"
	"path/filepath"
	"sync"
	"syscall"
	"testing"

	"hourstable"
)

// servingTask returns a task that may serve every key, and follows no table.
func servingTask(b *testing.B, hasLog bool) *Task {
	b.Helper()
	config := TaskConfig{Control: []string{"http://127.0.0.1:1"}, Job: "shop", Task: 1}
	if hasLog {
		config.Logs = b.TempDir()
	}
	return lone(b, config, 1<<32)
}

// lone returns a task that may serve every key until a reading, and follows no table.
func lone(b testing.TB, config TaskConfig, ends uint64) *Task {
	b.Helper()
	task, err := NewTask(config)
	must(b, err)
	b.Cleanup(task.end)
	if config.Logs != "" {
		told := func(why error) { b.Error(why) }
		task.log, err = openLog(filepath.Join(config.Logs, "shop"), "task-1", []byte(`{"job":{}}`), told)
		must(b, err)
	}
	clock, err := hourstable.NewTaskClock(task.config.Drift, 1<<40)
	must(b, err)
	held := &leases{
		job: "shop", task: 1, life: 1, clock: clock, local: task.config.local, tickets: task.tickets, log: task.log,
	}
	must(b, held.begin(0))
	sent, err := held.localNow()
	must(b, err)
	reading := uint64(5)
	must(b, held.sample(answer{sent: sent, reading: &reading}))
	must(b, held.start())
	hearGuard(b, held, 1, ends)
	task.leases = held
	task.publish()
	return task
}

// hearGuard lets a life hear a guard lease of every key, by the number of its grant and until a reading.
func hearGuard(b testing.TB, held *leases, number, ends uint64) {
	b.Helper()
	message := []byte(fmt.Sprintf(`{"job":"shop","type":"grant","value":{"ends":"%d","generation":"1","kind":"guard",`+
		`"life":1,"number":"%d","ranges":[["0","%d"]],"task":1,"until":"%d"},"version":2}`, ends, number, keys, ends))
	grant, err := grantOf("shop", message)
	must(b, err)
	policy := hourstable.Policy{Low: 1, High: 1, Guard: 1 << 32, Bridge: 1 << 32, Job: 1 << 32, Numbers: 1 << 20}
	if isHeard, err := held.hear(message, grant, policy); err != nil || !isHeard {
		b.Fatal(isHeard, err)
	}
}

func must(b testing.TB, err error) {
	b.Helper()
	if err != nil {
		b.Fatal(err)
	}
}

// processorTime returns the nanoseconds that this process has used of the processors.
func processorTime() int64 {
	var used syscall.Rusage
	syscall.Getrusage(syscall.RUSAGE_SELF, &used)
	return used.Utime.Nano() + used.Stime.Nano()
}

// timeOfBlocks answers in blocks of Serving, by goroutines side by side, and returns the nanoseconds of
// the processors for each.
func timeOfBlocks(b *testing.B, task *Task, goroutines, each int) int64 {
	answer := func(context.Context, *Lease) error { return nil }
	var waits sync.WaitGroup
	begun := processorTime()
	for at := 0; at < goroutines; at++ {
		waits.Add(1)
		go func() {
			defer waits.Done()
			for block := 0; block < each; block++ {
				if err := task.Serving(context.Background(), "a key of 20 bytes, 1", answer); err != nil {
					b.Error(err)
					return
				}
			}
		}()
	}
	waits.Wait()
	return (processorTime() - begun) / int64(goroutines*each)
}

// A block of Serving, alone and by four goroutines side by side. The least of the rounds of 1,000
// blocks counts, by the time of the processors, so that other work on the machine changes it less.
func BenchmarkServing(b *testing.B) {
	for _, hasLog := range []bool{false, true} {
		for _, goroutines := range []int{1, 4} {
			b.Run(fmt.Sprintf("log=%v/goroutines=%d", hasLog, goroutines), func(b *testing.B) {
				task := servingTask(b, hasLog)
				b.ReportAllocs()
				b.ResetTimer()
				least := int64(math.MaxInt64)
				for round := 0; round <= b.N/1000; round++ {
					if took := timeOfBlocks(b, task, goroutines, 1000/goroutines); took < least {
						least = took
					}
				}
				b.ReportMetric(float64(least), "least-cpu-ns/block")
			})
		}
	}
}
