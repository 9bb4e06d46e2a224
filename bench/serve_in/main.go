// Prints what calls for a held key cost, as serve.c does.
package main

import (
	"fmt"
	"log"
	"os"
	"runtime"
	"strconv"
	"syscall"
	"time"

	"hourstable"
)

const grant = `{"job":"shop","type":"grant","value":{"ends":"1000","generation":"1","kind":"guard","life":1,` +
	`"number":"1","ranges":[["0","9223372036854775808"]],"task":1,"until":"1010"},"version":2}`

func check(err error) {
	if err != nil {
		log.Fatal(err)
	}
}

// now is how long this process had the processor: Go's own threads do nothing, since
// nothing is allocated.
func now() time.Duration {
	var used syscall.Rusage
	check(syscall.Getrusage(syscall.RUSAGE_SELF, &used))
	return time.Duration(used.Utime.Nano() + used.Stime.Nano())
}

func local() (uint64, error) { return 2, nil }

func tell(calls int, play func(key []byte, call int)) {
	key := []byte("a key of 20 bytes, 0")
	least := time.Hour
	for i := 0; i < 100; i++ {
		begun := now()
		for call := 0; call < calls; call++ {
			key[19] = byte(call)
			play(key, call)
		}
		if took := now() - begun; took < least {
			least = took
		}
	}
	fmt.Println(least.Nanoseconds() / int64(calls))
}

func main() {
	runtime.LockOSThread()
	calls, err := strconv.Atoi(os.Args[1])
	check(err)
	task, err := hourstable.NewSlicelet("shop", 1)
	check(err)
	check(task.Start(1, 0))
	check(task.Hear([]byte(grant), 1))
	clock, err := hourstable.NewTaskClock(hourstable.Drift{Per: 1}, 100)
	check(err)
	check(clock.Sample(0, 1, 0))
	tell(calls, func(key []byte, call int) {
		_, err := task.Serve(key, 2)
		check(err)
	})
	for _, room := range []int{0, hourstable.LineRoom} {
		block := hourstable.Block{Line: make([]byte, 0, room)}
		tell(calls, func(key []byte, call int) {
			block.Ticket = uint64(2 * call)
			check(task.Enter(clock, local, key, &block))
			block.Ticket++
			check(task.Leave(clock, local, &block))
		})
	}
}
