package hourstable_test

import (
	"errors"
	"fmt"

	"hourstable"
)

// A server task asks its slicelet before each answer, until its lease ends. In a
// service the table sends the grant, and the readings are those of a TaskClock.
func ExampleSlicelet() {
	grant := []byte(`{"job":"shop","type":"grant","value":{"ends":"8","generation":"3","kind":"guard","life":1,` +
		`"number":"7","ranges":[["0","9223372036854775808"]],"task":2,"until":"10"},"version":2}`)

	task, err := hourstable.NewSlicelet("shop", 2)
	if err != nil {
		fmt.Println(err)
		return
	}
	defer task.Close()
	if err := task.Start(1, 3); err != nil {
		fmt.Println(err)
	}
	if err := task.Hear(grant, 5); err != nil {
		fmt.Println(err)
	}
	for now := uint64(6); now <= 8; now++ {
		err := task.Serving([]byte("apples"), now, func(lease hourstable.Served) error {
			fmt.Println(now, "served under", lease.Kind, lease.Generation)
			return nil
		})
		if errors.Is(err, hourstable.ErrEnded) {
			fmt.Println(now, err)
		}
	}
	note, err := task.Release(hourstable.Guard, 8)
	fmt.Println(string(note), err)
	// Output:
	// 6 served under guard 3
	// 7 served under guard 3
	// 8 hourstable: ended
	// {"job":"shop","type":"note","value":{"kind":"guard","life":1,"number":"7","task":2},"version":2} <nil>
}

// A task's reading is at most that of the table in its best answer and the local
// time since it asked, stretched by the drift.
func ExampleTaskClock() {
	clock, err := hourstable.NewTaskClock(hourstable.Drift{Extra: 1001, Per: 1_000_000, Grain: 2}, 9_000)
	if err != nil {
		fmt.Println(err)
		return
	}
	sent, reading, now := uint64(100), uint64(5_000), uint64(130)
	fmt.Println(clock.Sample(sent, reading, now))
	fmt.Println(clock.Read(150)) // 5,000, and 50 ticks, stretched to 51, and the grain of 2
	fmt.Println(clock.Read(9_101))
	// Output:
	// <nil>
	// 5053 <nil>
	// 0 hourstable: too-old
}
