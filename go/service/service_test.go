package service_test

import (
	"bufio"
	"context"
	"errors"
	"fmt"
	"io"
	"net/http"
	"os"
	"os/exec"
	"path/filepath"
	"strings"
	"sync"
	"syscall"
	"testing"
	"time"

	"hourstable"
	"hourstable/service"
)

const job = "shop"

func policy(guard uint64) map[string]any {
	return map[string]any{
		"redundancy": []int{1, 1}, "skew": 0, "guard": guard, "bridge": guard, "job": 2 * guard, "numbers": 1 << 20,
	}
}

// python returns a command of the service in python/, or skips the test if it cannot run.
func python(t *testing.T, words ...string) *exec.Cmd {
	t.Helper()
	name := os.Getenv("HOURSTABLE_PYTHON")
	if name == "" {
		name = "python3"
	}
	folder, err := filepath.Abs("../../python")
	if err != nil {
		t.Fatal(err)
	}
	environment := append(os.Environ(), "PYTHONPATH="+folder, "PYTHONDONTWRITEBYTECODE=1")
	probe := exec.Command(name, "-c", "import hourstable.task, hourstable.control")
	probe.Env = environment
	if said, err := probe.CombinedOutput(); err != nil {
		lines := strings.Split(strings.TrimSpace(string(said)), "\n")
		t.Skipf("skipped, as the service in Python does not run: %v %s", err, lines[len(lines)-1])
	}
	made := exec.Command(name, words...)
	made.Env, made.Stderr = environment, os.Stderr
	return made
}

// begun starts a process, which is killed with the test, and returns its first line.
func begun(t *testing.T, process *exec.Cmd) string {
	t.Helper()
	out, err := process.StdoutPipe()
	if err != nil {
		t.Fatal(err)
	}
	if err := process.Start(); err != nil {
		t.Fatal(err)
	}
	t.Cleanup(func() {
		process.Process.Kill()
		process.Wait()
	})
	line, err := bufio.NewReader(out).ReadString('\n')
	if err != nil {
		t.Fatal(err)
	}
	return strings.TrimSpace(line)
}

// plane starts a control plane, and returns its URL, its process and its folder of logs.
func plane(t *testing.T) (string, *exec.Cmd, string) {
	t.Helper()
	folder := t.TempDir()
	logs := filepath.Join(folder, "logs")
	process := python(t, "-m", "hourstable.command", "control", "--listen", "127.0.0.1:0", "--store",
		"sqlite:"+folder+"/jobs", "--logs", logs, "--settle", "0.3", "--rest", "1")
	return strings.TrimPrefix(begun(t, process), "listening on "), process, logs
}

// running runs a task until the end of the test, or until what it returns is called.
func running(t *testing.T, config service.TaskConfig) (*service.Task, func() error) {
	t.Helper()
	task, err := service.NewTask(config)
	if err != nil {
		t.Fatal(err)
	}
	ctx, cancel := context.WithCancel(context.Background())
	ended := make(chan error, 1)
	go func() { ended <- task.Run(ctx) }()
	var once sync.Once
	var failed error
	stop := func() error {
		once.Do(func() {
			cancel()
			failed = <-ended
		})
		return failed
	}
	t.Cleanup(func() { stop() })
	return task, stop
}

func until(t *testing.T, what string, holds func() bool) {
	t.Helper()
	for end := time.Now().Add(2 * time.Minute); !holds(); time.Sleep(5 * time.Millisecond) {
		if time.Now().After(end) {
			t.Fatalf("it does not come true: %s", what)
		}
	}
}

func served(task *service.Task, key string) error {
	return task.Serving(context.Background(), key, func(context.Context, *service.Lease) error { return nil })
}

// Two tasks in Go and one in Python own the keys of a job. While they come and go, a
// router finds the owner of each key, and the logs of all of them are one run.
func TestTasksInGoAndInPython(t *testing.T) {
	address, control, logs := plane(t)
	tasks := map[uint64]*service.Task{}
	var stops []func() error
	for number := uint64(1); number <= 2; number++ {
		task, stop := running(t, service.TaskConfig{
			Control: []string{address}, Job: job, Task: number, Logs: logs, Policy: policy(5000),
			Report: 300 * time.Millisecond, Sample: float64(number) / 2,
		})
		tasks[number] = task
		stops = append(stops, stop)
	}
	until(t, "the first tasks serve", func() bool { return len(tasks[1].Served()) > 0 && len(tasks[2].Served()) > 0 })
	third := python(t, "testdata/task.py", address, job, "3", logs)
	port := begun(t, third)

	router, err := service.NewRouter(service.RouterConfig{Control: []string{address}, Job: job})
	if err != nil {
		t.Fatal(err)
	}
	following, cancel := context.WithCancel(context.Background())
	followed := make(chan error, 1)
	go func() { followed <- router.Run(following) }()
	defer func() {
		cancel()
		if err := <-followed; err != nil {
			t.Error(err)
		}
		router.Close()
	}()

	answers := map[uint64]int{} // how often each task answered
	ask := func(key string) {
		t.Helper()
		ctx, cancel := context.WithTimeout(context.Background(), time.Minute)
		defer cancel()
		err := router.Send(ctx, key, func(_ context.Context, number uint64) error {
			err := attempt(tasks[number], port, key)
			if err == nil {
				answers[number]++
			}
			return err
		})
		if err != nil {
			t.Fatalf("%s: %v", key, err)
		}
	}
	until(t, "all tasks answer", func() bool {
		for key := 0; key < 50; key++ {
			ask(fmt.Sprint("key-", key))
		}
		return answers[1] > 0 && answers[2] > 0 && answers[3] > 0
	})
	third.Process.Signal(syscall.SIGTERM)
	third.Wait()
	if err := stops[0](); err != nil {
		t.Error(err)
	}
	before := answers[2]
	for key := 0; key < 200; key++ {
		ask(fmt.Sprint("key-", key))
	}
	if answers[2] == before || router.Generation() < 3 || router.Stale() > time.Minute {
		t.Error(answers, router.Generation(), router.Stale())
	}
	if err := stops[1](); err != nil {
		t.Error(err)
	}
	control.Process.Signal(syscall.SIGTERM)
	control.Wait()
	audit(t, logs)
}

// attempt asks a task for a key: one in Go, or else the one in Python.
func attempt(task *service.Task, port, key string) error {
	if task != nil {
		err := served(task, key)
		if errors.Is(err, service.ErrDenied) || errors.Is(err, service.ErrLeaseLost) {
			return service.ErrAgain
		}
		return err
	}
	answer, err := http.Get("http://127.0.0.1:" + port + "/" + key)
	if err != nil {
		return service.ErrAgain
	}
	defer answer.Body.Close()
	text, err := io.ReadAll(answer.Body)
	if err != nil || answer.StatusCode == http.StatusServiceUnavailable {
		return service.ErrAgain
	}
	if answer.StatusCode != http.StatusOK || string(text) != "3" {
		return fmt.Errorf("the task in Python says %d %s", answer.StatusCode, text)
	}
	return nil
}

// audit lets the proved program judge the logs of a job.
func audit(t *testing.T, logs string) {
	t.Helper()
	program := os.Getenv("HOURSTABLE_PROGRAM")
	if program == "" {
		t.Log("skipped, as HOURSTABLE_PROGRAM names no hourstable: the audit")
		return
	}
	found, err := filepath.Glob(filepath.Join(logs, job, "*.jsonl"))
	if err != nil || len(found) < 4 {
		t.Fatalf("the logs: %v %v", found, err)
	}
	process := python(t, "-m", "hourstable.command", "audit", "--hourstable", program, filepath.Join(logs, job))
	process.Stderr = nil
	said, err := process.CombinedOutput()
	if err != nil || !strings.HasPrefix(string(said), "audit one\n") || !strings.HasSuffix(string(said), "timely yes\n") {
		t.Errorf("%v\n%s", err, said)
	}
}

// Why keys are denied is found in the error.
func TestDenials(t *testing.T) {
	address, _, logs := plane(t)
	config := service.TaskConfig{Control: []string{address}, Job: job, Logs: logs, Policy: policy(2000)}
	config.Task = 1
	idle, err := service.NewTask(config)
	if err != nil {
		t.Fatal(err)
	}
	err = served(idle, "hello")
	if !errors.Is(err, service.ErrDenied) || !errors.Is(err, hourstable.ErrDown) {
		t.Errorf("before Run: %v", err)
	}
	if _, err := service.NewTask(config); err == nil {
		t.Error("two processes are one task")
	}
	gained := make(chan []hourstable.Range, 100)
	config.Task = 2
	config.OnGain = func(ranges []hourstable.Range) { gained <- ranges }
	one, _ := running(t, config)
	<-gained
	config.Task, config.OnGain = 3, nil
	other, _ := running(t, config)
	until(t, "each serves some keys", func() bool { return len(one.Served()) > 0 && len(other.Served()) > 0 })
	for key := 0; key < 100; key++ {
		name := fmt.Sprint("key-", key)
		first, second := served(one, name), served(other, name)
		if first == nil && second == nil {
			t.Errorf("two tasks serve %s", name)
		}
		for _, err := range []error{first, second} {
			if err != nil && !errors.Is(err, service.ErrDenied) {
				t.Error(err)
			}
		}
	}
	counts := one.Counts()
	if counts.Requests != 100 || counts.Denied["not-owned"] == 0 || counts.Lives != 1 || counts.Heard["guard"] == 0 {
		t.Errorf("%+v", counts)
	}
}

// An answer that is done after the end of the lease is none: the plane is killed, so
// that the lease is not renewed.
func TestAnAnswerAfterTheEndOfItsLease(t *testing.T) {
	address, control, logs := plane(t)
	task, _ := running(t, service.TaskConfig{
		Control: []string{address}, Job: job, Task: 1, Logs: logs, Policy: policy(4000), Oldest: 60_000,
	})
	until(t, "the task serves", func() bool { return served(task, "hello") == nil })
	err := task.Serving(context.Background(), "hello", func(_ context.Context, lease *service.Lease) error {
		if err := lease.Check(); err != nil {
			t.Error("at once:", err)
		}
		control.Process.Kill()
		until(t, "the lease ends", func() bool { return errors.Is(lease.Check(), service.ErrLeaseLost) })
		return nil
	})
	if !errors.Is(err, service.ErrLeaseLost) || task.Counts().LeaseLost != 1 {
		t.Errorf("%v %+v", err, task.Counts())
	}
	if err := served(task, "hello"); !errors.Is(err, hourstable.ErrEnded) {
		t.Errorf("a question after it: %v", err)
	}
	failure := errors.New("of the answer")
	err = task.Serving(context.Background(), "hello", func(context.Context, *service.Lease) error { return failure })
	if !errors.Is(err, service.ErrDenied) {
		t.Error(err)
	}
}

// Keys are given up only when no answer runs on them, for as long as the task waits.
func TestKeysMoveAfterTheirAnswers(t *testing.T) {
	address, _, logs := plane(t)
	config := service.TaskConfig{
		Control: []string{address}, Job: job, Logs: logs, Policy: policy(20_000), Patience: 10 * time.Second,
	}
	var mutex sync.Mutex
	var lost []hourstable.Range
	config.Task = 1
	config.OnLose = func(_ context.Context, ranges []hourstable.Range, _ uint64) {
		mutex.Lock()
		defer mutex.Unlock()
		lost = append(lost, ranges...)
	}
	one, _ := running(t, config)
	until(t, "the first task serves", func() bool { return served(one, "hello") == nil })
	var answers []chan struct{}
	ended := make(chan error, 64)
	for key := 0; key < 64; key++ { // some of them will move
		release := make(chan struct{})
		answers = append(answers, release)
		entered := make(chan struct{})
		go func(key string) {
			ended <- one.Serving(context.Background(), key, func(context.Context, *service.Lease) error {
				close(entered)
				<-release
				return nil
			})
		}(fmt.Sprint("key-", key))
		<-entered
	}
	config.Task, config.OnLose = 2, nil
	other, _ := running(t, config)
	until(t, "keys are moving", func() bool {
		for key := range answers {
			if errors.Is(served(one, fmt.Sprint("key-", key)), service.ErrMoving) {
				return true
			}
		}
		return false
	})
	if len(other.Served()) != 0 {
		t.Error("keys moved while answers ran on them")
	}
	for _, release := range answers {
		close(release)
	}
	for range answers {
		if err := <-ended; err != nil {
			t.Error(err)
		}
	}
	until(t, "the second task serves", func() bool { return len(other.Served()) > 0 })
	mutex.Lock()
	defer mutex.Unlock()
	if len(lost) == 0 {
		t.Error("nobody was told of the loss")
	}
}
