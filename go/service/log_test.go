package service

import (
	"context"
	"encoding/json"
	"errors"
	"fmt"
	"os"
	"path/filepath"
	"strings"
	"sync"
	"syscall"
	"testing"
	"time"
	"unsafe"
)

// linesOf returns the calls in the log of task 1, in their order.
func linesOf(t *testing.T, logs string) []map[string]any {
	t.Helper()
	found, err := filepath.Glob(filepath.Join(logs, "shop", "task-1.*.jsonl"))
	if err != nil || len(found) == 0 {
		t.Fatal(found, err)
	}
	var made []map[string]any
	for _, path := range found {
		text, err := os.ReadFile(path)
		if err != nil {
			t.Fatal(err)
		}
		for _, line := range strings.Split(strings.TrimSuffix(string(text), "\n"), "\n")[1:] {
			var call map[string]any
			if err := json.Unmarshal([]byte(line), &call); err != nil {
				t.Fatalf("%q: %v", line, err)
			}
			made = append(made, call)
		}
	}
	return made
}

// full lets the log of a task write to a disk that is full.
func full(t *testing.T, task *Task) {
	t.Helper()
	file, err := os.OpenFile("/dev/full", os.O_RDWR, 0)
	if err != nil {
		t.Skipf("skipped, as there is no /dev/full: %v", err)
	}
	task.log.mutex.Lock()
	defer task.log.mutex.Unlock()
	task.log.file = file
}

// A full disk stops the log and not the task, which begins a new life once there is room: then no line is missing
// within a life.
func TestAFullDiskStopsTheLogAlone(t *testing.T) {
	job := newJob(t, 2000)
	logs := t.TempDir()
	task := runs(t, TaskConfig{Control: []string{job.plane().URL}, Logs: logs})
	eventually(t, "the task serves", func() bool { return task.serves("hello") })
	blocker := filepath.Join(logs, "elsewhere") // while it is there, no file of the log can be opened
	if err := os.Rename(filepath.Join(logs, "shop"), blocker); err != nil {
		t.Fatal(err)
	}
	if err := os.WriteFile(filepath.Join(logs, "shop"), nil, 0o600); err != nil {
		t.Fatal(err)
	}
	full(t, task.Task)
	if !task.serves("hello") {
		t.Error("the task does not serve")
	}
	task.renews(t)
	counts := task.Counts()
	if counts.Unlogged < 3 || counts.Internal["log"] == 0 || counts.Lives != 1 {
		t.Errorf("%+v", counts)
	}
	if err := os.Remove(filepath.Join(logs, "shop")); err != nil {
		t.Fatal(err)
	}
	if err := os.Rename(blocker, filepath.Join(logs, "shop")); err != nil {
		t.Fatal(err)
	}
	eventually(t, "a new life is logged", func() bool { return task.Counts().Lives == 2 && task.serves("hello") })
	missing := 0.0
	for _, call := range linesOf(t, logs) {
		if gap, isGap := call["gap"].(map[string]any); isGap {
			missing, _ = gap["lines"].(float64)
			if from, until := gap["from"].(float64), gap["until"].(float64); from <= 0 || from >= until {
				t.Error(gap)
			}
		} else if missing > 0 {
			if call["do"] != "open" || call["life"] != 1.0 {
				t.Errorf("after the gap comes %v, and no life begins", call)
			}
			break
		}
	}
	if uint64(missing) < counts.Unlogged {
		t.Errorf("%v lines are missing, not %d", missing, counts.Unlogged)
	}
}

// A log is written to room that was allocated ahead, and gives back at the end of a day what it does not need.
func TestALogIsAllocatedAhead(t *testing.T) {
	folder := t.TempDir()
	probe, err := os.Create(filepath.Join(folder, "probe"))
	if err != nil {
		t.Fatal(err)
	}
	defer probe.Close()
	if err := syscall.Fallocate(int(probe.Fd()), 1, 0, 1<<20); err != nil {
		t.Skipf("skipped, as the file system allocates nothing ahead: %v", err)
	}
	log, err := openLog(folder, "task-1", []byte(`{"job":{}}`), func(why error) { t.Error(why) })
	if err != nil {
		t.Fatal(err)
	}
	defer log.close()
	path := filepath.Join(folder, "task-1."+utcDay()+".jsonl")
	ahead := func(of string) int64 { // bytes that are allocated and not written
		t.Helper()
		var found syscall.Stat_t
		if err := syscall.Stat(of, &found); err != nil {
			t.Fatal(err)
		}
		return found.Blocks*512 - found.Size
	}
	line := []byte(`{"ticket":` + strings.Repeat("1", 1000) + "}")
	written := int64(len(`{"job":{}}`) + 1)
	for range [3000]int{} { // beyond two segments
		log.append(log.open(), line)
		written += int64(len(line)) + 1
		if found := ahead(path); found < spare {
			t.Fatalf("%d bytes are allocated ahead", found)
		}
	}
	if found, err := os.Stat(path); err != nil || found.Size() != written {
		t.Error(found, err)
	}
	log.mutex.Lock()
	err = log.turn("2001-02-03")
	log.mutex.Unlock()
	if err != nil {
		t.Fatal(err)
	}
	if found, err := os.Stat(path); err != nil || found.Size() != written || ahead(path) >= segment {
		t.Error(found, ahead(path), err)
	}
}

// A file on a full disk can be opened. That does not end a life.
func TestALogThatIsOpenedOnAFullDisk(t *testing.T) {
	folder := t.TempDir()
	var whys []error
	log, err := openLog(folder, "task-1", []byte(`{"job":{}}`), func(why error) { whys = append(whys, why) })
	if err != nil {
		t.Fatal(err)
	}
	defer log.close()
	part := log.open()
	path := filepath.Join(folder, "task-1."+utcDay()+".jsonl")
	if err := os.Remove(path); err != nil {
		t.Fatal(err)
	}
	if err := os.Symlink("/dev/full", path); err != nil {
		t.Skipf("skipped: %v", err)
	}
	log.file.Close() // the next write fails
	log.failures = backoff{}
	log.append(part, []byte(`{"ticket":70}`))
	for range [3]int{} {
		if log.goesOn(part) {
			t.Error("it goes on")
		}
	}
	if log.lacks() != 1 || len(whys) < 2 {
		t.Error(log.lacks(), whys)
	}
	if err := os.Remove(path); err != nil {
		t.Fatal(err)
	}
	if !log.goesOn(part) {
		t.Error("there is room, and it does not go on")
	}
	log.append(part, []byte(`{"ticket":90}`), []byte(`{"ticket":80}`)) // of the life with the gap
	log.append(log.open(), []byte(`{"ticket":100}`))
	wanted := `{"job":{}}` + "\n" + `{"gap":{"lines":3,"from":70,"until":90}}` + "\n" + `{"ticket":100}` + "\n"
	if text, _ := os.ReadFile(path); string(text) != wanted {
		t.Errorf("%q", text)
	}
}

// A process may end while its disk is full, and the next one begin on it: a file beside the log says what is missing, and
// the log once there is room.
func TestALogThatEndsOnAFullDisk(t *testing.T) {
	folder := t.TempDir()
	path, beside := filepath.Join(folder, "task-1."+utcDay()+".jsonl"), filepath.Join(folder, "task-1-gap.jsonl")
	open := func() *callLog {
		log, err := openLog(folder, "task-1", []byte(`{"job":{}}`), func(error) {})
		if err != nil {
			t.Fatal(err)
		}
		return log
	}
	told := func(of string) string {
		text, err := os.ReadFile(of)
		if err != nil {
			t.Fatal(err)
		}
		return strings.TrimRight(string(text), "\n")
	}
	log := open()
	if found, err := os.Stat(beside); err != nil || found.Size() != room || told(beside) != "" {
		t.Error(found, err)
	}
	if err := os.Rename(path, path+".kept"); err != nil {
		t.Fatal(err)
	}
	if err := os.Symlink(sealed(t, "{\"job\":{}}\n"), path); err != nil {
		t.Fatal(err)
	}
	for _, ticket := range []string{"70", "80"} { // two processes, each of which is killed
		part := log.open()
		log.mutex.Lock()
		log.stop(errors.New("the disk is full"))
		log.mutex.Unlock()
		log.append(part, []byte(`{"ticket":`+ticket+`}`))
		log = open()
	}
	log.close()
	if found := told(beside); found != `{"gap":{"lines":2,"from":70,"until":80}}` {
		t.Errorf("%q", found)
	}
	if err := os.Rename(path+".kept", path); err != nil {
		t.Fatal(err)
	}
	log = open()
	log.append(log.open(), []byte(`{"ticket":90}`))
	log.close()
	if found := told(path); found != `{"job":{}}`+"\n"+`{"gap":{"lines":2,"from":70,"until":80}}`+"\n"+`{"ticket":90}` {
		t.Errorf("%q", found)
	}
	if found := told(beside); found != "" {
		t.Errorf("%q", found)
	}
}

// A crash may tear the line that is written over. It then says nothing.
func TestASpareLineThatIsTorn(t *testing.T) {
	line := spareLine(filepath.Join(t.TempDir(), "task-1-gap.jsonl"))
	if err := os.WriteFile(string(line), []byte(`{"gap":{"lines":2,`), 0o600); err != nil {
		t.Fatal(err)
	}
	if line.read() != (gap{}) || line.clear() != nil || line.read() != (gap{}) {
		t.Error("it says something")
	}
	for _, wanted := range []gap{{1 << 40, 1<<64 - 1, 1<<64 - 1}, {1, 2, 2}} {
		if err := line.write(wanted.line()); err != nil || line.read() != wanted {
			t.Error(err, line.read())
		}
	}
}

// sealed returns the path of a file with a text that takes no more, as one on a full disk.
func sealed(t *testing.T, text string) string {
	t.Helper()
	const memfdCreate, allowSealing, addSeals, sealGrow = 319, 2, 1033, 4 // of Linux on x86-64
	name := []byte("log\x00")
	number, _, failed := syscall.Syscall(memfdCreate, uintptr(unsafe.Pointer(&name[0])), allowSealing, 0)
	if failed != 0 {
		t.Skipf("skipped, as the system has no file that can be sealed: %v", failed)
	}
	file := os.NewFile(number, "log")
	t.Cleanup(func() { file.Close() })
	if _, err := file.WriteString(text); err != nil {
		t.Fatal(err)
	}
	if _, _, failed := syscall.Syscall(syscall.SYS_FCNTL, number, addSeals, sealGrow); failed != 0 {
		t.Fatal(failed)
	}
	return fmt.Sprintf("/proc/self/fd/%d", number)
}

// The file of a log on a full disk can be opened and read.
func TestALogOnADiskThatIsStillFull(t *testing.T) {
	folder := t.TempDir()
	log, err := openLog(folder, "task-1", []byte(`{"job":{}}`), func(error) {})
	if err != nil {
		t.Fatal(err)
	}
	defer log.close()
	part := log.open()
	path := filepath.Join(folder, "task-1."+utcDay()+".jsonl")
	if err := os.Remove(path); err != nil {
		t.Fatal(err)
	}
	if err := os.Symlink(sealed(t, "{\"job\":{}}\n"), path); err != nil {
		t.Fatal(err)
	}
	log.failures = backoff{}
	log.mutex.Lock()
	log.stop(errors.New("the disk is full"))
	log.mutex.Unlock()
	if log.goesOn(part) || log.open() != 0 {
		t.Error("it goes on, and there is no room")
	}
	if err := os.Remove(path); err != nil {
		t.Fatal(err)
	}
	if !log.goesOn(part) || log.open() == 0 {
		t.Error("there is room, and it does not go on")
	}
}

// A line of a life with a gap does not join those that wait for others to be written.
func TestALineOfAnotherLife(t *testing.T) {
	log, err := openLog(t.TempDir(), "task-1", []byte(`{"job":{}}`), func(error) {})
	if err != nil {
		t.Fatal(err)
	}
	defer log.close()
	part := log.open()
	log.mutex.Lock()
	log.part++
	log.isWriting = true // another goroutine writes
	log.mutex.Unlock()
	lost := make(chan struct{})
	go func() {
		defer close(lost)
		log.append(part, []byte(`{"ticket":70}`))
	}()
	select {
	case <-lost:
		if log.lacks() != 1 {
			t.Errorf("%d lines are lost", log.lacks())
		}
	case <-time.After(10 * time.Second):
		t.Error("it waits to be written")
	}
}

// A log that has stopped is opened again after a wait, and not for each line.
func TestALogThatIsStoppedWaits(t *testing.T) {
	log, err := openLog(t.TempDir(), "task-1", []byte(`{"job":{}}`), func(error) {})
	if err != nil {
		t.Fatal(err)
	}
	defer log.close()
	part := log.open()
	log.failures = backoff{least: time.Hour, most: time.Hour}
	log.mutex.Lock()
	log.stop(errors.New("the disk is full"))
	log.mutex.Unlock()
	if log.goesOn(part) || log.open() != 0 {
		t.Error("it is opened at once")
	}
	log.retryAt = time.Now()
	if !log.goesOn(part) {
		t.Error("it is not opened after its wait")
	}
}

// Lines wait for others to be written, while the log stops and goes on in a new part: it tells of them as lost.
func TestLinesThatWaitThroughAStop(t *testing.T) {
	folder := t.TempDir()
	log, err := openLog(folder, "task-1", []byte(`{"job":{}}`), func(error) {})
	if err != nil {
		t.Fatal(err)
	}
	defer log.close()
	part := log.open()
	log.mutex.Lock()
	log.stop(errors.New("the disk is full"))
	log.retryAt = time.Now()
	if !log.isOpen() {
		t.Fatal("it is not opened")
	}
	log.write(part, [][]byte{[]byte(`{"ticket":70}`)})
	log.mutex.Unlock()
	log.append(log.open(), []byte(`{"ticket":80}`))
	wanted := `{"job":{}}` + "\n" + `{"gap":{"lines":1,"from":70,"until":70}}` + "\n" + `{"ticket":80}` + "\n"
	if text, _ := os.ReadFile(filepath.Join(folder, "task-1."+utcDay()+".jsonl")); string(text) != wanted {
		t.Errorf("%q", text)
	}
}

// A start with a disk on which the log cannot be opened.
func TestATaskWhoseLogCannotBeOpened(t *testing.T) {
	job := newJob(t, 2000)
	logs, state := t.TempDir(), t.TempDir()
	if err := os.WriteFile(filepath.Join(logs, "shop"), nil, 0o600); err != nil { // in place of the folder
		t.Fatal(err)
	}
	task := runs(t, TaskConfig{Control: []string{job.plane().URL}, Logs: logs, State: state})
	eventually(t, "the task serves", func() bool { return task.serves("hello") })
	if task.Counts().Internal["log"] == 0 || task.Counts().Unlogged == 0 {
		t.Errorf("%+v", task.Counts())
	}
	if _, err := os.Stat(filepath.Join(state, "shop", "task-1.ticket")); err != nil {
		t.Error(err)
	}
}

func TestATaskWithNoLog(t *testing.T) {
	job := newJob(t, 2000)
	t.Setenv("TMPDIR", t.TempDir())
	before, _ := os.Getwd()
	if err := os.Chdir(t.TempDir()); err != nil {
		t.Fatal(err)
	}
	defer os.Chdir(before)
	task := runs(t, TaskConfig{Control: []string{job.plane().URL}})
	eventually(t, "the task serves", func() bool { return task.serves("hello") })
	task.renews(t)
	if found, _ := filepath.Glob("*"); len(found) != 0 || task.Counts().Unlogged != 0 {
		t.Error(found, task.Counts())
	}
}

// A log that is thinned has all calls of an answer or none, and all other calls.
func TestAThinnedLog(t *testing.T) {
	for _, part := range []float64{1e-12, 0.5, 1} {
		job := newJob(t, 600_000)
		logs := t.TempDir()
		task := runs(t, TaskConfig{Control: []string{job.plane().URL}, Logs: logs, Sample: part})
		eventually(t, "the task has a lease", func() bool { return len(task.Served()) > 0 })
		for range [200]int{} {
			if !task.serves("hello") {
				t.Fatal("the task does not serve")
			}
		}
		counts := map[any]int{}
		for _, call := range linesOf(t, logs) {
			counts[call["do"]]++
		}
		if counts["open"] != 1 || counts["start"] != 1 || counts["hear"] == 0 || counts["sample"] < counts["hear"] {
			t.Errorf("%v: %v", part, counts)
		}
		least, most := 0, 0
		switch part {
		case 0.5:
			least, most = 40, 160 // of 200: chance goes beyond in one of 10^17 tests
		case 1:
			least, most = 200, 200
		}
		answers := counts["hold"]
		if answers < least || answers > most || counts["check"] != answers || counts["serve"] != 0 {
			t.Errorf("%v: %v", part, counts)
		}
	}
}

// What a task writes is for its user alone.
func TestFilesAreOfTheirUserAlone(t *testing.T) {
	defer syscall.Umask(syscall.Umask(0))
	job := newJob(t, 2000)
	logs, state := filepath.Join(t.TempDir(), "logs"), filepath.Join(t.TempDir(), "state")
	task := runs(t, TaskConfig{Control: []string{job.plane().URL}, Logs: logs, State: state})
	eventually(t, "the task serves", func() bool { return task.serves("hello") })
	found := 0
	for _, folder := range []string{logs, state} {
		filepath.Walk(folder, func(path string, info os.FileInfo, err error) error {
			if err != nil || info.Mode().Perm()&0o077 != 0 {
				t.Error(path, info.Mode(), err)
			}
			found++
			return nil
		})
	}
	if found != 8 { // two folders in each of two, and a file in each, the lock, and the file of gaps
		t.Errorf("%d files and folders", found)
	}
}

// Readers of one task do not wait for each other: all of them ask while the line of the first is being written.
func TestReadersGoSideBySide(t *testing.T) {
	job := newJob(t, 600_000)
	task := runs(t, TaskConfig{Control: []string{job.plane().URL}, Logs: t.TempDir(), Report: time.Hour})
	eventually(t, "the task serves", func() bool { return task.serves("hello") })
	out, in, err := os.Pipe()
	if err != nil {
		t.Fatal(err)
	}
	task.log.mutex.Lock()
	file := task.log.file
	task.log.file = in
	task.log.mutex.Unlock()
	fill(t, in)
	waiting := func() int { // lines
		task.log.mutex.Lock()
		defer task.log.mutex.Unlock()
		if task.log.next == nil {
			return 0
		}
		return len(task.log.next.lines)
	}
	const readers = 8
	var entered sync.WaitGroup
	entered.Add(readers)
	for range [readers]int{} {
		go func() {
			defer entered.Done()
			task.Serving(context.Background(), "hello", func(context.Context, *Lease) error { return nil })
		}()
	}
	eventually(t, "all readers but the first have asked", func() bool { return waiting() == readers-1 })
	task.Counts() // nor do they keep up who looks at the task
	task.Served()
	drained := make(chan struct{})
	go func() {
		defer close(drained)
		room := make([]byte, 1<<16)
		for {
			if _, err := out.Read(room); err != nil {
				return
			}
		}
	}()
	entered.Wait()
	task.log.mutex.Lock()
	task.log.file = file
	task.log.mutex.Unlock()
	in.Close()
	<-drained
	out.Close()
}

// fill fills a pipe, so that the next write to it waits.
func fill(t *testing.T, in *os.File) {
	t.Helper()
	for _, size := range []int{1 << 20, 1} {
		for isFull := false; !isFull; {
			in.SetWriteDeadline(time.Now().Add(100 * time.Millisecond))
			_, err := in.Write(make([]byte, size))
			if isFull = errors.Is(err, os.ErrDeadlineExceeded); !isFull && err != nil {
				t.Fatal(err)
			}
		}
	}
	in.SetWriteDeadline(time.Time{})
}

func TestLogs(t *testing.T) {
	folder := t.TempDir()
	path := filepath.Join(folder, "task-1."+utcDay()+".jsonl")
	tell := func(ticket uint64) {
		t.Helper()
		log, err := openLog(folder, "task-1", []byte(`{"job":{}}`), func(why error) { t.Error(why) })
		if err != nil {
			t.Fatal(err)
		}
		defer log.close()
		log.append(log.open(), []byte(fmt.Sprintf(`{"at":7,"do":"start","reply":"started 1","ticket":%d}`, ticket)))
	}
	holds := func(wanted string) {
		t.Helper()
		if text, _ := os.ReadFile(path); string(text) != wanted {
			t.Errorf("%q, not %q", text, wanted)
		}
	}
	line := func(ticket string) string {
		return `{"at":7,"do":"start","reply":"started 1","ticket":` + ticket + "}\n"
	}
	tell(1)
	holds("{\"job\":{}}\n" + line("1"))
	for _, torn := range []string{`{"at":8,"do":"st`, strings.Repeat(" ", 100_000)} {
		text, _ := os.ReadFile(path)
		os.WriteFile(path, append(text, torn...), 0o600)
		tell(2)
		holds(string(text) + line("2"))
	}
	text, _ := os.ReadFile(path)
	os.WriteFile(path, text[:len(text)-1], 0o600) // its end is torn
	tell(3)
	holds(string(text) + line("3"))
	os.WriteFile(path, []byte(`{"jo`), 0o600) // the job line is torn
	tell(4)
	holds("{\"job\":{}}\n" + line("4"))
	if _, err := openLog(folder, "task-1", []byte(`{"job":1}`), nil); err == nil {
		t.Error("the log of another job is opened")
	}
}
