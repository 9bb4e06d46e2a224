package service

import (
	"bytes"
	"encoding/json"
	"errors"
	"fmt"
	"os"
	"path/filepath"
	"sync"
	"sync/atomic"
	"time"
)

// errOtherJob says that a log is that of a job with another policy.
var errOtherJob = errors.New("it begins with another job line")

// callLog is the log of a process: each call with its reply, in the lines of
// docs/AUDIT.md, a file a day. Each file begins with the job line. A nil log has no
// lines.
//
// What goes wrong with the log, as a full disk, stops it and not the process. It then
// lacks lines, so it goes on in a new part, which has lines of later lives alone. Until
// then a file beside it says what is missing, for which there is room: the process may end
// first, and others have logged what it sent them.
type callLog struct {
	folder, name string
	spare        spareLine
	job          []byte
	stopped      func(error) // told why the log stops

	mutex     sync.Mutex
	day       string
	file      *os.File // nil while the log is stopped
	size      int64    // of what is written to the file
	allocated int64    // to its end
	part      uint64   // 1, and one more after each stop
	next      *batch   // lines that wait for those that are being written; nil for none
	isWriting bool
	text      []byte // of those who write, one at a time: used again
	isClosed  bool
	untold    error  // why the log stopped, until stopped is told
	lost      uint64 // lines that were not written
	missing   gap    // those of them that no line has told of
	failures  backoff
	since     time.Time // when it was opened, after a stop too
	retryAt   time.Time // when a log that is stopped is tried again
}

// probe is how much room a log that was stopped needs before it goes on.
const probe = 1 << 16

// gap says what a log lacks before its line.
type gap struct {
	Lines uint64 `json:"lines"`
	From  uint64 `json:"from"` // ticket of the first
	Until uint64 `json:"until"`
}

// line returns the line that says it.
func (g gap) line() []byte {
	return []byte(fmt.Sprintf(`{"gap":{"lines":%d,"from":%d,"until":%d}}`+"\n", g.Lines, g.From, g.Until))
}

// batch is lines that are written together, so that who writes side by side waits for
// one write.
type batch struct {
	part  uint64
	lines [][]byte
	turn  chan struct{} // has something for one of those who wait, when it is to write the batch
	done  chan struct{} // closed once it is written
}

// jobLine returns the first line of a log of a job with these members of a policy.
func jobLine(policy map[string]any) ([]byte, error) {
	job := map[string]any{"assigners": 8, "tasks": 64, "clerks": 128}
	for name, value := range policy {
		job[name] = value
	}
	return json.Marshal(map[string]any{"job": job})
}

// openLog opens a log. An error if the file of today is of another job; after any
// other the log is stopped. stopped may be called by any goroutine that writes.
func openLog(folder, name string, job []byte, stopped func(error)) (*callLog, error) {
	made := &callLog{
		folder: folder, name: name, job: job, stopped: stopped, part: 1, since: time.Now(),
		spare:    spareLine(filepath.Join(folder, name+"-gap.jsonl")),
		failures: backoff{least: time.Second, most: 5 * time.Minute},
	}
	defer made.tell()
	made.mutex.Lock()
	defer made.mutex.Unlock()
	made.missing = made.spare.read() // of the process before
	err := made.turn(utcDay())
	if errors.Is(err, errOtherJob) {
		return nil, err
	}
	if err == nil {
		err = made.tellGap()
	}
	if err != nil {
		made.stop(err)
	}
	return made, nil
}

func utcDay() string {
	day := time.Now().Unix() / 86_400
	if known := lastDay.Load(); known != nil && known.number == day {
		return known.text
	}
	made := &dayText{day, time.Unix(day*86_400, 0).UTC().Format("2006-01-02")}
	lastDay.Store(made)
	return made.text
}

// dayText is a day, as the number of days since 1970 and as YYYY-MM-DD.
type dayText struct {
	number int64
	text   string
}

var lastDay atomic.Pointer[dayText] // as it is written for each line

// turn goes on in the file of a day.
func (l *callLog) turn(day string) error {
	if err := os.MkdirAll(l.folder, 0o700); err != nil {
		return err
	}
	path := filepath.Join(l.folder, l.name+"."+day+".jsonl")
	file, err := os.OpenFile(path, os.O_RDWR|os.O_CREATE|os.O_APPEND, 0o600)
	if err != nil {
		return err
	}
	if err := l.begin(file); err != nil {
		file.Close()
		return fmt.Errorf("%s: %w", path, err)
	}
	found, err := file.Stat()
	if err != nil {
		file.Close()
		return err
	}
	if l.file != nil {
		if before, err := l.file.Stat(); err == nil {
			l.file.Truncate(before.Size()) // what was allocated beyond it is free again
		}
		l.file.Close()
	}
	l.file, l.day = file, day
	l.size, l.allocated = found.Size(), found.Size()
	return nil
}

// reserve allocates room for what is written next. A disk that is full refuses the next
// segment while the last one has room, and so tears no line.
func (l *callLog) reserve(length int) error {
	needed := l.size + int64(length) + spare
	if needed <= l.allocated {
		return nil
	}
	if err := allocate(l.file, l.size, needed+segment-l.size); err != nil {
		return err
	}
	l.allocated = needed + segment
	return nil
}

// begin mends the last line, and writes the job line if the file is new.
func (l *callLog) begin(file *os.File) error {
	size, err := mend(file)
	if err != nil {
		return err
	}
	first := append(append([]byte{}, l.job...), '\n')
	if size == 0 {
		_, err := file.Write(first)
		return err
	}
	found := make([]byte, len(first))
	if _, err := file.ReadAt(found, 0); err != nil || !bytes.Equal(found, first) {
		return errOtherJob
	}
	return nil
}

// mend ends a last line that was torn, or leaves it out if it is no JSON text, and
// returns the size of the file.
func mend(file *os.File) (int64, error) {
	found, err := file.Stat()
	if err != nil {
		return 0, err
	}
	var torn []byte
	start, isWhole := found.Size(), false
	for start > 0 && !isWhole {
		step := int64(1 << 16)
		if step > start {
			step = start
		}
		start -= step
		before := make([]byte, step)
		if _, err := file.ReadAt(before, start); err != nil {
			return 0, err
		}
		end := bytes.LastIndexByte(before, '\n')
		isWhole = end >= 0
		torn = append(before[end+1:], torn...)
	}
	switch size := found.Size(); {
	case len(torn) == 0:
		return size, nil
	case json.Valid(torn):
		_, err := file.Write([]byte("\n"))
		return size + 1, err
	default:
		size -= int64(len(torn))
		return size, file.Truncate(size)
	}
}

// stop stops the log for a while; the mutex is held.
func (l *callLog) stop(why error) {
	if l.file != nil {
		l.file.Close()
	}
	l.file = nil
	l.part++
	if time.Since(l.since) > l.failures.most {
		l.failures.reset()
	}
	l.retryAt = time.Now().Add(l.failures.wait())
	if !l.isClosed {
		l.untold = why
	}
}

// tell tells why the log stopped; the mutex is not held.
func (l *callLog) tell() {
	l.mutex.Lock()
	why := l.untold
	l.untold = nil
	l.mutex.Unlock()
	if why != nil {
		l.stopped(why)
	}
}

// isOpen says whether lines are written. It tries to open a log that is stopped, from
// time to time; the mutex is held.
func (l *callLog) isOpen() bool {
	if l.file != nil {
		return true
	}
	if l.isClosed || time.Now().Before(l.retryAt) {
		return false
	}
	err := l.turn(utcDay())
	if err == nil {
		err = l.prove()
	}
	if err != nil {
		l.stop(err)
	}
	l.since = time.Now()
	return err == nil
}

// prove writes a line that is blank and takes it back: a file on a full disk can be
// opened, and its last block may have room for a line.
func (l *callLog) prove() error {
	found, err := l.file.Stat()
	if err != nil {
		return err
	}
	_, err = l.file.Write(append(bytes.Repeat([]byte(" "), probe), '\n'))
	if failed := l.file.Truncate(found.Size()); err == nil {
		err = failed
	}
	l.allocated = found.Size() // and no more, since it was cut
	return err
}

// open returns the part of the log in which a new life writes, 0 while the log is
// stopped. Before its lines one says what is missing.
func (l *callLog) open() (part uint64) {
	if l == nil {
		return 0
	}
	defer l.tell()
	l.mutex.Lock()
	defer l.mutex.Unlock()
	if !l.isOpen() {
		return 0
	}
	if err := l.tellGap(); err != nil {
		l.stop(err)
		return 0
	}
	return l.part
}

// tellGap writes what is missing, and makes room to say what will be; the mutex is held.
func (l *callLog) tellGap() error {
	if l.missing.Lines > 0 {
		text := l.missing.line()
		if _, err := l.file.Write(text); err != nil {
			return err
		}
		l.size += int64(len(text))
		l.missing = gap{}
	}
	_ = l.spare.clear()
	return nil
}

// lose counts lines that are not written; the mutex is held.
func (l *callLog) lose(lines [][]byte) {
	for _, line := range lines {
		var call struct{ Ticket uint64 }
		if json.Unmarshal(line, &call) != nil {
			continue
		}
		l.lost++
		if l.missing.Lines++; l.missing.From == 0 || call.Ticket < l.missing.From {
			l.missing.From = call.Ticket
		}
		if call.Ticket > l.missing.Until {
			l.missing.Until = call.Ticket
		}
	}
	if l.missing.Lines > 0 {
		_ = l.spare.write(l.missing.line()) // none if it was never made
	}
}

// goesOn says whether the log can be written again, after the part of a life.
func (l *callLog) goesOn(part uint64) bool {
	if l == nil {
		return false
	}
	defer l.tell()
	l.mutex.Lock()
	defer l.mutex.Unlock()
	return (l.file == nil || part != l.part) && l.isOpen()
}

// append writes lines to a part of the log, which the system has when this returns.
// If the log is stopped or in a later part, they are lost.
func (l *callLog) append(part uint64, lines ...[]byte) {
	if l == nil || len(lines) == 0 {
		return
	}
	defer l.tell()
	l.mutex.Lock()
	defer l.mutex.Unlock()
	if l.file == nil || part != l.part {
		l.lose(lines)
		return
	}
	if !l.isWriting { // and so nobody waits
		l.isWriting = true
		l.write(part, lines)
	} else {
		mine := l.joined(lines)
		l.mutex.Unlock()
		select {
		case <-mine.done:
			l.mutex.Lock()
			return
		case <-mine.turn:
			l.mutex.Lock()
		}
		l.next = nil
		l.write(mine.part, mine.lines)
		close(mine.done)
	}
	if l.isWriting = l.next != nil; l.isWriting {
		l.next.turn <- struct{}{}
	}
}

// joined returns the batch that is written next, with these lines; the mutex is held.
func (l *callLog) joined(lines [][]byte) *batch {
	if l.next == nil {
		l.next = &batch{part: l.part, turn: make(chan struct{}, 1), done: make(chan struct{})}
	}
	l.next.lines = append(l.next.lines, lines...)
	return l.next
}

// write writes lines to a part. The mutex is held, but for the write itself.
func (l *callLog) write(part uint64, lines [][]byte) {
	if day := utcDay(); l.file != nil && day != l.day {
		if err := l.turn(day); err != nil {
			l.stop(err)
		}
	}
	if l.file == nil || part != l.part { // it stopped while they waited
		l.lose(lines)
		return
	}
	text := l.text[:0]
	for _, line := range lines {
		text = append(append(text, line...), '\n')
	}
	file := l.file
	l.text = text // one at a time writes
	err := l.reserve(len(text))
	if err == nil {
		l.mutex.Unlock()
		_, err = file.Write(text)
		l.mutex.Lock()
	}
	if err != nil {
		l.lose(lines)
		l.stop(err)
		return
	}
	l.size += int64(len(text))
}

// lacks returns how many lines were not written.
func (l *callLog) lacks() uint64 {
	if l == nil {
		return 0
	}
	l.mutex.Lock()
	defer l.mutex.Unlock()
	return l.lost
}

func (l *callLog) close() {
	if l == nil {
		return
	}
	l.mutex.Lock()
	defer l.mutex.Unlock()
	if l.isOpen() {
		l.tellGap() // if the disk takes it
		l.file.Close()
	}
	l.file, l.isClosed = nil, true
}
