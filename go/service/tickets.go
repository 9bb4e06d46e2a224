package service

import (
	"bytes"
	"encoding/binary"
	"errors"
	"fmt"
	"io"
	"os"
	"path/filepath"
	"strconv"
	"sync"
	"syscall"
)

const (
	processBits = 8
	counterBits = 8
	places      = uint64(1) << 56
	aheadPlaces = uint64(10_000) << counterBits // by which the file is ahead of the places drawn
	mostSeen    = uint64(1) << 47               // milliseconds of a ticket that is observed, in the year 6429
)

// The file of tickets is that of the package in Python.
const (
	fileLength = 80
	magicAt    = 0  // 24 bytes
	bootAt     = 24 // 40 bytes: the boot in which the last place was written
	ceilingAt  = 64 // above each place that was ever drawn; it is on the disk
	lastAt     = 72 // drawn; it may be on no disk
	magic      = "hourstable-ticket"
)

// tickets draws the tickets of a process: numbers that keep the order of cause over
// processes that share no counter. A place, which is a ticket without the number of
// its process, is above all that were drawn or observed before. The places of a
// task only follow those of the table.
type tickets struct {
	mutex   sync.Mutex
	process uint64
	last    uint64
	file    *os.File
	memory  []byte
	passed  uint64 // tickets that were not observed
	unkept  uint64 // times that the disk did not take the places
}

// openTickets opens the file of a process, which is locked: no other process draws
// from it. With no path nothing outlasts the process.
func openTickets(process uint8, path string) (*tickets, error) {
	made := &tickets{process: uint64(process)}
	if path == "" {
		return made, nil
	}
	if err := os.MkdirAll(filepath.Dir(path), 0o700); err != nil {
		return nil, err
	}
	file, err := os.OpenFile(path, os.O_RDWR|os.O_CREATE, 0o600)
	if err != nil {
		return nil, err
	}
	if err := made.open(file); err != nil {
		file.Close()
		return nil, fmt.Errorf("%s: %w", path, err)
	}
	return made, nil
}

// moveTickets moves a file of tickets, unless there is one at its new place. An error if
// a process has it.
func moveTickets(from, to string) error {
	file, err := os.Open(from)
	if errors.Is(err, os.ErrNotExist) || errors.Is(err, syscall.ENOTDIR) {
		return nil
	}
	if err != nil {
		return err
	}
	defer file.Close()
	if _, err := os.Stat(to); !errors.Is(err, os.ErrNotExist) {
		return err
	}
	if err := syscall.Flock(int(file.Fd()), syscall.LOCK_EX|syscall.LOCK_NB); err != nil {
		return fmt.Errorf("%s: another process draws from it: %w", from, err)
	}
	if err := os.MkdirAll(filepath.Dir(to), 0o700); err != nil {
		return err
	}
	text, err := io.ReadAll(io.LimitReader(file, fileLength+1))
	if err != nil {
		return err
	}
	if err := os.WriteFile(to+".new", text, 0o600); err != nil { // it may be on another disk
		return err
	}
	if err := os.Rename(to+".new", to); err != nil {
		return err
	}
	return os.Remove(from)
}

func (t *tickets) open(file *os.File) error {
	if err := syscall.Flock(int(file.Fd()), syscall.LOCK_EX|syscall.LOCK_NB); err != nil {
		return fmt.Errorf("another process draws from it: %w", err)
	}
	found, err := file.Stat()
	if err != nil {
		return err
	}
	if found.Size() == 0 {
		if _, err := file.WriteAt(make([]byte, fileLength), 0); err != nil {
			return err
		}
	} else if found.Size() != fileLength {
		return fmt.Errorf("it is no file of tickets")
	}
	memory, err := syscall.Mmap(int(file.Fd()), 0, fileLength, syscall.PROT_READ|syscall.PROT_WRITE, syscall.MAP_SHARED)
	if err != nil {
		return err
	}
	name := bytes.TrimRight(memory[magicAt:bootAt], "\x00")
	if len(bytes.Trim(memory, "\x00")) != 0 && string(name) != magic {
		syscall.Munmap(memory)
		return fmt.Errorf("it is no file of tickets")
	}
	copy(memory[magicAt:bootAt], magic)
	t.file, t.memory = file, memory
	t.last = t.lastDrawn()
	return nil
}

// lastDrawn returns a place that is not below the last one that was drawn.
func (t *tickets) lastDrawn() uint64 {
	boot := make([]byte, ceilingAt-bootAt)
	id, _ := os.ReadFile("/proc/sys/kernel/random/boot_id")
	copy(boot, bytes.TrimSpace(id))
	ceiling, last := t.number(ceilingAt), t.number(lastAt)
	if len(id) > 0 && bytes.Equal(boot, t.memory[bootAt:ceilingAt]) && last < ceiling {
		return last
	}
	copy(t.memory[bootAt:ceilingAt], boot)
	if ceiling > 0 {
		ceiling--
	}
	t.put(lastAt, ceiling)
	return ceiling
}

func (t *tickets) number(at int) uint64 { return binary.LittleEndian.Uint64(t.memory[at:]) }

func (t *tickets) put(at int, number uint64) { binary.LittleEndian.PutUint64(t.memory[at:], number) }

// draw returns a ticket above all that were drawn or observed before. A disk that
// does not take the places is counted, and stops nobody: a crash of the machine may
// then lose the order of the last tickets.
func (t *tickets) draw() (uint64, error) {
	t.mutex.Lock()
	defer t.mutex.Unlock()
	place := t.last + 1
	if place >= places-aheadPlaces {
		return 0, fmt.Errorf("no ticket is left")
	}
	if t.memory != nil {
		if place >= t.number(ceilingAt) {
			t.put(ceilingAt, place+aheadPlaces+1)
			if t.file.Sync() != nil {
				t.unkept++
			}
		}
		t.put(lastAt, place)
	}
	t.last = place
	return place<<processBits | t.process, nil
}

// observe takes the ticket in the header of an answer, before its effects draw one. One
// that is no number, or that no clock shows, is not observed, and counted: it would use
// up the tickets of all. The real time of this host does not matter, as it may be wrong.
func (t *tickets) observe(text string) {
	if text == "" {
		return
	}
	ticket, err := strconv.ParseUint(text, 10, 64)
	t.mutex.Lock()
	defer t.mutex.Unlock()
	if err != nil || ticket>>(processBits+counterBits) >= mostSeen {
		t.passed++
	} else if place := ticket >> processBits; place > t.last {
		t.last = place
	}
}

// counts returns how many tickets were not observed, and how often the disk did not
// take the places.
func (t *tickets) counts() (passed, unkept uint64) {
	t.mutex.Lock()
	defer t.mutex.Unlock()
	return t.passed, t.unkept
}

func (t *tickets) close() {
	t.mutex.Lock()
	defer t.mutex.Unlock()
	if t.memory != nil {
		syscall.Munmap(t.memory)
		t.file.Close()
		t.memory, t.file = nil, nil
	}
}
