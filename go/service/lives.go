package service

import (
	"crypto/rand"
	"encoding/hex"
	"encoding/json"
	"errors"
	"fmt"
	"os"
	"path/filepath"
	"sort"
	"strconv"
	"strings"
	"sync"
	"syscall"
)

const mostKeys = 4 // that are kept, and shown

// ErrOvertaken is returned by Run once another process of the task is let in. Its
// supervisor may start it again: then it waits.
var ErrOvertaken = errors.New("hourstable: another process of the task is let in")

// ownLife is a life that was given out, with the one before it and its key, which is empty
// if a version up to 1.0 gave it out.
type ownLife struct {
	Life, Last uint32
	Key        string
}

// ownLives are the lives that a process draws: their keys, the lock of the task by flock,
// and where the process runs. Who has the lock reads and writes the keys, so a process
// that is started again shows the key of the one before. With no folder nothing outlasts
// the process.
type ownLives struct {
	place map[string]string

	mutex sync.Mutex
	lock  *os.File // nil for none
	path  string   // of the keys
	keys  map[uint32]string
	drawn map[uint32]ownLife
}

// openLives locks the task in a folder, "" for none. An error if another process has it.
func openLives(folder string, task uint64) (*ownLives, error) {
	word := make([]byte, 16)
	if _, err := rand.Read(word); err != nil {
		return nil, err
	}
	made := &ownLives{
		place: map[string]string{"process": hex.EncodeToString(word)}, keys: map[uint32]string{}, drawn: map[uint32]ownLife{},
	}
	if folder == "" {
		return made, nil
	}
	if err := os.MkdirAll(folder, 0o700); err != nil {
		return nil, err
	}
	path := filepath.Join(folder, fmt.Sprintf("task-%d.lock", task))
	file, err := os.OpenFile(path, os.O_RDWR|os.O_CREATE, 0o600)
	if err != nil {
		return nil, err
	}
	if err := made.locked(file); err != nil {
		file.Close()
		return nil, fmt.Errorf("%s: %w", path, err)
	}
	made.path = filepath.Join(folder, fmt.Sprintf("task-%d.keys", task))
	made.read()
	return made, nil
}

func (o *ownLives) locked(file *os.File) error {
	if err := syscall.Flock(int(file.Fd()), syscall.LOCK_EX|syscall.LOCK_NB); err != nil {
		return fmt.Errorf("another process of the task runs here: %w", err)
	}
	var status syscall.Stat_t
	if err := syscall.Fstat(int(file.Fd()), &status); err != nil {
		return err
	}
	boot, _ := os.ReadFile("/proc/sys/kernel/random/boot_id")
	o.lock = file
	o.place["boot"] = strings.TrimSpace(string(boot))
	o.place["device"], o.place["inode"] = fmt.Sprint(status.Dev), fmt.Sprint(status.Ino)
	return nil
}

// read reads the keys of the process before. A file that a crash left torn has none.
func (o *ownLives) read() {
	text, err := os.ReadFile(o.path)
	var found map[string]string
	if err != nil || json.Unmarshal(text, &found) != nil {
		return
	}
	for word, key := range found {
		if life, err := strconv.ParseUint(word, 10, 32); err == nil {
			o.keys[uint32(life)] = key
		}
	}
}

// draw takes a life that was given out. Its key is in the file before it is asked with.
func (o *ownLives) draw(life ownLife) error {
	o.mutex.Lock()
	defer o.mutex.Unlock()
	o.drawn[life.Life] = life
	if life.Key == "" {
		return nil
	}
	o.keys[life.Life] = life.Key
	return o.write()
}

// heard takes that a life is let in: keys of lives before it are shown no more.
func (o *ownLives) heard(life uint32) {
	o.mutex.Lock()
	defer o.mutex.Unlock()
	before := len(o.keys)
	for it := range o.keys {
		if it < life {
			delete(o.keys, it)
		}
	}
	for it := range o.drawn {
		if it < life {
			delete(o.drawn, it)
		}
	}
	if len(o.keys) < before {
		_ = o.write() // more keys do no harm
	}
}

// newest returns the last keys but that of one life, by the words of their lives.
func (o *ownLives) newest(but uint32) map[string]string {
	lives := make([]uint32, 0, len(o.keys))
	for it := range o.keys {
		if it != but {
			lives = append(lives, it)
		}
	}
	sort.Slice(lives, func(one, other int) bool { return lives[one] > lives[other] })
	if len(lives) > mostKeys {
		lives = lives[:mostKeys]
	}
	made := map[string]string{}
	for _, it := range lives {
		made[fmt.Sprint(it)] = o.keys[it]
	}
	return made
}

func (o *ownLives) write() error {
	if o.lock == nil {
		return nil
	}
	text, err := json.Marshal(o.newest(0))
	if err != nil {
		return err
	}
	if err := os.WriteFile(o.path+".new", text, 0o600); err != nil {
		return err
	}
	return os.Rename(o.path+".new", o.path)
}

// asking returns the body by which a life asks for a lease that heard so much, or only to
// be let in.
func (o *ownLives) asking(task uint64, life uint32, isLetIn bool, most heard) ([]byte, error) {
	o.mutex.Lock()
	defer o.mutex.Unlock()
	made := map[string]any{"task": task, "life": life}
	if isLetIn {
		made["let_in"] = true
	}
	if key := o.keys[life]; key != "" {
		made["key"], made["place"], made["shown"] = key, o.place, o.newest(life)
		if most.Number > 0 {
			made["heard"] = most
		}
	}
	return json.Marshal(made)
}

// key returns the key of a life, "" if it has none.
func (o *ownLives) key(life uint32) string {
	o.mutex.Lock()
	defer o.mutex.Unlock()
	return o.keys[life]
}

// known returns a life that this process drew, and the greatest of all.
func (o *ownLives) known(life uint32) (found ownLife, isOwn bool, greatest uint32) {
	o.mutex.Lock()
	defer o.mutex.Unlock()
	for it := range o.drawn {
		if it > greatest {
			greatest = it
		}
	}
	found, isOwn = o.drawn[life]
	return found, isOwn, greatest
}

// close gives the lock back. Nothing is served from then on.
func (o *ownLives) close() {
	o.mutex.Lock()
	defer o.mutex.Unlock()
	if o.lock != nil {
		o.lock.Close()
		o.lock = nil
	}
}
