package service

import (
	"bytes"
	"encoding/json"
	"os"
)

const room = 256 // bytes of a line that is written over

// spareLine is the path of a file of one line that is written over, so that there is room
// for it on a full disk, once the file is there.
type spareLine string

// clear makes the file with no line, if it is not so.
func (s spareLine) clear() error {
	if found, err := os.ReadFile(string(s)); err == nil && bytes.Equal(found, blank(nil)) {
		return nil
	}
	return s.over(os.O_CREATE, nil)
}

// write writes a line over the one before, or over none.
func (s spareLine) write(line []byte) error { return s.over(0, line) }

// read returns what the line says to be missing: nothing if there is none, or a crash tore
// it.
func (s spareLine) read() gap {
	var told struct{ Gap gap }
	if found, err := os.ReadFile(string(s)); err != nil || json.Unmarshal(found, &told) != nil {
		return gap{}
	}
	return told.Gap
}

func (s spareLine) over(flags int, line []byte) error {
	file, err := os.OpenFile(string(s), os.O_WRONLY|flags, 0o600)
	if err != nil {
		return err
	}
	defer file.Close()
	_, err = file.WriteAt(blank(line), 0)
	return err
}

// blank returns a line, with ends of lines behind it.
func blank(line []byte) []byte {
	return append(line[:len(line):len(line)], bytes.Repeat([]byte("\n"), room-len(line))...)
}
