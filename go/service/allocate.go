package service

import (
	"os"
	"syscall"
)

const (
	segment = 1 << 20 // bytes that a log allocates ahead
	spare   = 1 << 12 // that stay allocated for the line of a gap
)

// allocate allocates room beyond the end of a file, whose length stays. A file system
// that cannot do so does nothing.
func allocate(file *os.File, from, length int64) error {
	const keepSize = 1
	for {
		switch err := syscall.Fallocate(int(file.Fd()), keepSize, from, length); err {
		case syscall.EINTR:
		case syscall.EOPNOTSUPP, syscall.ENOSYS, syscall.EINVAL:
			return nil
		default:
			return err
		}
	}
}
