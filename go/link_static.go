//go:build hourstable_static

package hourstable

// #cgo LDFLAGS: -l:libhourstable.a
import "C"
