//go:build !hourstable_static

package hourstable

// #cgo LDFLAGS: -lhourstable
import "C"
