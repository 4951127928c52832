//go:build !sflight_schedules

package singleflight

import (
	"hash/maphash"
	"sync"
	"unsafe"
)

// A point is where the tests of schedules stop a goroutine: see schedules.go.
func point(where) {}

func acquire(mu *sync.Mutex) { mu.Lock() }

// Waits until done is closed; or until stop is, and then it is false.
func await(done, stop <-chan struct{}) bool {
	if stop == nil {
		<-done
		return true
	}
	select {
	case <-done:
		return true
	case <-stop:
		return false
	}
}

func spawn(do func()) { go do() }

func hash(seed maphash.Seed, key string) uint64 { return maphash.String(seed, key) }

// A number below 64 of the goroutine. Goroutines that run at one time have stacks in different places.
func here() uint {
	var on byte
	return uint(uint64(uintptr(unsafe.Pointer(&on))>>13) * 0x9e3779b97f4a7c15 >> 58)
}
