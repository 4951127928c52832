//go:build sflight_schedules

package singleflight

import (
	"hash/maphash"
	"sync"
)

// By this tag the package runs under a scheduler of the tests, which lets one goroutine run at a time and picks at random
// which one goes on at each point. What would block tries again instead.

type scheduled interface {
	at(where)
	blocked()
	spawn(func())
	index() uint
}

var schedule scheduled

func point(at where) {
	if schedule != nil {
		schedule.at(at)
	}
}

func acquire(mu *sync.Mutex) {
	if schedule == nil {
		mu.Lock()
		return
	}
	schedule.at(beforeLock)
	for !mu.TryLock() {
		schedule.blocked()
	}
}

func await(done, stop <-chan struct{}) bool {
	for schedule != nil {
		select {
		case <-done:
			return true
		default:
		}
		select {
		case <-stop:
			return false
		default:
		}
		schedule.blocked()
	}
	select {
	case <-done:
		return true
	case <-stop:
		return false
	}
}

func spawn(do func()) {
	if schedule == nil {
		go do()
	} else {
		schedule.spawn(do)
	}
}

func here() uint {
	if schedule == nil {
		return 0
	}
	return schedule.index() % lanes
}

// Mixed into what stands for the seeds of hashes, so that a schedule can be played again.
var schedulesHash uint64

func hash(_ maphash.Seed, key string) uint64 {
	h := schedulesHash ^ 0xcbf29ce484222325
	for i := 0; i < len(key); i++ {
		h = (h ^ uint64(key[i])) * 0x100000001b3
	}
	return h ^ h>>29
}
