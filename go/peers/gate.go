package peers

import (
	"context"
	"sync/atomic"
	"time"
)

// A gate counts the calls that run, until it is closed and the last has returned. It counts in several
// places, so that processors that enter by different keys do not wait for each other's cache lines.
type gate struct{ places [gatePlaces]gatePlace }

type gatePlace struct {
	state atomic.Int64 // how many run; less than 0 once it is closed
	_     [56]byte     // the rest of the cache line
}

const (
	gatePlaces = 16
	closedGate = -1 << 62
)

// enter tells whether a call may begin; then leave ends it, by the same hash.
func (g *gate) enter(hash uint64) bool {
	if g.places[hash%gatePlaces].state.Add(1) > 0 {
		return true
	}
	g.leave(hash)
	return false
}

func (g *gate) leave(hash uint64) { g.places[hash%gatePlaces].state.Add(-1) }

func (g *gate) close() {
	for i := range g.places {
		state := &g.places[i].state
		for calls := state.Load(); calls >= 0 && !state.CompareAndSwap(calls, calls+closedGate); {
			calls = state.Load()
		}
	}
}

// isOpen tells whether a call may begin.
func (g *gate) isOpen(hash uint64) bool { return g.places[hash%gatePlaces].state.Load() >= 0 }

// isClosed tells whether close has begun.
func (g *gate) isClosed() bool { return g.places[0].state.Load() < 0 }

// drain returns once each call that entered before close has left, or the context's error.
func (g *gate) drain(ctx context.Context) error {
	tick := time.NewTicker(time.Millisecond)
	defer tick.Stop()
	for i := range g.places {
		for g.places[i].state.Load() != closedGate {
			select {
			case <-tick.C:
			case <-ctx.Done():
				return ctx.Err()
			}
		}
	}
	return nil
}

func (g *gate) forget(ctx context.Context, n *node, name string, items ...item) error {
	if !g.enter(0) {
		return ErrClosed
	}
	defer g.leave(0)
	return n.forget(ctx, name, items...)
}
