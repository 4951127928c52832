package singleflight

import (
	"context"
	"testing"
	"time"
)

// So long a test waits for what comes soon on a machine that does nothing else. Other work may hold it up.
const patience = time.Minute

// A deadline is a context that ends with DeadlineExceeded when pass is called: so a test decides when, however slow the machine is.
type deadline struct {
	context.Context
	passed chan struct{}
}

func newDeadline(of context.Context) *deadline { return &deadline{of, make(chan struct{})} }

func (d *deadline) pass()                 { close(d.passed) }
func (d *deadline) Done() <-chan struct{} { return d.passed }

func (d *deadline) Err() error {
	select {
	case <-d.passed:
		return context.DeadlineExceeded
	default:
		return nil
	}
}

// How often a call allocates. What earlier tests have left to finalizers allocates beside it, so this is the least of some counts.
func allocations(do func()) float64 {
	least := testing.AllocsPerRun(1000, do)
	for i := 0; i < 9 && least > 0; i++ {
		if n := testing.AllocsPerRun(1000, do); n < least {
			least = n
		}
	}
	return least
}

// apart returns so many keys of a cache that share no hash slot: a Forget of one leaves the values of the others. It asks for each, and
// so counts a load of the group.
func apart[V any](c *Cache[string, V], count int) (keys []string) {
	p, taken := c.now.Load().p, map[words]bool{}
	for i := 0; len(keys) < count; i++ {
		a := asking{key: keyNumber(i)}
		p.table.ask(&a)
		p.ends(&a)
		if slot := (words{a.stamp.table, a.stamp.slot, 0}); !taken[slot] {
			taken[slot] = true
			keys = append(keys, a.key)
		}
	}
	return keys
}

// What Of's Do returns, for a Group whose function takes no context.
func doCall(
	g *Group, key string, fn func() (any, error),
) (v any, err error, shared bool, call Call) {
	r, err := g.Of.Do(always, key, func(context.Context) (any, error) { return fn() })
	return r.Val, err, r.Shared, r.Call
}

func doStamped(
	g *Group, key string, fn func() (any, error),
) (v any, err error, shared bool, stamp Stamp) {
	r, err := g.Of.Do(always, key, func(context.Context) (any, error) { return fn() })
	return r.Val, err, r.Shared, r.Stamp
}

func doContext(
	ctx context.Context, g *Group, key string, fn func(context.Context) (any, error),
) (v any, err error, shared bool) {
	r, err := g.Of.Do(ctx, key, fn)
	return r.Val, err, r.Shared
}

// A function that tells that it runs, and returns the value when it is released.
func held[V any](v V, started, release chan struct{}) func(context.Context) (V, error) {
	return func(context.Context) (V, error) { close(started); <-release; return v, nil }
}

func heldAny(v any, started, release chan struct{}) func() (any, error) {
	return func() (any, error) { close(started); <-release; return v, nil }
}

// Waits until a function that is held has begun.
func begun(t *testing.T, started <-chan struct{}) {
	t.Helper()
	select {
	case <-started:
	case <-time.After(patience):
		t.Fatal("its function does not begin")
	}
}

// Waits for what a goroutine sends.
func came[V any](t *testing.T, ch <-chan V) (v V) {
	t.Helper()
	select {
	case v = <-ch:
	case <-time.After(patience):
		t.Fatal("it does not come")
	}
	return v
}
