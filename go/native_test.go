//go:build linux && (amd64 || arm64) && gc && !purego

package singleflight

import (
	"context"
	"runtime"
	"strconv"
	"testing"
	"time"
)

// A group grows while half of its cells are free, also where every other call joins.
func TestGrowsEarly(t *testing.T) {
	if isOld {
		t.Skip("it has no library")
	}
	// One handle makes all calls then.
	defer runtime.GOMAXPROCS(runtime.GOMAXPROCS(1))
	const cells = 64
	for _, joins := range []int{0, 1, 7} {
		g, err := NewGroup(WithLoads(cells))
		if err != nil {
			t.Fatal(err)
		}
		defer g.Close()
		first := g.core().table.size.Load()
		release := make(chan struct{})
		var all []<-chan Result
		for i := 0; i < cells*3/4; i++ {
			for n := 0; n <= joins; n++ {
				all = append(all, g.DoChan(strconv.Itoa(i), func() (any, error) { <-release; return nil, nil }))
			}
		}
		until(t, "it grows early", func() bool { return g.core().table.size.Load() > first })
		close(release)
		for _, ch := range all {
			receive(t, ch)
		}
	}
}

// The calls that are shared are those that are held, since they have results.
func TestSharedCallsAreDropped(t *testing.T) {
	if isOld {
		t.Skip("it has no library")
	}
	g := open(t, 4)
	started, release := chans()
	led := g.DoChan("key", heldAny(1, started, release))
	begun(t, started)
	joined := g.DoChan("key", value(2))
	if n := g.core().table.shared(); n != 1 {
		t.Error("one call is shared", n)
	}
	close(release)
	receive(t, led)
	receive(t, joined)
	until(t, "it is not shared any more", func() bool { return g.core().table.shared() == 0 })
}

// The call of a cell's next generation is another one, also where the one before it has not been dropped yet.
func TestSharedCallsOfGenerations(t *testing.T) {
	var table nativeTable
	share := func(generation uint64) *call {
		a := asking{own: cCall{live: true}, asked: asked{id: callID{0, 5, generation}}}
		table.share(&a)
		return a.call
	}
	first := share(7)
	if again := share(7); again != first {
		t.Error("one generation has one call")
	}
	if next := share(8); next == first {
		t.Error("the next generation has the call of the one before it")
	}
}

// What ends a group closes each handle, and frees the calls that these have.
func TestHandlesAreClosed(t *testing.T) {
	if isOld {
		t.Skip("it has no library")
	}
	g := open(t, 4)
	g.Do("key", func() (any, error) {
		v, err, _ := g.Do("another", value(1))
		return v, err
	})
	// Whoever grows has a handle too.
	if table := &g.core().table; !table.grow(table.size.Load()) {
		t.Fatal("it does not grow")
	}
	all := g.core().table.handles
	runtime.SetFinalizer(all, nil)
	calls := 0
	for _, h := range all.all {
		calls += h.frees
	}
	all.close()
	for _, h := range all.all {
		if h.live || h.frees != 0 {
			t.Error("a handle is open", h.live, h.frees)
		}
		for i := range h.free {
			if h.free[i].live {
				t.Error("a call is not freed", i)
			}
		}
	}
	if calls < 2 || len(all.all) < 2 {
		t.Error("there were calls and handles", calls, len(all.all))
	}
}

// shared returns how many calls are shared.
func (t *nativeTable) shared() (n int) {
	for i := range t.sharing {
		s := &t.sharing[i]
		s.mu.Lock()
		n += len(s.calls)
		s.mu.Unlock()
	}
	return n
}

// eachOpen calls do with each call that its leader and those who joined share, and that has not ended; and with how a result would
// name it, but for a stamp that never is current.
func (t *nativeTable) eachOpen(do func(*call, Call)) {
	if t.plain != nil {
		t.plain.eachOpen(do)
		return
	}
	for i := range t.sharing {
		s := &t.sharing[i]
		s.mu.Lock()
		for id, c := range s.calls {
			c.mu.Lock()
			isReady := c.ready
			c.mu.Unlock()
			if !isReady {
				do(c, Call{id, Stamp{1 << 56, 1 << 60}})
			}
		}
		s.mu.Unlock()
	}
}

// hasNoCalls tells whether each call of the library is given back.
func hasNoCalls(t *table) bool {
	if t.plain != nil {
		return hasNoPlainCalls(t.plain)
	}
	t.mu.Lock()
	defer t.mu.Unlock()
	calls := 0
	for _, h := range t.all {
		calls += h.made - h.frees
	}
	return calls == 0
}

// whenFreed tells when the library's memory is given back.
func whenFreed(t *table, freed chan<- struct{}) {
	runtime.SetFinalizer(t.handles, nil)
	runtime.SetFinalizer(t.handles, func(all *handles) {
		all.close()
		freed <- struct{}{}
	})
}

// tablesOf returns how many tables the library's group has.
func tablesOf(t *table) uint64 { return t.size.Load() >> 32 }

// crowds holds the key's open call as often as can be counted. What it returns lets go of it.
func crowds(t *testing.T, p *core, key string) (leave func()) {
	h := newHandle()
	p.table.mu.Lock()
	defer p.table.mu.Unlock()
	if cSplit(p.table.root, h) != codeDone {
		t.Fatal("no memory for a handle")
	}
	calls := make([]cCall, 0, 1<<20)
	for {
		a := asking{key: key}
		if cMake(h, &a.own) != codeDone {
			t.Fatal("no memory for a call")
		}
		code := cAsk(h, &a)
		if code == codeCrowded {
			cFree(h, &a.own)
			break
		}
		if code != codeJoined {
			t.Fatal("it joins", code)
		}
		calls = append(calls, a.own)
	}
	return func() {
		for i := range calls {
			cLeave(h, &calls[i])
			cFree(h, &calls[i])
		}
		cClose(h)
	}
}

// Where a call has as many holders as can be counted, a caller waits until one of them leaves, and no longer than its context.
func TestCrowdedCall(t *testing.T) {
	if isOld || testing.Short() {
		t.Skip("it has no library, or it takes some 100 MB")
	}
	g := open(t, 4)
	started, release := chans()
	led := g.DoChan("key", heldAny(1, started, release))
	begun(t, started)
	leave := crowds(t, g.core(), "key")
	ctx, cancel := context.WithTimeout(context.Background(), 20*time.Millisecond)
	defer cancel()
	late, joined := make(chan error, 1), make(chan any, 1)
	go func() {
		_, err := g.core().doContext(ctx, &asking{key: "key"}, func(context.Context, *asking) (any, error) { return 2, nil })
		late <- err
	}()
	go func() {
		v, _, _ := g.Do("key", value(3))
		joined <- v
	}()
	select {
	case err := <-late:
		if err != context.DeadlineExceeded {
			t.Error("its context ends it", err)
		}
	case <-time.After(30 * time.Second):
		t.Error("its context is not looked at")
	}
	leave()
	until(t, "it joins", func() bool { return g.Stats().Joins == 1 })
	close(release)
	receive(t, led)
	if v := <-joined; v != 1 {
		t.Error("it has joined", v)
	}
}

// A batch loads the keys that it leads before it waits for a call that has too many holders. Else two batches could wait for each
// other for good, each of which leads what the other one finds so.
func TestCrowdedBatch(t *testing.T) {
	if isOld || testing.Short() {
		t.Skip("it has no library, or it takes some 100 MB")
	}
	started, release := chans()
	c := newBatches(t, func(_ context.Context, keys []string) (map[string]Loaded[int], error) { return numbers(keys), nil })
	go c.GetWith(always, "key-1", func(context.Context, string) (Loaded[int], error) {
		close(started)
		<-release
		return Loaded[int]{Value: 1}, nil
	})
	begun(t, started)
	leave := crowds(t, c.now.Load().p, c.kind.name("key-1"))
	many := make(chan string, 1)
	go func() { many <- texts(c.GetMany(always, []string{"key-1", "key-2"})) }()
	until(t, "it loads the other key", func() bool { _, ok := c.GetIfPresent("key-2"); return ok })
	select {
	case got := <-many:
		t.Error("it waits for the call", got)
	default:
	}
	leave()
	close(release)
	if got := <-many; got != "1, 2" {
		t.Error("its values", got)
	}
}

// A refresh does not wait for a call that has too many holders: it is a load of its key.
func TestCrowdedRefresh(t *testing.T) {
	if isOld || testing.Short() {
		t.Skip("it has no library, or it takes some 100 MB")
	}
	o := newCounting(t, 10, WithRefreshAfter(time.Minute))
	mustGet(t, o.Cache, "key", 1)
	o.pass(time.Minute)
	p, started, release := o.now.Load().p, make(chan struct{}), make(chan struct{})
	go p.doBehind(always, o.kind.name("key"), func(context.Context, *asking) (any, error) {
		close(started)
		<-release
		return nil, nil
	})
	begun(t, started)
	defer close(release)
	leave := crowds(t, p, o.kind.name("key"))
	defer leave()
	n := o.now.Load().values.find("key", o.printOf("key"))
	mustGet(t, o.Cache, "key", 1)
	until(t, "the refresh ends", func() bool { return !n.isClaimed() })
}
