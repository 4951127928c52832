package singleflight

import (
	"context"
	"errors"
	"fmt"
	"runtime"
	"strings"
	"sync"
	"testing"
	"time"
)

// What a recorder was told.
type records struct {
	mu   sync.Mutex
	told []Load
}

func (r *records) record(load Load) {
	r.mu.Lock()
	defer r.mu.Unlock()
	r.told = append(r.told, load)
}

// What it was told since it was asked last.
func (r *records) take() []Load {
	r.mu.Lock()
	defer r.mu.Unlock()
	told := r.told
	r.told = nil
	return told
}

func recorded(t *testing.T, record func(Load), options ...Option) *Group {
	t.Helper()
	g, err := NewGroup(append(options, WithName("users"), WithRecorder(record))...)
	if err != nil {
		t.Fatal(err)
	}
	t.Cleanup(g.Close)
	return g
}

// Each load function that ends is told once, however it ends and wherever it ran.
func TestRecorder(t *testing.T) {
	var all records
	long := strings.Repeat("a long key ", 5)
	for _, callers := range []uint32{16, 1} {
		g := recorded(t, all.record, WithLoads(callers))
		failed := errors.New("failed")
		ctx, cancel := context.WithCancel(always)
		defer cancel()
		for _, key := range []string{"key", long} {
			for _, ctx := range []context.Context{always, ctx} {
				doContext(ctx, g, key, func(context.Context) (any, error) {
					time.Sleep(2 * time.Millisecond)
					return 1, failed
				})
				told := all.take()
				if len(told) != 1 {
					t.Fatal("one load", callers, told)
				}
				took := told[0].Took
				told[0].Took = 0
				if took < 2*time.Millisecond || told[0] != (Load{"users", key, 0, 0, failed}) {
					t.Error("a load", callers, took, told)
				}
			}
		}
		// One that panics, and one that ends its goroutine.
		for what, fn := range map[string]func() (any, error){
			"as it was told":            func() (any, error) { panic("as it was told") },
			"runtime.Goexit was called": func() (any, error) { runtime.Goexit(); return nil, nil },
		} {
			ended := make(chan struct{})
			go func() {
				defer close(ended)
				defer func() { recover() }()
				g.Do("key", fn)
			}()
			within(t, patience, what, func() { <-ended })
			if told := all.take(); len(told) != 1 || told[0].Err == nil ||
				!strings.HasPrefix(told[0].Err.Error(), what) {
				t.Error("a load that has not returned", callers, told)
			}
		}
	}
}

// A function whose callers have all left is told.
func TestRecorderOfAbandonedCalls(t *testing.T) {
	var all records
	g := recorded(t, all.record)
	ctx, cancel := context.WithCancel(always)
	started, release := chans()
	left := make(chan error, 2)
	ask := func() {
		_, err, _ := doContext(ctx, g, "key", func(context.Context) (any, error) {
			close(started)
			<-release
			return 1, nil
		})
		left <- err
	}
	go ask()
	begun(t, started)
	go ask()
	until(t, "one joins", func() bool { return g.Stats().Joins == 1 })
	cancel()
	for i := 0; i < 2; i++ {
		if err := came(t, left); err != context.Canceled {
			t.Error("they leave", err)
		}
	}
	close(release)
	var told []Load
	until(t, "it is told", func() bool { told = append(told, all.take()...); return len(told) > 0 })
	if told[0].Joiners != 0 || told[0].Err != nil {
		t.Error("its numbers", told)
	}
}

// Those who have joined have the result while the recorder runs, and it may call the group.
func TestRecorderBlocksNobodyElse(t *testing.T) {
	joined := make(chan any, 1)
	var g *Group
	var all records
	g = recorded(t, func(load Load) {
		all.record(load)
		if load.Key != "key" {
			return
		}
		select {
		case v := <-joined:
			if v != 1 {
				t.Error("the result", v)
			}
		case <-time.After(patience):
			t.Error("the recorder holds up those who have joined")
		}
		if v, _, _ := g.Do("key in the recorder", value(2)); v != 2 {
			t.Error("a call of the group", v)
		}
		g.Forget("key")
		g.Stats()
	})
	joins := uint64(0)
	for _, ends := range []bool{false, true} {
		joins++
		ctx, cancel := always, func() {}
		if ends {
			ctx, cancel = context.WithCancel(always)
		}
		defer cancel()
		started, release := chans()
		leader := make(chan any, 1)
		go func() {
			v, _, _ := doContext(ctx, g, "key", func(context.Context) (any, error) {
				close(started)
				<-release
				return 1, nil
			})
			leader <- v
		}()
		begun(t, started)
		go func() { v, _, _ := g.Do("key", value(3)); joined <- v }()
		until(t, "one joins", func() bool { return g.Stats().Joins == joins })
		close(release)
		within(t, 5*patience, "the leader", func() {
			if v := <-leader; v != 1 {
				t.Error("the leader's result", v)
			}
		})
		// It was told before the leader has returned, and so was the call within it.
		if told := all.take(); len(told) != 2 || told[0].Joiners != 1 {
			t.Error("two loads", told)
		}
	}
}

// A leader whose context ends once its call is settled has the result, and not the context's error.
func TestLeaderOfASettledCall(t *testing.T) {
	ctx, cancel := context.WithCancel(always)
	defer cancel()
	returned := make(chan struct{})
	g := recorded(t, func(Load) {
		cancel()
		select {
		case <-returned:
			t.Error("the leader does not wait for the result")
		case <-time.After(50 * time.Millisecond):
		}
	})
	go func() {
		defer close(returned)
		if v, err, _ := doContext(ctx, g, "key", loadOf(1)); v != 1 || err != nil {
			t.Error("its result", v, err)
		}
	}()
	within(t, patience, "the leader", func() { <-returned })
}

// A recorder that panics is its leader's panic, and one that ends its goroutine ends the leader's;
// the call has ended all the same. A leader with a context has the result in spite of the latter.
func TestRecorderBreaks(t *testing.T) {
	for _, ends := range []bool{false, true} {
		g := recorded(t, func(Load) {
			if ends {
				runtime.Goexit()
			}
			panic("the recorder")
		})
		came := make(chan any, 1)
		go func() {
			defer func() { came <- recover() }()
			g.Do("key", value(1))
			t.Error("it goes on", ends)
		}()
		within(t, patience, "the leader", func() {
			if v := <-came; !ends && v != "the recorder" {
				t.Error("the panic", v)
			}
		})
		if ends {
			ctx, cancel := context.WithCancel(always)
			defer cancel()
			within(t, patience, "a leader with a context", func() {
				if v, err, _ := doContext(ctx, g, "key", loadOf(2)); v != 2 || err != nil {
					t.Error("its result", v, err)
				}
			})
		}
		if st := g.Stats(); g.InFlight() != 0 || st.InUse != 0 {
			t.Error("something is left", ends, g.InFlight(), st)
		}
	}
}

func loadOf(v any) func(context.Context) (any, error) {
	return func(context.Context) (any, error) { return v, nil }
}

// Calls that a Forget has closed are in flight too.
func TestInFlight(t *testing.T) {
	g := open(t, 3)
	var ends []func()
	begin := func(key string) {
		started, release := chans()
		ch := g.DoChan(key, func() (any, error) { close(started); <-release; return key, nil })
		begun(t, started)
		ends = append(ends, func() { close(release); receive(t, ch) })
	}
	told := func(what string, want int) {
		t.Helper()
		if n := g.InFlight(); n != want {
			t.Error(what, n)
		}
		if st := g.Stats(); st.Loads != uint64(want) || st.InUse != uint64(want) {
			t.Error(what, st)
		}
	}
	begin("ada")
	told("one", 1)
	g.Forget("ada")
	begin("ada")
	told("one was forgotten", 2)
	for i := 0; i < 5; i++ {
		begin(fmt.Sprint("key-", i))
		told("of other keys", 3+i)
	}
	for _, end := range ends {
		end()
	}
	until(t, "all have ended", func() bool { return g.InFlight() == 0 && g.Stats().InUse == 0 })
}

// Errors tell sizes from memory, and a closed group from one without memory.
func TestErrors(t *testing.T) {
	for i, o := range []Option{
		WithLoads(0), WithLoads(1<<20 + 1), WithLoads(1<<32 - 1),
	} {
		g, err := NewGroup(o)
		of, err2 := New[[]byte, int](o)
		if g != nil || of != nil || !errors.Is(err, ErrSize) || err2.Error() != err.Error() {
			t.Error("a size out of range", i, err, err2)
		}
		if errors.Is(err, ErrMemory) || errors.Is(err, ErrClosed) {
			t.Error("one cause", i, err)
		}
	}
	refused := true
	none := func(s *sizes) { s.refused = func() bool { return refused } }
	if _, err := New[string, int](none); isProved && err != ErrMemory {
		t.Error("no memory", err)
	}
	refused = false
	o, err := New[string, int](none, WithName("users"), WithLoads(1))
	if err != nil || o.Err() != nil || o.Name() != "users" {
		t.Fatal("the least size", err, o.Err(), o.Name())
	}
	o.Close()
	if o.Err() != ErrClosed {
		t.Error("it is closed", o.Err())
	}
	var unused Of[string, int]
	if unused.Err() != nil || unused.Name() != "" || unused.InFlight() != 0 {
		t.Error("nothing is made")
	}
}

// A group grows with the calls that are open. No stamp ends.
func TestGrowth(t *testing.T) {
	g, err := NewGroup(WithLoads(2))
	if err != nil {
		t.Fatal(err)
	}
	defer g.Close()
	_, _, _, stamp := doStamped(g, "page", value(1))
	end := make(chan struct{})
	var all []<-chan Result
	held := func() (any, error) { <-end; return nil, nil }
	for i := 0; i < 5000; i++ {
		all = append(all, g.DoChan(fmt.Sprint("key-", i), held), g.DoChan(fmt.Sprint("key-", i/2), held))
	}
	if st := g.Stats(); st.Loads != 5001 || st.Joins != 5000 || st.InUse != 5000 {
		t.Error("each key has one load", st)
	}
	if !g.IsStill(stamp) {
		t.Error("a stamp has ended")
	}
	close(end)
	for _, ch := range all {
		if r := receive(t, ch); r.Err != nil {
			t.Error(r)
		}
	}
	if st := g.Stats(); st.InUse != 0 || !g.IsStill(stamp) {
		t.Error("nothing is left", st)
	}
}
