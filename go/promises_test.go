package singleflight

import (
	"context"
	"errors"
	"fmt"
	"math/rand"
	"os"
	"runtime"
	"strconv"
	"strings"
	"sync"
	"sync/atomic"
	"testing"
	"time"
)

// Ends the test where it hangs.
func within(t *testing.T, limit time.Duration, what string, do func()) {
	t.Helper()
	done := make(chan struct{})
	go func() { defer close(done); do() }()
	select {
	case <-done:
	case <-time.After(limit):
		t.Fatal("it hangs: " + what)
	}
}

// A thousand loads hang. Nobody who asks for another key waits for one of them.
func TestLoadsThatHang(t *testing.T) {
	var g Group
	release := make(chan struct{})
	var hung []<-chan Result
	for i := 0; i < 1000; i++ {
		hung = append(hung, g.DoChan(fmt.Sprint("hangs-", i), func() (any, error) { <-release; return 1, nil }))
	}
	within(t, 5*patience, "a key that nobody else asks for", func() {
		var all sync.WaitGroup
		for i := 0; i < 8; i++ {
			all.Add(1)
			go func(i int) {
				defer all.Done()
				for n := 0; n < 50000/8; n++ {
					key := fmt.Sprint("instant-", i, "-", n)
					if v, err, _ := g.Do(key, value(key)); v != key || err != nil {
						t.Error("its own answer", key, v, err)
					}
				}
			}(i)
		}
		all.Wait()
	})
	close(release)
	for _, ch := range hung {
		receive(t, ch)
	}
}

// A load takes no notice of its deadline. No second one begins while it runs.
func TestOneRunAfterADeadline(t *testing.T) {
	for _, g := range []*Group{openFew(t), open(t, 64)} {
		var running, most atomic.Int64
		release := make(chan struct{})
		load := func(context.Context) (any, error) {
			if n := running.Add(1); n > most.Load() {
				most.Store(n)
			}
			defer running.Add(-1)
			<-release
			return nil, errors.New("the load failed")
		}
		for i := uint64(1); i <= 20; i++ {
			ctx, left := newDeadline(always), make(chan error)
			go func() { _, err, _ := doContext(ctx, g, "key", load); left <- err }()
			until(t, "it waits", func() bool { st := g.Stats(); return st.Loads+st.Joins == i && running.Load() > 0 })
			ctx.pass()
			if err := came(t, left); err != context.DeadlineExceeded {
				t.Error("a deadline", err)
			}
		}
		later := g.DoChan("key", value(7))
		close(release)
		if r := receive(t, later); r.Val != 7 || r.Err != nil {
			t.Error("who asks after all have left asks again when the load has failed", r)
		}
		if most.Load() != 1 {
			t.Error("one run at a time", most.Load())
		}
	}
}

// Calls of all kinds from many goroutines over few slots. SFLIGHT_CALLS says how many; 10,000,000 take some minutes.
func TestStress(t *testing.T) {
	calls := 200000
	if isRaceDetected || testing.Short() {
		calls = 20000
	}
	if text := os.Getenv("SFLIGHT_CALLS"); text != "" {
		var err error
		if calls, err = strconv.Atoi(text); err != nil {
			t.Fatal("SFLIGHT_CALLS", err)
		}
	}
	for _, options := range [][]Option{{fewSlots}, {WithLoads(1)}, {}} {
		g, err := NewGroup(append(options, WithOnPanic(func(any, []byte) {}))...)
		if err != nil {
			t.Fatal(err)
		}
		var done atomic.Int64
		stress(t, g, 64, 64, func() bool { return done.Add(1) > int64(calls/3) })
		t.Log(g.Stats())
		g.Close()
		until(t, "all is freed", func() bool { return isDone(g) })
	}
}

// Goroutines that ask for keys, nested and with deadlines, forget them and cache results, until it is enough. No two runs
// of a key at one time but after a Forget, no answer from before a Forget, and without one none that goes back.
func stress(t *testing.T, g *Group, goroutines, keys int, enough func() bool) {
	t.Helper()
	type page struct {
		key            int
		asked, started int64
	}
	type state struct {
		mu       sync.Mutex
		running  map[*page]bool
		lastFrom int64 // the latest beginning of a Forget that has ended
		lastTo   int64 // the latest end of one, or far away where one runs
		forgets  int   // how many run
	}
	var clock atomic.Int64
	states := make([]state, keys)
	for i := range states {
		states[i].running = map[*page]bool{}
	}
	type cached struct {
		page  *page
		stamp Stamp
	}
	cache := make([]atomic.Pointer[cached], keys)
	names := make([]string, keys)
	for i := range names {
		names[i] = fmt.Sprint(strings.Repeat("a long key ", i%8), i)
	}
	var end atomic.Bool
	var all sync.WaitGroup
	client := func(seed int64) {
		defer all.Done()
		random := rand.New(rand.NewSource(seed))
		last := make([]*page, keys)
		check := func(key int, v any, asked, forgotten int64) *page {
			it, ok := v.(*page)
			if !ok || it.key != key {
				t.Errorf("key %d has %v", key, v)
				return nil
			}
			if it.started < forgotten {
				t.Errorf("key %d has a result begun at %d, and was forgotten at %d", key, it.started, forgotten)
			}
			if before := last[key]; before != nil && before.started > it.started {
				states[key].mu.Lock()
				ended := states[key].lastTo > before.asked || states[key].lastTo > it.asked
				states[key].mu.Unlock()
				if !ended {
					t.Errorf("key %d: an answer went back, from %d to %d", key, before.started, it.started)
				}
			}
			last[key] = it
			return it
		}
		var ask func(key, depth int)
		ask = func(key, depth int) {
			s := &states[key]
			s.mu.Lock()
			forgotten := s.lastFrom
			s.mu.Unlock()
			asked := clock.Add(1)
			if depth == 0 {
				if it := cache[key].Load(); it != nil && g.IsStill(it.stamp) {
					check(key, it.page, asked, forgotten)
					return
				}
			}
			slow, nested, panics, fails := random.Intn(40) == 0, random.Intn(4) == 0, random.Intn(200) == 0, random.Intn(100) == 0
			failed := errors.New("the load failed")
			load := func(stamp Stamp) (any, error) {
				me := &page{key: key, asked: asked, started: clock.Add(1)}
				s.mu.Lock()
				for other := range s.running {
					if s.lastTo <= other.asked && s.lastTo <= asked {
						t.Errorf("two runs of key %d at one time", key)
					}
				}
				s.running[me] = true
				s.mu.Unlock()
				defer func() {
					s.mu.Lock()
					delete(s.running, me)
					s.mu.Unlock()
				}()
				if slow {
					time.Sleep(time.Duration(random.Intn(200)) * time.Microsecond)
				}
				if nested && depth < 3 && key+1 < keys {
					ask(key+1+random.Intn(keys-key-1), depth+1)
				}
				if panics {
					panic(failed)
				}
				if fails {
					return nil, failed
				}
				// Before the call is settled.
				if g.IsStill(stamp) {
					cache[key].Store(&cached{me, stamp})
				}
				return me, nil
			}
			defer func() {
				if v := recover(); v != nil {
					if err, ok := v.(error); !ok || err.Error() != failed.Error() && errors.Unwrap(err) == nil {
						panic(v)
					}
				}
			}()
			if random.Intn(3) == 0 {
				ctx, cancel := context.WithTimeout(context.Background(), time.Duration(random.Intn(300))*time.Microsecond)
				defer cancel()
				// The load may outlive this call, and then has no random source of its own.
				slow, nested, panics = random.Intn(2) == 0, false, false
				wait := time.Duration(random.Intn(200)) * time.Microsecond
				r, err := g.DoStamped(ctx, names[key], func(own context.Context, stamp Stamp) (any, error) {
					if slow {
						select {
						case <-own.Done():
							return nil, own.Err()
						case <-time.After(wait):
						}
					}
					slow = false
					return load(stamp)
				})
				if err == nil {
					check(key, r.Val, asked, forgotten)
				} else if err == context.Canceled {
					t.Error("the end of a load that others had left")
				}
				return
			}
			r, err := g.DoStamped(always, names[key], func(_ context.Context, stamp Stamp) (any, error) { return load(stamp) })
			if err == nil {
				check(key, r.Val, asked, forgotten)
			} else if err == context.Canceled {
				t.Error("the end of a load that others had left")
			}
		}
		for !end.Load() {
			if enough() || t.Failed() {
				end.Store(true)
			}
			key := random.Intn(keys)
			if random.Intn(8) > 0 {
				ask(key, 0)
				continue
			}
			s := &states[key]
			s.mu.Lock()
			from := clock.Add(1)
			s.forgets++
			s.lastTo = 1 << 62
			s.mu.Unlock()
			g.Forget(names[key])
			s.mu.Lock()
			if from > s.lastFrom {
				s.lastFrom = from
			}
			if s.forgets--; s.forgets == 0 {
				s.lastTo = clock.Add(1)
			}
			s.mu.Unlock()
		}
	}
	within(t, 20*time.Minute, "the stress", func() {
		for i := 0; i < goroutines; i++ {
			all.Add(1)
			go client(int64(i))
		}
		all.Wait()
	})
	until(t, "all seats are back", func() bool { return g.Stats().InUse == 0 })
}

// A Forget forgets, whatever the group is: while other calls run, of few slots, and after Close.
func TestForgetAlwaysForgets(t *testing.T) {
	for what, made := range map[string]func() *Group{
		"another call runs": func() *Group {
			g := open(t, 1)
			end := make(chan struct{})
			t.Cleanup(func() { close(end) })
			g.DoChan("other", func() (any, error) { <-end; return nil, nil })
			return g
		},
		"the slot is another key's": func() *Group {
			g := openFew(t)
			end := make(chan struct{})
			t.Cleanup(func() { close(end) })
			g.DoChan("other", func() (any, error) { <-end; return nil, nil })
			return g
		},
		"a call of its own": func() *Group { return open(t, 4) },
		"closed": func() *Group {
			g := open(t, 4)
			g.Close()
			return g
		},
	} {
		g := made()
		started, release := chans()
		old := g.DoChan("key", func() (any, error) { close(started); <-release; return "old", nil })
		<-started
		g.Forget("key")
		within(t, patience, what, func() {
			if v, _, _ := g.Do("key", value("new")); v != "new" {
				t.Error(what, v)
			}
		})
		close(release)
		if r := receive(t, old); r.Val != "old" {
			t.Error(what, r)
		}
		if st := g.Stats(); st.Forgets != 1 {
			t.Error(what, st)
		}
	}
}

func chans() (a, b chan struct{}) { return make(chan struct{}), make(chan struct{}) }

// A panic of a load whose leader has left goes on in those who wait, and where nobody does it is told to the hook.
func TestPanicsOfLoadsThatWereLeft(t *testing.T) {
	told := make(chan any, 4)
	g, err := NewGroup(WithOnPanic(func(value any, stack []byte) {
		if !strings.Contains(string(stack), "TestPanicsOfLoadsThatWereLeft") {
			t.Error("the stack of the load", string(stack))
		}
		told <- value
	}))
	if err != nil {
		t.Fatal(err)
	}
	defer g.Close()
	for _, waits := range []bool{true, false} {
		ctx, cancel := context.WithCancel(context.Background())
		text := fmt.Sprint("left, and another waits: ", waits)
		started, release := chans()
		gone := make(chan error)
		go func() {
			_, err, _ := doContext(ctx, g, "key", func(context.Context) (any, error) { close(started); <-release; panic(text) })
			gone <- err
		}()
		<-started
		recovered := make(chan any, 1)
		if waits {
			go func() {
				defer func() { recovered <- recover() }()
				g.Do("key", value(1))
			}()
			until(t, "another waits", func() bool { return waiting(g) == 2 })
		}
		cancel()
		if err := came(t, gone); err != context.Canceled {
			t.Error("the leader leaves", err)
		}
		close(release)
		if waits {
			if e, ok := came(t, recovered).(error); !ok || !strings.HasPrefix(e.Error(), text+"\n\n") {
				t.Error("the panic goes on", e)
			}
		} else if v := came(t, told); v != text {
			t.Error("the hook", v)
		}
	}
	// A leader that waits by itself has the panic.
	ctx, cancel := context.WithCancel(context.Background())
	defer cancel()
	func() {
		defer func() {
			if e, ok := recover().(error); !ok || !strings.HasPrefix(e.Error(), "waits\n\n") {
				t.Error("the panic goes on in its leader", e)
			}
		}()
		doContext(ctx, g, "key", func(context.Context) (any, error) { panic("waits") })
	}()
	if len(told) != 0 {
		t.Error("the hook is told where nobody waits, and then alone")
	}
}

// What a load comes to comes to all who have joined: a value with an error, a panic, and the end of the
// goroutine.
func TestJoinersOfLoadsThatFail(t *testing.T) {
	failed := errors.New("failed")
	type end struct {
		r         Result
		recovered any
		returned  bool
	}
	for _, callers := range []uint32{16, 1} {
		for what, ends := range map[string]func() (any, error){
			"an error": func() (any, error) { return 3, failed },
			"a panic":  func() (any, error) { panic(failed) },
			"an end":   func() (any, error) { runtime.Goexit(); return nil, nil },
		} {
			g := open(t, callers)
			ctx, cancel := context.WithCancel(always)
			defer cancel()
			all := make(chan end, 3)
			ask := func(ctx context.Context, fn func() (any, error)) {
				var its end
				defer func() { its.recovered = recover(); all <- its }()
				its.r, _ = g.Of.Do(ctx, "key", func(context.Context) (any, error) { return fn() })
				its.returned = true
			}
			started, release := chans()
			go ask(always, func() (any, error) { close(started); <-release; return ends() })
			begun(t, started)
			go ask(always, value("a second load"))
			go ask(ctx, value("a third load"))
			until(t, "both join", func() bool { return g.Stats().Joins == 2 })
			close(release)
			for i := 0; i < 3; i++ {
				its := came(t, all)
				err, _ := its.recovered.(error)
				switch {
				case its.returned != (what == "an error") || (its.recovered != nil) != (what == "a panic"):
					t.Error(callers, what, its)
				case its.returned && (its.r.Val != 3 || its.r.Err != failed || !its.r.Shared || its.r.Joiners != 2):
					t.Error(callers, what, its.r)
				case what == "a panic" && !errors.Is(err, failed):
					t.Error(callers, what, err)
				}
			}
		}
	}
}

// A caller that joins one call after the other, each of which ends since all have left, asks again each time.
func TestRoundsOfOneWhoJoins(t *testing.T) {
	const rounds = 5
	failed := errors.New("the load was ended")
	ends, cancel := context.WithCancel(always)
	defer cancel()
	for _, ctx := range []context.Context{always, ends} {
		for _, callers := range []uint32{16, 1} {
			g := open(t, callers)
			// A call whose one caller has left.
			left := func() (release chan struct{}) {
				own, leave := context.WithCancel(always)
				started, release := chans()
				gone := make(chan error)
				go func() {
					_, err, _ := doContext(own, g, "key", func(context.Context) (any, error) { close(started); <-release; return nil, failed })
					gone <- err
				}()
				begun(t, started)
				leave()
				if err := came(t, gone); err != context.Canceled {
					t.Error("who leaves", err)
				}
				return release
			}
			release := left()
			joiner := make(chan Result, 1)
			go func() { r, _ := g.Of.Do(ctx, "key", loadOf("its own")); joiner <- r }()
			for i := uint64(1); i < rounds; i++ {
				until(t, "it joins", func() bool { return g.Stats().Joins == i })
				g.Forget("key")
				next := left()
				close(release)
				release = next
			}
			until(t, "it joins", func() bool { return g.Stats().Joins == rounds })
			close(release)
			if r := receive(t, joiner); r.Val != "its own" || r.Err != nil {
				t.Error("who joins asks again", callers, r)
			}
		}
	}
}

// errors.Is and errors.As see through a panic that goes on.
func TestPanicUnwraps(t *testing.T) {
	failed := errors.New("failed")
	defer func() {
		if err, ok := recover().(error); !ok || !errors.Is(err, failed) {
			t.Error("the error that the function panicked with", err)
		}
	}()
	open(t, 1).Do("key", func() (any, error) { panic(failed) })
}

// Fifty results of DoChan that nobody reads leave no goroutine behind.
func TestUnreadChannels(t *testing.T) {
	before := runtime.NumGoroutine()
	g := open(t, 4)
	for i := 0; i < 50; i++ {
		g.DoChan("key", value(i))
	}
	until(t, "their goroutines end", func() bool { return runtime.NumGoroutine() <= before })
}
