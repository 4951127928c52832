package singleflight

import (
	"context"
	"errors"
	"fmt"
	"os"
	"runtime"
	"strconv"
	"strings"
	"sync"
	"sync/atomic"
	"testing"
	"time"
)

func value(v any) func() (any, error) {
	return func() (any, error) { return v, nil }
}

// Waits until it holds, which it does soon.
func until(t *testing.T, what string, holds func() bool) {
	t.Helper()
	untilWithin(t, patience, what, holds)
}

func untilWithin(t *testing.T, limit time.Duration, what string, holds func() bool) {
	t.Helper()
	for from := time.Now(); !holds(); time.Sleep(time.Millisecond) {
		if time.Since(from) > limit {
			t.Fatal(what)
		}
	}
}

func TestZeroGroup(t *testing.T) {
	var g Group
	g.Forget("key")
	if g.Stats() != (Stats{Proved: isProved}) {
		t.Error("nothing is made before a call", g.Stats())
	}
	if v, err, shared := g.Do("key", value(1)); v != 1 || err != nil || shared {
		t.Error("the zero group", v, err, shared)
	}
	g.Forget("key")
	if st := g.Stats(); st != (Stats{Loads: 1, Forgets: 1, Proved: isProved}) {
		t.Error("its numbers", st)
	}
	g.Close()
	var unused Group
	unused.Close()
	unused.Close()
	if v, _, _ := unused.Do("key", value(2)); v != 2 || unused.Stats().Loads != 1 {
		t.Error("closed before its first call", v, unused.Stats())
	}
}

func TestClose(t *testing.T) {
	g := open(t, 3)
	started, release := make(chan struct{}), make(chan struct{})
	first := g.DoChan("key", func() (any, error) { close(started); <-release; return 1, nil })
	<-started
	joined := g.DoChan("key", value(2))
	g.Close()
	g.Close()
	// Another group may get the memory that is free again, and the calls of the closed one leave it alone.
	other := open(t, 3)
	inside, end := make(chan struct{}), make(chan struct{})
	otherFirst := other.DoChan("key", func() (any, error) { close(inside); <-end; return 3, nil })
	<-inside
	g.Forget("key")
	if v, _, shared := g.Do("key", value(4)); v != 4 || shared {
		t.Error("a call after Close is alone", v, shared)
	}
	otherJoined := other.DoChan("key", value(5))
	close(release)
	for _, ch := range []<-chan Result{first, joined} {
		if r := <-ch; r.Val != 1 || !r.Shared {
			t.Error("the calls that ran go on", r)
		}
	}
	close(end)
	for _, ch := range []<-chan Result{otherFirst, otherJoined} {
		if r := <-ch; r.Val != 3 || !r.Shared {
			t.Error("the other group's call was not closed", r)
		}
	}
	g.Close()
	until(t, "all seats are freed", func() bool { return isDone(g) })
}

// Whether the group is closed, and no call of it is left.
func isDone(g *Group) bool { return g.Err() == ErrClosed && hasNoCalls(&g.core().table) }

func TestCloseWhileCallsRun(t *testing.T) {
	for round := 0; round < 5; round++ {
		g, err := NewGroup(fewSlots)
		if err != nil {
			t.Fatal(err)
		}
		var all sync.WaitGroup
		for i := 0; i < 8; i++ {
			all.Add(1)
			go func(i int) {
				defer all.Done()
				for n := 0; n < 200; n++ {
					if i == 0 && n == 100 {
						g.Close()
					}
					if n%5 == 0 {
						g.Forget("k1")
					}
					key := fmt.Sprint("k", n%4)
					if v, err, _ := g.Do(key, value(key)); v != key || err != nil {
						t.Error("a Do beside a Close", v, err)
					}
				}
			}(i)
		}
		all.Wait()
		until(t, "its memory is given back", func() bool { return isDone(g) })
	}
}

// The numbers of a closed group are those that it had, but for its callers.
func TestStatsAfterClose(t *testing.T) {
	g := open(t, 8)
	started, release := chans()
	first := g.DoChan("key", heldAny(1, started, release))
	begun(t, started)
	joined := g.DoChan("key", value(2))
	until(t, "another waits", func() bool { return waiting(g) == 1 })
	g.Do("other", value(3))
	g.Forget("other")
	held, end := chans()
	open := g.DoChan("forgotten", heldAny(4, held, end))
	begun(t, held)
	g.Forget("forgotten")
	close(end)
	receive(t, open)
	want := Stats{Loads: 3, Joins: 1, Forgets: 2, InUse: 1, Proved: isProved}
	g.Close()
	if st := g.Stats(); st != want {
		t.Error("while a call runs", st, want)
	}
	close(release)
	receive(t, first)
	receive(t, joined)
	want.InUse = 0
	until(t, "all seats are freed", func() bool { return isDone(g) })
	if st := g.Stats(); st != want {
		t.Error("closed", st, want)
	}
	g.Do("key", value(5))
	g.Forget("key")
	want.Loads, want.Forgets = 4, 3
	if st := g.Stats(); st != want {
		t.Error("what comes then", st, want)
	}
}

// A group is freed when nobody has it, also if its functions have it.
func TestForgottenGroup(t *testing.T) {
	freed := make(chan struct{}, 1)
	func() {
		var g *Group
		g, err := NewGroup(WithRecorder(func(Load) { g.Stats() }))
		if err != nil {
			t.Fatal(err)
		}
		g.Do("key", value(1))
		whenFreed(&g.core().table, freed)
	}()
	isCollected(t, freed)
}

// isCollected waits until the memory is given back.
func isCollected(t *testing.T, freed <-chan struct{}) {
	t.Helper()
	until(t, "its memory is freed", func() bool {
		runtime.GC()
		select {
		case <-freed:
			return true
		default:
			return false
		}
	})
}

// Many goroutines ask for few keys at one time, which all get one load each.
func manyOn(t *testing.T, goroutines, keys int) {
	var g Group
	defer g.Close()
	var loads atomic.Int64
	release := make(chan struct{})
	var all sync.WaitGroup
	for i := 0; i < goroutines; i++ {
		all.Add(1)
		go func(key string) {
			defer all.Done()
			v, err, shared := g.Do(key, func() (any, error) {
				loads.Add(1)
				<-release
				return key, nil
			})
			if v != key || err != nil || shared != (goroutines > keys) {
				t.Error("an answer", key, v, err, shared)
			}
		}(fmt.Sprint("key-", i%keys))
	}
	// A million goroutines take seconds where the machine does nothing else.
	untilWithin(t, patience+time.Duration(goroutines)*200*time.Microsecond, "all ask", func() bool {
		st := g.Stats()
		return st.Loads+st.Joins >= uint64(goroutines)
	})
	close(release)
	all.Wait()
	st := g.Stats()
	if loads.Load() != int64(keys) || st.Loads != uint64(keys) || st.InUse != 0 {
		t.Error("one load for each key", loads.Load(), st)
	}
}

func TestManyOnOneKey(t *testing.T)   { manyOn(t, 4000, 1) }
func TestManyOnSomeKeys(t *testing.T) { manyOn(t, 4000, 40) }
func TestManyOnOwnKeys(t *testing.T)  { manyOn(t, 4000, 4000) }

// SFLIGHT_GOROUTINES says how many they are. A million take 5 GB of memory, which a machine that does other work may not have.
func veryMany(t *testing.T) int {
	if testing.Short() || isRaceDetected {
		t.Skip("100,000 goroutines")
	}
	text := os.Getenv("SFLIGHT_GOROUTINES")
	if text == "" {
		return 100000
	}
	count, err := strconv.Atoi(text)
	if err != nil {
		t.Fatal("SFLIGHT_GOROUTINES", err)
	}
	return count
}

func TestVeryManyOnOneKey(t *testing.T) { manyOn(t, veryMany(t), 1) }

func TestVeryManyOnOwnKeys(t *testing.T) {
	count := veryMany(t)
	manyOn(t, count, count)
}

// A caller that waits for a slow key is not woken by another's calls.
func TestWaitsAreApart(t *testing.T) {
	g := open(t, 8)
	other := "other"
	started, release := make(chan struct{}), make(chan struct{})
	slow := g.DoChan("slow", func() (any, error) { close(started); <-release; return 1, nil })
	<-started
	joined := g.DoChan("slow", value(2))
	var w *call
	g.core().eachOpen(func(c *call, _ Call) { w = c })
	until(t, "one waits", func() bool { return waiting(g) == 1 })
	for i := 0; i < 100; i++ {
		inside, end := make(chan struct{}), make(chan struct{})
		first := g.DoChan(other, func() (any, error) { close(inside); <-end; return i, nil })
		<-inside
		second := g.DoChan(other, value(-1))
		close(end)
		<-first
		if r := <-second; r.Val != i {
			t.Error("the other key", r)
		}
		select {
		case <-w.done:
			t.Fatal("who waits for the slow key was woken")
		default:
		}
	}
	close(release)
	<-slow
	if r := <-joined; r.Val != 1 {
		t.Error("the slow key", r)
	}
}

func TestDeadlines(t *testing.T) {
	g := open(t, 4)
	ctx, cancel := context.WithCancel(context.WithValue(context.Background(), "who", "leader"))
	defer cancel()
	if v, err, shared := doContext(ctx, g, "key", func(own context.Context) (any, error) {
		return own.Value("who"), own.Err()
	}); v != "leader" || err != nil || shared {
		t.Error("a load has the leader's values", v, err, shared)
	}
	done, over := context.WithCancel(ctx)
	over()
	if _, err, _ := doContext(done, g, "key", func(context.Context) (any, error) { t.Error("a call"); return nil, nil }); err != context.Canceled {
		t.Error("a context that has ended", err)
	}
	// A waiter leaves, and the load goes on for the leader.
	started, release := make(chan struct{}), make(chan struct{})
	slow := g.DoChan("key", func() (any, error) { close(started); <-release; return 1, nil })
	<-started
	late, left := newDeadline(ctx), make(chan error)
	go func() {
		_, err, _ := doContext(late, g, "key", func(context.Context) (any, error) { return 2, nil })
		left <- err
	}()
	until(t, "it joins", func() bool { return g.Stats().Joins == 1 })
	late.pass()
	if err := came(t, left); err != context.DeadlineExceeded {
		t.Error("a waiter's deadline", err)
	}
	close(release)
	if r := <-slow; r.Val != 1 || !r.Shared {
		t.Error("the leader waits on", r)
	}
	if st := g.Stats(); st.InUse != 0 {
		t.Error("the seat is back when the letter has come", st)
	}
}

// A leader leaves, and its load goes on while somebody waits, and no longer.
func TestDoContextOfALeader(t *testing.T) {
	g := open(t, 4)
	leader, leave := context.WithCancel(context.Background())
	waiter, stop := context.WithCancel(context.Background())
	started := make(chan context.Context, 1)
	results := make(chan error, 2)
	fail := errors.New("the load was ended")
	go func() {
		_, err, _ := doContext(leader, g, "key", func(own context.Context) (any, error) {
			started <- own
			<-own.Done()
			return nil, fail
		})
		results <- err
	}()
	own := <-started
	go func() {
		_, err, _ := doContext(waiter, g, "key", func(context.Context) (any, error) { return 1, nil })
		results <- err
	}()
	until(t, "another waits", func() bool {
		st := g.Stats()
		return st.Joins == 1 && waiting(g) == 2
	})
	leave()
	if err := <-results; err != context.Canceled || own.Err() != nil {
		t.Error("the leader leaves at once, and the load goes on", err, own.Err())
	}
	stop()
	if err := <-results; err != context.Canceled {
		t.Error("so does who joined", err)
	}
	select {
	case <-own.Done():
	case <-time.After(patience):
		t.Fatal("nobody waits, and the load is not told")
	}
	if v, err, _ := g.Do("key", value(7)); v != 7 || err != nil {
		t.Error("who asks then does not get the end of a load that nobody wanted", v, err)
	}
	until(t, "all seats are back", func() bool { return g.Stats().InUse == 0 })
}

// A caller that has joined leaves. The load goes on for its leader, which waits.
func TestJoinerThatLeaves(t *testing.T) {
	g := open(t, 4)
	ctx, cancel := context.WithCancel(always)
	defer cancel()
	started, release := chans()
	led := g.Of.DoChan(ctx, "key", func(own context.Context) (any, error) {
		close(started)
		<-release
		return 1, own.Err()
	})
	begun(t, started)
	joiner, left := newDeadline(always), make(chan error)
	go func() { _, err, _ := doContext(joiner, g, "key", loadOf(2)); left <- err }()
	until(t, "it joins", func() bool { return g.Stats().Joins == 1 })
	joiner.pass()
	if err := came(t, left); err != context.DeadlineExceeded {
		t.Error("it leaves", err)
	}
	close(release)
	if r := receive(t, led); r.Val != 1 || r.Err != nil {
		t.Error("its leader waits, and the load was ended", r)
	}
}

// How many wait for open calls.
func waiting(g interface{ core() *core }) (count int) {
	g.core().eachOpen(func(c *call, _ Call) {
		count += int(c.holders.Load()) - 1
		c.mu.Lock()
		if c.waits {
			count++
		}
		c.mu.Unlock()
	})
	return count
}

// Before Go 1.21 a panic of nil is as if the function had returned nothing, as in x/sync; from then on it is a panic as others are.
func TestPanicOfNil(t *testing.T) {
	var g Group
	var nothing, panicked any
	func() {
		defer func() { panicked = recover() }()
		v, err, shared := g.Do("key", func() (any, error) { panic(nothing) })
		if v != nil || err != nil || shared {
			t.Errorf("Do = %v, %v, %v", v, err, shared)
		}
	}()
	if panicked != nil && !strings.Contains(fmt.Sprint(panicked), "nil") {
		t.Errorf("Do panicked with %v", panicked)
	}
	if v, err, _ := g.Do("key", func() (any, error) { return 1, nil }); v != 1 || err != nil {
		t.Errorf("the next Do = %v, %v", v, err)
	}
}

// A panic in a load with a goroutine of its own goes on in its leader and in the caller that joined; so does a Goexit.
func TestDoContextPanics(t *testing.T) {
	for _, ends := range []func(){func() { panic("load") }, runtime.Goexit} {
		g := open(t, 3)
		ctx, cancel := context.WithCancel(context.Background())
		started, release := make(chan struct{}), make(chan struct{})
		var recovered [2]any
		var returned [2]bool
		var all sync.WaitGroup
		do := func(i int, fn func(context.Context) (any, error)) {
			all.Add(1)
			go func() {
				defer all.Done()
				defer func() { recovered[i] = recover() }()
				doContext(ctx, g, "key", fn)
				returned[i] = true
			}()
		}
		do(0, func(context.Context) (any, error) { close(started); <-release; ends(); return nil, nil })
		<-started
		do(1, func(context.Context) (any, error) { return nil, nil })
		until(t, "another waits", func() bool { return waiting(g) == 2 })
		close(release)
		all.Wait()
		for i := range recovered {
			e, ok := recovered[i].(error)
			if returned[i] || recovered[i] != nil && !(ok && strings.HasPrefix(e.Error(), "load\n\n")) {
				t.Error("each ends as the load did", i, recovered[i], returned[i])
			}
		}
		cancel()
		if g.Stats().InUse != 0 {
			t.Error("the seats are back", g.Stats())
		}
	}
}

// Deadlines and Forgets at random: each answer is of its key and no older than a Forget, and no seat is lost.
func TestManyContexts(t *testing.T) {
	g := open(t, 4)
	var now atomic.Int64
	var forgotten [8]atomic.Int64
	var all sync.WaitGroup
	for i := 0; i < 16; i++ {
		all.Add(1)
		go func(seed int) {
			defer all.Done()
			for round := 0; round < 1000; round++ {
				seed = (seed*1103515245 + 12345) & 0x7fffffff
				number := seed >> 8 % 8
				key := fmt.Sprint("k", number)
				if seed>>16%5 == 0 {
					at := now.Load()
					g.Forget(key)
					for was := forgotten[number].Load(); was < at && !forgotten[number].CompareAndSwap(was, at); {
						was = forgotten[number].Load()
					}
					continue
				}
				before := forgotten[number].Load()
				ctx, cancel := context.WithTimeout(context.Background(), time.Duration(seed>>4%300)*time.Microsecond)
				v, err, _ := doContext(ctx, g, key, func(own context.Context) (any, error) {
					at := now.Add(1)
					select {
					case <-own.Done():
						return nil, errors.New("ended")
					case <-time.After(100 * time.Microsecond):
						return [2]int64{int64(number), at}, nil
					}
				})
				cancel()
				if err != nil {
					if err != context.DeadlineExceeded {
						t.Error("an error of a load that nobody wanted", err)
					}
					continue
				}
				if got := v.([2]int64); got[0] != int64(number) || got[1] <= before {
					t.Error("an old answer, or one of another key", got, number, before)
				}
			}
		}(i + 1)
	}
	all.Wait()
	until(t, "all seats are back", func() bool { return g.Stats().InUse == 0 })
	if st := g.Stats(); st.Joins == 0 {
		t.Error("some joined", st)
	}
}

type failure struct{ text [64]byte }

func (f *failure) Error() string { return string(f.text[:]) }

// Once a call has ended, its seat keeps neither its value nor its error, whoever has the result too.
func TestResultsAreFreed(t *testing.T) {
	var made, freed atomic.Int64
	result := func() (any, error) {
		made.Add(2)
		v, err := new(failure), new(failure)
		runtime.SetFinalizer(v, func(*failure) { freed.Add(1) })
		runtime.SetFinalizer(err, func(*failure) { freed.Add(1) })
		return v, err
	}
	for _, key := range []string{"key", "a key of more than the forty bytes that the library keeps of it"} {
		g := open(t, 16)
		g.Do(key, result)
		release := make(chan struct{})
		started := make(chan struct{})
		joined := g.DoChan(key, func() (any, error) { close(started); <-release; return result() })
		begun(t, started)
		other := g.DoChan(key, result)
		close(release)
		<-joined
		<-other
		ctx, cancel := context.WithCancel(context.Background())
		doContext(ctx, g, key, func(context.Context) (any, error) { return result() })
		cancel()
		g.Do(key, result)
		until(t, "all are freed", func() bool { runtime.GC(); return freed.Load() == made.Load() })
	}
}

// More clients than callers, in rounds: each has one load.
func TestRounds(t *testing.T) {
	const clients = 200
	for _, option := range []Option{WithLoads(64), WithLoads(1), fewSlots} {
		g, err := NewGroup(option)
		if err != nil {
			t.Fatal(err)
		}
		t.Cleanup(g.Close)
		for round := uint64(1); round <= 20; round++ {
			var loads atomic.Int64
			var all sync.WaitGroup
			release := make(chan struct{})
			for i := 0; i < clients; i++ {
				all.Add(1)
				go func() {
					defer all.Done()
					g.Do("page", func() (any, error) { loads.Add(1); <-release; return 1, nil })
				}()
			}
			until(t, "all ask", func() bool { st := g.Stats(); return st.Loads+st.Joins == clients*round })
			close(release)
			all.Wait()
			if loads.Load() != 1 {
				t.Error("one load", loads.Load())
			}
		}
	}
}

// Few slots, of which several keys of a test share one.
func fewSlots(s *sizes) { s.isSmall, s.loads = true, 1 }

func openFew(t *testing.T) *Group {
	g, err := NewGroup(fewSlots)
	if err != nil {
		t.Fatal(err)
	}
	t.Cleanup(g.Close)
	return g
}

// One origin hangs behind deadlines. It runs once; a result of another key can be cached, and a Forget forgets it.
func TestOriginThatHangs(t *testing.T) {
	g := open(t, 16)
	release := make(chan struct{})
	load := func(context.Context) (any, error) { <-release; return 1, nil }
	for i := uint64(1); i <= 100; i++ {
		ctx, left := newDeadline(always), make(chan error)
		go func() { _, err, _ := doContext(ctx, g, "hangs", load); left <- err }()
		until(t, "it waits", func() bool { st := g.Stats(); return st.Loads+st.Joins == i })
		ctx.pass()
		if err := came(t, left); err != context.DeadlineExceeded {
			t.Error("who waits for it leaves", err)
		}
	}
	if st := g.Stats(); st.InUse != 1 || st.Loads != 1 {
		t.Error("it runs once", st)
	}
	for i := 0; i < 20; i++ {
		_, _, _, stamp := doStamped(g, "page", value(3))
		if !g.IsStill(stamp) {
			t.Error("it can be cached", stamp)
		}
		g.Forget("page")
		if g.IsStill(stamp) {
			t.Error("it is forgotten", stamp)
		}
	}
	close(release)
	until(t, "all callers are back", func() bool { return g.Stats().InUse == 0 })
}
