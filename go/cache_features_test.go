package singleflight

import (
	"context"
	"errors"
	"fmt"
	"runtime"
	"sort"
	"strings"
	"sync"
	"sync/atomic"
	"testing"
	"time"
)

// A clock that a test sets.
type testClock struct{ nanoseconds atomic.Int64 }

func (c *testClock) time() time.Time      { return time.Unix(1700000000, c.nanoseconds.Load()) }
func (c *testClock) pass(d time.Duration) { c.nanoseconds.Add(int64(d)) }

var errDown = errors.New("the origin is down")

// An origin whose loads count up, and fail where it says so.
type counting struct {
	*Cache[string, int]
	testClock
	loads  atomic.Int64
	failed atomic.Bool
	loaded Loaded[int] // what a load returns, beside its number
	mu     sync.Mutex  // protects the next: a refresh tells in a goroutine of its own
	left   []string
}

func newCounting(t *testing.T, limit int64, options ...Option) *counting {
	o := &counting{}
	options = append([]Option{wide, WithClock(o.time), WithOnEvict(func(key string, n int, why Reason) {
		o.mu.Lock()
		o.left = append(o.left, fmt.Sprint(key, " ", n, " ", why))
		o.mu.Unlock()
	})}, options...)
	c, err := NewCacheOf(limit, func(context.Context, string) (Loaded[int], error) {
		it := o.loaded
		it.Value = int(o.loads.Add(1))
		if o.failed.Load() {
			return it, errDown
		}
		return it, nil
	}, options...)
	if err != nil {
		t.Fatal(err)
	}
	t.Cleanup(c.Close)
	o.Cache = c
	return o
}

// toldOf returns what has left, and forgets it where that is wanted.
func (o *counting) toldOf(isLast bool) []string {
	o.mu.Lock()
	defer o.mu.Unlock()
	left := append([]string(nil), o.left...)
	if isLast {
		o.left = nil
	}
	return left
}

// mustLeave waits until so many have left: a value that a refresh has replaced is told of after that.
func (o *counting) mustLeave(t *testing.T, want ...string) {
	t.Helper()
	until(t, "so many have left", func() bool { return len(o.toldOf(false)) >= len(want) })
	left := o.toldOf(true)
	sort.Strings(left)
	if got := strings.Join(left, ", "); got != strings.Join(want, ", ") {
		t.Errorf("what has left: %s, not %s", got, strings.Join(want, ", "))
	}
}

// A value that a load gives a TTL of its own ends by that, and not by the cache's.
func TestCacheOwnTTL(t *testing.T) {
	o := newCounting(t, 10, WithTTL(time.Minute))
	o.loaded.TTL = time.Hour
	mustGet(t, o.Cache, "long", 1)
	o.loaded.TTL = time.Second
	mustGet(t, o.Cache, "short", 2)
	o.loaded.TTL = 0
	mustGet(t, o.Cache, "usual", 3)
	o.loaded.TTL = -1
	mustGet(t, o.Cache, "none", 4)
	mustGet(t, o.Cache, "none", 5)
	o.pass(time.Second - 1)
	mustGet(t, o.Cache, "short", 2)
	o.pass(1)
	mustGet(t, o.Cache, "short", 6)
	o.pass(59 * time.Second)
	o.loaded.TTL = 0
	mustGet(t, o.Cache, "usual", 7)
	mustGet(t, o.Cache, "long", 1)
	o.pass(time.Hour)
	if _, ok := o.GetIfPresent("long"); ok {
		t.Error("it has ended")
	}
	o.mustLeave(t, "long 1 expired", "short 2 expired", "usual 3 expired")
	// A cache without lifetimes reads the clock for such values alone.
	o = newCounting(t, 10)
	o.loaded.TTL = time.Second
	mustGet(t, o.Cache, "short", 1)
	o.loaded.TTL = 0
	mustGet(t, o.Cache, "long", 2)
	o.pass(time.Hour)
	mustGet(t, o.Cache, "short", 3)
	mustGet(t, o.Cache, "long", 2)
	// So do those of a Put.
	o.PutWith(o.Token("put"), Loaded[int]{Value: 9, TTL: time.Second})
	mustGet(t, o.Cache, "put", 9)
	o.pass(time.Second)
	mustGet(t, o.Cache, "put", 4)
	if o.PutWith(o.Token("put"), Loaded[int]{Value: 9, TTL: -1}) {
		t.Error("it is kept")
	}
	mustGet(t, o.Cache, "put", 5)
	// One that is not to be kept takes the place of the older one.
	o = newCounting(t, 10, WithRefreshAfter(time.Second))
	mustGet(t, o.Cache, "key", 1)
	o.loaded.TTL = -1
	o.pass(time.Second)
	mustGet(t, o.Cache, "key", 1)
	until(t, "it leaves", func() bool { return o.Len() == 0 })
	o.mustLeave(t, "key 1 replaced")
}

// With a jitter values end within a part of their TTL, and not together.
func TestCacheJitter(t *testing.T) {
	const values = 1000
	o := newCounting(t, values, WithTTL(1000*time.Second), WithJitter(0.25))
	for i := 0; i < values; i++ {
		o.Get(always, keyNumber(i))
	}
	o.pass(750*time.Second - 1)
	kept := func() (n int) {
		o.All(func(string, int) bool { n++; return true })
		return n
	}
	if n := kept(); n != values {
		t.Error("all are there before three quarters of the TTL", n)
	}
	for last := values; last > 0; {
		o.pass(25 * time.Second)
		n := kept()
		// A tenth of them end in each tenth of the rest: 100, with a deviation of 9.5. It is below 20, or above 180, once in 10^13 tests.
		if n > last-values/10+80 || n < last-values/10-80 {
			t.Fatal("they end together", last, n)
		}
		if last = n; o.nanoseconds.Load() >= int64(1000*time.Second)-1 {
			break
		}
	}
	o.pass(1)
	if n := kept(); n != 0 {
		t.Error("all have ended with the TTL", n)
	}
}

// A value ends that was not found for so long, and not one that is found.
func TestCacheIdle(t *testing.T) {
	o := newCounting(t, 10, WithIdle(16*time.Second))
	mustGet(t, o.Cache, "found", 1)
	mustGet(t, o.Cache, "idle", 2)
	for i := 0; i < 100; i++ {
		o.pass(time.Second)
		mustGet(t, o.Cache, "found", 1)
		if i == 13 {
			mustGet(t, o.Cache, "idle", 2)
		}
	}
	o.pass(15 * time.Second)
	mustGet(t, o.Cache, "found", 1)
	o.pass(17 * time.Second)
	if _, ok := o.GetIfPresent("found"); ok {
		t.Error("it was idle for long enough")
	}
	if _, ok := o.GetIfPresent("idle"); ok {
		t.Error("it was idle")
	}
	o.mustLeave(t, "found 1 expired", "idle 2 expired")
	// Neither a look by All nor one by a leader is a Get's.
	o.Get(always, "all")
	o.pass(10 * time.Second)
	o.All(func(string, int) bool { return true })
	o.pass(10 * time.Second)
	if _, ok := o.GetIfPresent("all"); ok {
		t.Error("All is no look")
	}
}

// A wall clock that is set on and then back does not keep a value that no Get finds.
func TestCacheIdleAndClocks(t *testing.T) {
	var now instant
	c := newCache(t, 10, length, wide, WithIdle(2*time.Hour), func(s *sizes) {
		s.cache.lives.clock = func() instant { return now }
	})
	pass := func(steady, wall time.Duration) {
		now.steady, now.wall = now.steady+int64(steady), now.wall+int64(wall)
	}
	isThere := func(what string, want bool) {
		t.Helper()
		if _, ok := c.GetIfPresent("ada"); ok != want {
			t.Error(what, ok)
		}
	}
	mustGet(t, c, "ada", 3)
	pass(time.Minute, time.Minute+time.Hour)
	isThere("after the wall clock was set on by an hour", true)
	pass(time.Minute, time.Minute-time.Hour)
	pass(119*time.Minute, 119*time.Minute)
	isThere("it was found two hours ago", false)
	mustGet(t, c, "ada", 3)
	pass(time.Minute, time.Minute+2*time.Hour)
	isThere("the machine was stopped for two hours", false)
}

// A kept error ends by its own time, costs 1, is told to nobody, and takes no place of a value.
func TestCacheKeptErrors(t *testing.T) {
	o := newCounting(t, 2, WithTTL(time.Minute), WithRefreshAfter(30*time.Second), WithIdle(time.Hour),
		WithErrorTTL(func(err error) time.Duration {
			if err == errDown {
				return 10 * time.Second
			}
			return 0
		}))
	fails := func(key string, n int, loads int64) {
		t.Helper()
		if v, err := o.Get(always, key); v != n || err != errDown || o.loads.Load() != loads {
			t.Error("a kept error", v, err, o.loads.Load())
		}
	}
	o.failed.Store(true)
	fails("a", 1, 1)
	fails("a", 1, 1)
	if _, ok := o.GetIfPresent("a"); ok || o.Len() != 0 || o.Weight() != 1 {
		t.Error("an error is no value", ok, o.Len(), o.Weight())
	}
	o.All(func(string, int) bool { t.Error("an error is no value"); return true })
	fails("b", 2, 2)
	fails("c", 3, 3)
	if o.Weight() != 2 {
		t.Error("it costs 1", o.Weight())
	}
	o.pass(10 * time.Second)
	fails("c", 4, 4)
	for _, end := range []func(){func() { o.Forget("c") }, o.ForgetAll} {
		end()
		n := o.loads.Load() + 1
		fails("c", int(n), n)
		fails("c", int(n), n)
	}
	o.failed.Store(false)
	o.Put("c", 99)
	mustGet(t, o.Cache, "c", 99)
	// A refresh fails: the value stays, and no error is kept.
	o.failed.Store(true)
	o.pass(30 * time.Second)
	before := o.loads.Load()
	mustGet(t, o.Cache, "c", 99)
	until(t, "it is refreshed", func() bool { return o.Stats().Stale == 1 && o.Stats().InUse == 0 })
	// A Get begins no refresh while the goroutine of the last one has not said that it is over: so one Get more may be none.
	until(t, "it is refreshed again", func() bool {
		mustGet(t, o.Cache, "c", 99)
		return t.Failed() || o.loads.Load() >= before+2 && o.Stats().InUse == 0
	})
	o.Close()
	o.mustLeave(t, "c 99 closed")
}

// A stale value stands in for an error, and nothing of what is not its load's failure.
func TestCacheStale(t *testing.T) {
	o := newCounting(t, 10, WithTTL(time.Minute), WithStaleIfError(time.Hour),
		WithErrorTTL(func(error) time.Duration { return time.Hour }))
	mustGet(t, o.Cache, "key", 1)
	o.failed.Store(true)
	o.pass(time.Minute)
	for n := 0; n < 3; n++ {
		mustGet(t, o.Cache, "key", 1)
		if _, ok := o.GetIfPresent("key"); ok {
			t.Error("it is not fresh")
		}
	}
	if st := o.Stats(); st.Stale != 3 || st.Errors != 3 || st.Loads != 4 || st.Expirations != 0 {
		t.Errorf("its numbers: %+v", st)
	}
	o.failed.Store(false)
	mustGet(t, o.Cache, "key", 5)
	o.pass(time.Minute)
	// The key does not exist any more.
	if _, err := o.GetWith(always, "key", func(context.Context, string) (Loaded[int], error) {
		return Loaded[int]{}, ErrNotFound
	}); err != ErrNotFound {
		t.Error("it does not exist", err)
	}
	o.Forget("key")
	o.mustLeave(t, "key 1 replaced", "key 5 replaced")
	if st := o.Stats(); st.Errors != 3 {
		t.Error("that is no failure", st.Errors)
	}
	// A panic is not hidden.
	mustGet(t, o.Cache, "key", 6)
	o.pass(time.Minute)
	func() {
		defer func() {
			if recover() == nil {
				t.Error("it panics")
			}
		}()
		o.GetWith(always, "key", func(context.Context, string) (Loaded[int], error) { panic("as it was told") })
	}()
}

// The value of a key that does not exist any more leaves, and stands in for no error later.
func TestCacheStaleOfAMissingKey(t *testing.T) {
	o := newCounting(t, 10, WithTTL(time.Minute), WithStaleIfError(time.Hour))
	mustGet(t, o.Cache, "key", 1)
	o.pass(time.Minute)
	if _, err := o.GetWith(always, "key", func(context.Context, string) (Loaded[int], error) {
		return Loaded[int]{}, ErrNotFound
	}); err != ErrNotFound || o.Len() != 0 {
		t.Error("it does not exist", err, o.Len())
	}
	o.failed.Store(true)
	if v, err := o.Get(always, "key"); err == nil {
		t.Error("it failed", v)
	}
}

// A refresh that panics, or ends its goroutine, is told to WithOnPanic, and the next Get refreshes.
func TestCacheRefreshPanics(t *testing.T) {
	var panics, ends atomic.Int64
	var c *Cache[string, int]
	var clock testClock
	var loads atomic.Int64
	c = newCache(t, 10, func(context.Context, string) (int, error) {
		switch loads.Add(1) {
		case 2:
			panic("as it was told")
		case 3:
			defer ends.Add(1)
			runtime.Goexit()
		}
		return int(loads.Load()), nil
	}, wide, WithClock(clock.time), WithRefreshAfter(time.Second), WithOnPanic(func(any, []byte) { panics.Add(1) }))
	mustGet(t, c, "key", 1)
	clock.pass(time.Second)
	mustGet(t, c, "key", 1)
	until(t, "it panics", func() bool { return panics.Load() == 1 && c.Stats().InUse == 0 })
	until(t, "the next refreshes", func() bool { mustGet(t, c, "key", 1); return ends.Load() == 1 })
	until(t, "and the next", func() bool { v, _ := c.Get(always, "key"); return v == 4 })
	if st := c.Stats(); st.Refreshes != 3 || st.Errors != 2 {
		t.Errorf("its numbers: %+v", st)
	}
}

// While a value is refreshed, Gets return it and ask for nothing.
func TestCacheRefreshIsOne(t *testing.T) {
	started, release := chans()
	var clock testClock
	var loads atomic.Int64
	c := newCache(t, 10, func(ctx context.Context, _ string) (int, error) {
		if loads.Add(1) == 2 {
			close(started)
			<-release
			if ctx.Err() != nil {
				t.Error("its context has ended")
			}
		}
		return int(loads.Load()), nil
	}, wide, WithClock(clock.time), WithRefreshAfter(time.Second))
	mustGet(t, c, "key", 1)
	clock.pass(time.Second)
	ctx, cancel := context.WithCancel(always)
	if v, err := c.Get(ctx, "key"); v != 1 || err != nil {
		t.Error("the old value", v, err)
	}
	cancel()
	begun(t, started)
	for n := 0; n < 100; n++ {
		mustGet(t, c, "key", 1)
	}
	// Another refresh would join the load, in a goroutine of its own.
	time.Sleep(50 * time.Millisecond)
	if st := c.Stats(); st.Loads != 2 || st.Calls.Loads != 2 || st.Joins != 0 || st.Hits != 101 || loads.Load() != 2 {
		t.Errorf("one load: %+v", st)
	}
	close(release)
	until(t, "it is replaced", func() bool { v, _ := c.GetIfPresent("key"); return v == 2 })
	mustGet(t, c, "key", 2)
}

// tagsApart returns three tags of three places. A ForgetTag of one tag forgets what others of its place have, too.
func tagsApart(all *tags) (a, b, c string) {
	for n := 0; ; n++ {
		a, b, c = fmt.Sprint("a", n), fmt.Sprint("b", n), fmt.Sprint("c", n)
		if all.placeOf(a) != all.placeOf(b) && all.placeOf(b) != all.placeOf(c) && all.placeOf(c) != all.placeOf(a) {
			return a, b, c
		}
	}
}

// A refresh that meets an open call of the key lets go of it, which is no Get that joined.
func TestCacheRefreshThatHasJoined(t *testing.T) {
	o := newCounting(t, 10, WithRefreshAfter(time.Minute))
	mustGet(t, o.Cache, "key", 1)
	o.pass(time.Minute)
	opened, release := make(chan struct{}), make(chan struct{})
	go o.now.Load().p.doBehind(always, o.kind.name("key"), func(context.Context, *asking) (any, error) {
		close(opened)
		<-release
		return nil, errAgain
	})
	<-opened
	mustGet(t, o.Cache, "key", 1)
	until(t, "the refresh has joined", func() bool { st := o.Stats(); return st.Calls.Joins == 1 && st.Joins == 0 })
	close(release)
	until(t, "all has ended", func() bool { return o.Stats().InUse == 0 })
}

// A tag forgets all values that have it, in whatever way they came, and no others.
func TestCacheTags(t *testing.T) {
	o := newCounting(t, 100, WithErrorTTL(func(error) time.Duration { return time.Hour }))
	a, b, c := tagsApart(&o.room.tags)
	keys := apart(o.Cache, 5)
	both, one, none, put, failed := keys[0], keys[1], keys[2], keys[3], keys[4]
	o.loaded.Tags = []string{a, b}
	mustGet(t, o.Cache, both, 1)
	o.loaded.Tags = []string{b}
	mustGet(t, o.Cache, one, 2)
	o.loaded.Tags = nil
	mustGet(t, o.Cache, none, 3)
	o.PutWith(o.Token(put), Loaded[int]{Value: 9, Tags: []string{a}})
	o.failed.Store(true)
	o.loaded.Tags = []string{a}
	if _, err := o.Get(always, failed); err != errDown || o.loads.Load() != 4 {
		t.Error(err)
	}
	o.ForgetTag(c)
	if _, err := o.Get(always, failed); err != errDown || o.loads.Load() != 4 {
		t.Error("the error has another tag", err)
	}
	o.failed.Store(false)
	mustGet(t, o.Cache, both, 1)
	mustGet(t, o.Cache, put, 9)
	o.ForgetTag(a)
	mustGet(t, o.Cache, one, 2)
	mustGet(t, o.Cache, none, 3)
	for i, key := range []string{both, put, failed} {
		if _, ok := o.GetIfPresent(key); ok {
			t.Error("it has the tag", key)
		}
		mustGet(t, o.Cache, key, 5+i)
	}
	// A token that was drawn before is void for a value with the tag.
	token := o.Token(put)
	o.ForgetTag(b)
	if o.PutWith(token, Loaded[int]{Value: 10, Tags: []string{b}}) {
		t.Error("it is kept")
	}
	o.mustLeave(t, both+" 1 forgotten", put+" 6 forgotten", put+" 9 forgotten")
	if st := o.Stats(); st.Forgets != 5 {
		t.Error("two Puts and three ForgetTags", st.Forgets)
	}
}

// ForgetTag takes the same time, however many values have the tag: it touches none of them.
func TestCacheTagsTouchNothing(t *testing.T) {
	o := newCounting(t, 1000)
	o.loaded.Tags = []string{"all"}
	for i := 0; i < 1000; i++ {
		o.Get(always, keyNumber(i))
	}
	o.ForgetTag("all")
	if n := allocations(func() { o.ForgetTag("all") }); n != 0 || o.Len() < 900 {
		t.Error("allocations, and values", n, o.Len())
	}
	o.All(func(key string, _ int) bool { t.Error("it was forgotten", key); return true })
}

// ForgetIf forgets the value that it is given, and no newer one.
func TestCacheForgetIf(t *testing.T) {
	o := newCounting(t, 10)
	_, first, _ := o.GetStamped(always, "key")
	_, again, _ := o.GetStamped(always, "key")
	if !o.ForgetIf("key", first) || o.ForgetIf("key", again) || o.ForgetIf("key", ValueStamp{}) {
		t.Error("it is forgotten once")
	}
	v, second, _ := o.GetStamped(always, "key")
	if v != 2 || o.ForgetIf("key", first) || o.ForgetIf("other", second) {
		t.Error("the newer one is spared", v)
	}
	mustGet(t, o.Cache, "key", 2)
	// So is an open load.
	o.ForgetIf("key", second)
	started, release := chans()
	done := make(chan int, 1)
	go func() {
		v, _ := o.GetWith(always, "key", func(context.Context, string) (Loaded[int], error) {
			close(started)
			<-release
			return Loaded[int]{Value: 77}, nil
		})
		done <- v
	}()
	begun(t, started)
	if o.ForgetIf("key", second) {
		t.Error("the load is newer")
	}
	close(release)
	came(t, done)
	mustGet(t, o.Cache, "key", 77)
	// A value that a look has found before its call was settled, and that has left, is forgotten with the call.
	var c *Cache[string, int]
	c = newCache(t, 1, number, wide, WithRecorder(func(l Load) {}))
	mustGet(t, c, "key-1", 1)
	_, stamp, _ := c.GetStamped(always, "key-1")
	c.Put("key-2", 2)
	if _, ok := c.GetIfPresent("key-1"); ok || !c.ForgetIf("key-1", stamp) {
		t.Error("its call could be open still")
	}
}

// Keys that become the same bytes share loads and Forgets, and no values.
func TestCacheKeysOfOneName(t *testing.T) {
	type pair struct{ a, b int }
	started, release := chans()
	var loads atomic.Int64
	c, err := NewCache(10, func(_ context.Context, key pair) (pair, error) {
		if loads.Add(1) == 1 {
			close(started)
			<-release
		}
		return key, nil
	}, WithKey(func(pair) []byte { return []byte("same") }))
	if err != nil {
		t.Fatal(err)
	}
	defer c.Close()
	results := make(chan pair, 2)
	get := func(key pair) { v, _ := c.Get(always, key); results <- v }
	go get(pair{1, 1})
	begun(t, started)
	go get(pair{2, 2})
	until(t, "it joins", func() bool { return c.Stats().Joins == 1 })
	close(release)
	a, b := came(t, results), came(t, results)
	if a == b || a.a+b.a != 3 {
		t.Error("each has its own value", a, b)
	}
	for _, key := range []pair{{1, 1}, {2, 2}} {
		if v, err := c.Get(always, key); v != key || err != nil {
			t.Error("its value", key, v, err)
		}
	}
	got := c.GetManyWith(always, []pair{{3, 3}, {4, 4}}, func(_ context.Context, keys []pair) (map[pair]Loaded[pair], error) {
		all := map[pair]Loaded[pair]{}
		for _, key := range keys {
			all[key] = Loaded[pair]{Value: key}
		}
		return all, nil
	})
	if got[0].Value != (pair{3, 3}) || got[1].Value != (pair{4, 4}) {
		t.Error("a batch", got)
	}
	c.Forget(pair{1, 1})
	if _, ok := c.GetIfPresent(pair{2, 2}); ok {
		t.Error("it is forgotten too")
	}
}

func testKeys[K comparable](t *testing.T, keys []K, options ...Option) {
	t.Helper()
	c, err := NewCache(100, func(_ context.Context, key K) (K, error) { return key, nil }, options...)
	if err != nil {
		t.Fatal(err)
	}
	defer c.Close()
	names := map[string]bool{}
	for round := 0; round < 2; round++ {
		for _, key := range keys {
			if v, err := c.Get(always, key); v != key || err != nil {
				t.Errorf("%T %v: %v, %v", key, key, v, err)
			}
			names[c.kind.name(key)] = true
		}
	}
	if st := c.Stats(); int(st.Loads) != len(keys) || len(names) != len(keys) {
		t.Errorf("%T: each is loaded once: %d, %d names", keys[0], st.Loads, len(names))
	}
	c.Forget(keys[0])
	if _, ok := c.GetIfPresent(keys[0]); ok || c.Len() != len(keys)-1 {
		t.Errorf("%T: one is forgotten: %d", keys[0], c.Len())
	}
}

// Strings, whole numbers and arrays of these are keys as they are, and other types by a function.
func TestCacheKeyTypes(t *testing.T) {
	type name string
	type id uint16
	testKeys(t, []name{"", "a", "\x00"})
	testKeys(t, []int{0, 1, -1})
	testKeys(t, []int64{0, 1, -1, 1 << 40, -1 << 40})
	testKeys(t, []int8{0, 1, -1})
	testKeys(t, []id{0, 1, 256, 65535})
	testKeys(t, []int32{0, 1, -1, 1 << 20})
	testKeys(t, []uint64{0, 1, 1 << 63})
	testKeys(t, []uintptr{0, 1})
	testKeys(t, [][16]byte{{}, {0: 1}, {15: 1}})
	testKeys(t, [][2]id{{1, 2}, {2, 1}, {0, 513}})
	testKeys(t, []float64{0.5, 1}, WithKey(func(f float64) []byte { return []byte(fmt.Sprint(f)) }))
	type pair struct{ a, b string }
	testKeys(t, []pair{{"a", "b"}, {"ab", ""}}, WithKey(func(p pair) []byte { return []byte(p.a + "\x00" + p.b) }))
	if _, err := NewCache(1, func(context.Context, pair) (int, error) { return 1, nil }); !errors.Is(err, ErrOption) {
		t.Error("no bytes", err)
	}
	if _, err := NewCache(1, func(context.Context, float64) (int, error) { return 1, nil }); !errors.Is(err, ErrOption) {
		t.Error("no bytes", err)
	}
	if _, err := NewCache(1, length, WithKey(func(int) []byte { return nil })); !errors.Is(err, ErrOption) {
		t.Error("another type", err)
	}
}

// A cache that is made smaller evicts down before Resize returns; one that is made larger has room.
func TestCacheResize(t *testing.T) {
	o := newCounting(t, 1000)
	for i := 0; i < 1000; i++ {
		o.Get(always, keyNumber(i))
	}
	for _, limit := range []int64{0, -1} {
		if err := o.Resize(limit); !errors.Is(err, ErrSize) || o.Limit() != 1000 {
			t.Error("a limit out of range", err, o.Limit())
		}
	}
	if err := o.Resize(10); err != nil || o.Len() != 10 || o.Weight() != 10 || len(o.toldOf(false)) != 990 || o.Stats().Limit != 10 {
		t.Error("it evicts down", err, o.Len(), o.Weight(), len(o.toldOf(false)), o.Stats().Limit)
	}
	for i := 0; i < 100; i++ {
		o.Get(always, keyNumber(i))
		if o.Weight() > 10 {
			t.Fatal("more than the limit", o.Weight())
		}
	}
	o.Resize(500)
	for i := 0; i < 500; i++ {
		o.Get(always, keyNumber(i))
	}
	if o.Len() != 500 {
		t.Error("there is room", o.Len())
	}
}

// A value takes room from other shards than its own, if that has too little.
func TestCacheMakesRoomElsewhere(t *testing.T) {
	o := newCounting(t, 1000, WithCost(func(_ string, n int) int64 {
		if n > 1000 {
			return 900
		}
		return 1
	}))
	o.kind.hash = fixedHash
	for i := 0; i < 1000; i++ {
		o.Get(always, keyNumber(i))
	}
	if n := len(o.now.Load().values.shards); n < 8 {
		t.Fatal("shards", n)
	}
	o.Get(always, "heavy")
	if v, ok := o.GetIfPresent("heavy"); !ok || v != 1001 || o.Weight() > 1000 || o.Len() < 50 {
		t.Error("it is kept", v, ok, o.Weight(), o.Len())
	}
	// The other shards had to give nearly all. They come to their parts again.
	for round := 0; round < 4; round++ {
		o.Forget("heavy")
		for i := 0; i < 1000; i++ {
			o.GetWith(always, keyNumber(i), func(context.Context, string) (Loaded[int], error) {
				return Loaded[int]{Value: 1}, nil
			})
		}
	}
	for i := range o.now.Load().values.shards {
		if s := &o.now.Load().values.shards[i]; s.weight*int64(len(o.now.Load().values.shards)) < 400 {
			t.Error("a shard stays poor", i, s.weight)
		}
	}
}

// All tells of each value that may be returned, and of no other. The function may call the cache.
func TestCacheAll(t *testing.T) {
	o := newCounting(t, 1000, WithTTL(time.Minute), WithStaleIfError(time.Hour))
	for i := 0; i < 500; i++ {
		o.Get(always, keyNumber(i))
	}
	o.pass(time.Minute)
	for i := 500; i < 700; i++ {
		o.Get(always, keyNumber(i))
	}
	o.Forget(keyNumber(600))
	o.loaded.Tags = []string{"tag"}
	o.Get(always, "tagged")
	o.ForgetTag("tag")
	told := map[string]int{}
	o.All(func(key string, n int) bool {
		told[key]++
		if n != numberOf(key)+1 {
			t.Error("another's value", key, n)
		}
		o.Forget(key)
		o.Put("more", 1)
		o.Forget("more")
		return true
	})
	// A Forget ends a value of another key where the two share a slot.
	if len(told) < 190 || len(told) > 199 || told[keyNumber(600)] != 0 || told[keyNumber(499)] != 0 {
		t.Error("told of", len(told))
	}
	for key, times := range told {
		if times != 1 {
			t.Error("told again", key, times)
		}
	}
	o.Put("a", 1)
	o.Put("b", 1)
	n := 0
	o.All(func(string, int) bool { n++; return false })
	if n != 1 {
		t.Error("it goes on", n)
	}
}

// Why values leave is told, at each way out.
func TestCacheReasons(t *testing.T) {
	o := newCounting(t, 2, WithTTL(time.Minute))
	o.Get(always, "a")
	o.Forget("a")
	o.Get(always, "b")
	o.Put("b", 20)
	o.Get(always, "c")
	o.Get(always, "d")
	o.pass(time.Minute)
	o.GetIfPresent("c")
	o.GetIfPresent("d")
	o.GetIfPresent("b")
	o.Get(always, "e")
	o.ForgetAll()
	o.Get(always, "f")
	o.Close()
	o.mustLeave(t, "a 1 forgotten", "b 2 replaced", "b 20 room", "c 3 expired", "d 4 expired", "e 5 forgotten", "f 6 closed")
	if st := o.Stats(); st.LeftFor != [5]uint64{1, 2, 2, 1, 1} || st.Evictions != 1 || st.Expirations != 2 || st.Left != 7 {
		t.Errorf("its numbers: %+v", st)
	}
	if ReasonRoom.String() != "room" || Reason(9).String() != "Reason(9)" {
		t.Error("names", ReasonRoom, Reason(9))
	}
}

// Load times are counted in buckets, of which each has those up to its bound.
func TestCacheLoadTimes(t *testing.T) {
	if LoadTimeBound(0) != time.Microsecond || LoadTimeBound(1) != 4*time.Microsecond || LoadTimeBound(-1) != 0 ||
		LoadTimeBound(13) != 67108864*time.Microsecond || LoadTimeBound(14) != 0 {
		t.Error("bounds", LoadTimeBound(0), LoadTimeBound(13))
	}
	for bucket := 0; bucket < LoadTimeBuckets-1; bucket++ {
		bound := LoadTimeBound(bucket)
		if at, after := bucketOf(bound), bucketOf(bound+1); at != bucket || after != bucket+1 {
			t.Error("a bound", bound, at, after)
		}
	}
	var clock testClock
	c := newCache(t, 10, func(_ context.Context, key string) (int, error) {
		clock.pass(time.Duration(numberOf(key)) * time.Millisecond)
		if key == "key-9" {
			return 0, errDown
		}
		return 0, nil
	}, WithClock(clock.time))
	for _, n := range []int{0, 1, 9, 9, 100000} {
		c.Get(always, keyNumber(n))
	}
	st := c.Stats()
	if st.LoadTime != 100019*time.Millisecond || st.Loads != 5 || st.Errors != 2 {
		t.Errorf("times: %+v", st)
	}
	if st.LoadTimes != [LoadTimeBuckets]uint64{0: 1, 5: 1, 7: 2, 14: 1} {
		t.Error("buckets", st.LoadTimes)
	}
}

// Options whose numbers are out of range.
func TestCacheOptionErrors(t *testing.T) {
	for name, option := range map[string]Option{
		"idle": WithIdle(0), "refresh": WithRefreshAfter(-1), "stale": WithStaleIfError(0), "jitter": WithJitter(1),
		"jitter below 0": WithJitter(-0.1),
	} {
		if c, err := NewCache(10, length, option); c != nil || !errors.Is(err, ErrSize) {
			t.Error(name, err)
		}
		if _, err := NewGroup(option); !errors.Is(err, ErrOption) {
			t.Error(name, err)
		}
	}
	for name, option := range map[string]Option{
		"another hook":         WithOnEvict(func(string, string, Reason) {}),
		"no hook":              WithOnEvict(7),
		"another batch loader": WithBatchLoader(func(context.Context, []int) (map[int]Loaded[int], error) { return nil, nil }),
	} {
		if c, err := NewCache(10, length, option); c != nil || !errors.Is(err, ErrOption) {
			t.Error(name, err)
		}
	}
	c, err := NewCacheOf[string, int](10, nil, WithRefreshAfter(1))
	if err != nil {
		t.Fatal(err)
	}
	defer c.Close()
	if _, err := c.Get(always, "a"); err != ErrNoLoader || c.Stats().Loads != 0 {
		t.Error("no load function", err)
	}
	c.Put("a", 1)
	for n := 0; n < 3; n++ {
		mustGet(t, c, "a", 1)
	}
	// A refresh would run behind them.
	time.Sleep(50 * time.Millisecond)
	if st := c.Stats(); st.Refreshes != 0 {
		t.Error("nothing refreshes", st.Refreshes)
	}
}

// A key that left the small queue lately comes into the main one, where it outlives keys that are asked for once.
func TestCacheGhosts(t *testing.T) {
	o := newCounting(t, 50)
	o.kind.hash = fixedHash
	once := 0
	asksOnce := func(n int) {
		for ; n > 0; n-- {
			once++
			o.Get(always, fmt.Sprint("once ", once))
		}
	}
	// As many are found as the main queue has room for.
	for i := 0; i < 40; i++ {
		o.Get(always, keyNumber(i))
		o.Get(always, keyNumber(i))
	}
	asksOnce(20)
	o.Get(always, "again")
	asksOnce(20)
	if _, ok := o.GetIfPresent("again"); ok {
		t.Error("it has left the small queue")
	}
	o.Get(always, "again")
	asksOnce(40)
	if _, ok := o.GetIfPresent("again"); !ok {
		t.Error("it has come into the main queue")
	}
	found := 0
	for i := 0; i < 40; i++ {
		if _, ok := o.GetIfPresent(keyNumber(i)); ok {
			found++
		}
	}
	if found < 38 {
		t.Error("what is asked for once pushes out what was found", found)
	}
}
