package singleflight

import (
	"context"
	"errors"
	"fmt"
	"math"
	"runtime"
	"runtime/debug"
	"strconv"
	"strings"
	"sync"
	"sync/atomic"
	"testing"
	"time"
)

// What the functions of the user may do: fail at any place, be given keys that do not equal themselves, call the cache, and set clocks.

// panicOf returns what do panics with.
func panicOf(do func()) (it any) {
	defer func() { it = recover() }()
	do()
	return nil
}

// A key that does not equal itself is never found. Each Get of it loads, and gets its own value; nothing is kept.
func TestCacheKeysThatAreNotEqual(t *testing.T) {
	var loads atomic.Int64
	started, release := chans()
	one := make(chan struct{}, 1)
	c, err := NewCache(10, func(ctx context.Context, key float64) (int64, error) {
		if n := loads.Add(1); n > 20 {
			panic("it loads again and again")
		} else if n == 1 {
			close(started)
			<-release
		} else if n == 6 {
			return n, errDown
		}
		return loads.Load(), nil
	}, wide, WithKey(func(key float64) []byte { return []byte(strconv.FormatFloat(key, 'g', -1, 64)) }),
		WithErrorTTL(func(error) time.Duration { return time.Hour }),
		WithBatchLoader(func(_ context.Context, keys []float64) (map[float64]Loaded[int64], error) {
			values := map[float64]Loaded[int64]{}
			for _, key := range keys {
				values[key] = Loaded[int64]{Value: -int64(key)}
			}
			return values, nil
		}))
	if err != nil {
		t.Fatal(err)
	}
	defer c.Close()
	nan := math.NaN()
	var all [2]int64
	go func() { all[0], _ = c.Get(always, nan); one <- struct{}{} }()
	begun(t, started)
	go func() { all[1], _ = c.Get(always, nan); one <- struct{}{} }()
	until(t, "it joins", func() bool { return c.Stats().Joins == 1 })
	close(release)
	came(t, one)
	came(t, one)
	if all != [2]int64{1, 2} {
		t.Error("each has its own", all)
	}
	for n := int64(3); n < 6; n++ {
		if v, err := c.Get(always, nan); v != n || err != nil {
			t.Error("each Get loads once", v, err)
		}
	}
	if v, err := c.Get(always, nan); v != 6 || err != errDown {
		t.Error("it fails", v, err)
	}
	if c.Put(nan, 9) {
		t.Error("a Put of it is kept")
	}
	// What a map has of it is not found.
	got := c.GetMany(always, []float64{5, nan, 5})
	if got[0].Value != -5 || got[2].Value != -5 || got[1].Err != ErrNotFound || got[1].Value != 0 {
		t.Error("a batch", got)
	}
	if st := c.Stats(); st.Values != 1 || st.Weight != 1 || st.InUse != 0 {
		t.Errorf("only key 5 is kept: %+v", st)
	}
}

// A batch tells of each value that its looks have met and that has left, also where a later key breaks it.
func TestCacheGetManyWhoseKeyBreaks(t *testing.T) {
	breaks := false
	o := newCounting(t, 10, WithTTL(time.Minute), WithKey(func(key string) []byte {
		if breaks && key == "c" {
			panic("no bytes")
		}
		return []byte(key)
	}), WithBatchLoader(func(context.Context, []string) (map[string]Loaded[int], error) { return nil, errDown }))
	mustGet(t, o.Cache, "a", 1)
	mustGet(t, o.Cache, "b", 2)
	o.pass(time.Minute)
	breaks = true
	if it := panicOf(func() { o.GetMany(always, []string{"a", "b", "c"}) }); it != "no bytes" {
		t.Error("it panics", it)
	}
	o.mustLeave(t, "a 1 expired", "b 2 expired")
	if st := o.Stats(); st.InUse != 0 || st.Values != 0 {
		t.Errorf("its numbers: %+v", st)
	}
}

// A function of WithKey that panics as a refresh is to begin panics in the Get, and the next Get refreshes.
func TestCacheRefreshWhoseKeyBreaks(t *testing.T) {
	const ofGet = 2 // calls for a Get that refreshes
	var calls, breaks atomic.Int64
	o := newCounting(t, 10, WithRefreshAfter(time.Minute), WithKey(func(key string) []byte {
		if calls.Add(1) == breaks.Load() {
			panic("no bytes")
		}
		return []byte(key)
	}))
	mustGet(t, o.Cache, "key", 1)
	o.pass(time.Minute)
	breaks.Store(calls.Load() + ofGet)
	if it := panicOf(func() { o.Get(always, "key") }); it != "no bytes" {
		t.Error("it panics", it)
	}
	if st := o.Stats(); st.Refreshes != 0 || st.InUse != 0 {
		t.Errorf("none has begun: %+v", st)
	}
	mustGet(t, o.Cache, "key", 1)
	until(t, "the next refreshes", func() bool { v, _ := o.GetIfPresent("key"); return v == 2 })
}

// The function of WithKey may call the cache, also from ForgetIf.
func TestCacheKeyCallsTheCache(t *testing.T) {
	var c *Cache[string, int]
	calls := false
	c = newCache(t, 10, number, wide, WithKey(func(key string) []byte {
		if calls {
			calls = false
			c.All(func(string, int) bool { return true })
			c.Forget("another")
			calls = true
		}
		return []byte(key)
	}))
	_, stamp, _ := c.GetStamped(always, "key-1")
	calls = true
	forgot := make(chan bool, 1)
	go func() { forgot <- c.ForgetIf("key-1", stamp) }()
	if !came(t, forgot) {
		t.Error("it is forgotten")
	}
}

// A recorder that panics for one key of a batch is told of the others.
func TestCacheGetManyWhoseRecorderBreaks(t *testing.T) {
	for how, breaks := range map[string]func(){"panics": func() { panic("not recorded") }, "ends the goroutine": runtime.Goexit} {
		var told []string
		c := newBatches(t, func(_ context.Context, keys []string) (map[string]Loaded[int], error) { return numbers(keys), nil },
			WithRecorder(func(load Load) { told = append(told, load.Key); breaks() }))
		done := make(chan any, 1)
		go func() {
			defer func() { done <- recover() }()
			c.GetMany(always, []string{"key-1", "key-2", "key-3"})
			t.Error("it returns", how)
		}()
		came(t, done)
		if got := strings.Join(told, " "); got != "key-1 key-2 key-3" {
			t.Error("it was told of", how, got)
		}
		if st := c.Stats(); st.InUse != 0 || st.Values != 3 {
			t.Errorf("its numbers: %+v", st)
		}
	}
}

// A function of WithOnEvict that breaks at each value is told of each, however many they are: on a stack that is not much deeper.
func TestCacheOnEvictBreaksAlways(t *testing.T) {
	for _, exits := range []bool{false, true} {
		values := 20_000
		if exits {
			values = 100
		}
		told, first := 0, -1
		c := newCache(t, int64(values), number, WithOnEvict(func(_ string, n int) {
			if told++; told == 1 {
				first = n
			}
			if exits {
				runtime.Goexit()
			}
			panic(n)
		}))
		for i := 0; i < values; i++ {
			c.Get(always, keyNumber(i))
		}
		values = c.Len()
		done := make(chan any, 1)
		go func() {
			defer debug.SetMaxStack(debug.SetMaxStack(1 << 20))
			defer func() { done <- recover() }()
			c.ForgetAll()
		}()
		if it := came(t, done); told != values || values == 0 || !exits && it != first {
			t.Error("it is told of each, and panics as at first", exits, told, values, it, first)
		}
	}
}

// A load that was told to end, since nobody waited for it any more, is no failure of the origin: no stale value stands in for its
// error, and whoever has joined it loads anew.
func TestCacheStaleOfALoadThatWasLeft(t *testing.T) {
	var clock testClock
	c := newCache(t, 10, number, wide, WithClock(clock.time), WithTTL(time.Minute), WithStaleIfError(time.Hour))
	mustGet(t, c, "key-1", 1)
	clock.pass(time.Minute)
	ctx, started, release := newDeadline(always), make(chan struct{}), make(chan struct{})
	left, joined := make(chan error, 1), make(chan int, 1)
	go func() {
		_, err := c.GetWith(ctx, "key-1", func(own context.Context, _ string) (Loaded[int], error) {
			close(started)
			<-own.Done()
			<-release
			return Loaded[int]{}, own.Err()
		})
		left <- err
	}()
	begun(t, started)
	ctx.pass()
	if err := came(t, left); err != context.DeadlineExceeded {
		t.Error("it leaves", err)
	}
	go func() {
		v, _ := c.GetWith(always, "key-1", func(context.Context, string) (Loaded[int], error) { return Loaded[int]{Value: 2}, nil })
		joined <- v
	}()
	until(t, "it joins", func() bool { return c.Stats().Joins == 1 })
	close(release)
	if v := came(t, joined); v != 2 || c.Stats().Stale != 0 {
		t.Error("the origin is not down", v, c.Stats().Stale)
	}
}

// Functions that are nil are as none.
func TestCacheFunctionsThatAreNil(t *testing.T) {
	c := newCache(t, 1, number, wide, WithTTL(time.Hour), WithClock(nil), WithErrorTTL(nil), WithOnPanic(nil), WithRecorder(nil),
		WithOnEvict((func(string, int))(nil)), WithCost[string, int](nil), WithKey[string](nil), WithBatchLoader[string, int](nil))
	mustGet(t, c, "key-1", 1)
	mustGet(t, c, "key-2", 2)
	if got := texts(c.GetMany(always, []string{"key-3", "key-4"})); got != "3, 4" {
		t.Error("a batch", got)
	}
}

// A clock of a test may begin at the zero Time.
func TestCacheClockFromZero(t *testing.T) {
	var now time.Time
	c := newCache(t, 10, number, wide, WithIdle(16*time.Second), WithClock(func() time.Time { return now }))
	mustGet(t, c, "key-1", 1)
	for i := 0; i < 10; i++ {
		now = now.Add(12 * time.Second)
		if _, ok := c.GetIfPresent("key-1"); !ok {
			t.Fatal("it was found twelve seconds ago", i)
		}
	}
	now = now.Add(16 * time.Second)
	if _, ok := c.GetIfPresent("key-1"); ok {
		t.Error("it was idle")
	}
}

// A limit as large as can be has as many ages of tags as a large one.
func TestCacheTagsOfLargeLimits(t *testing.T) {
	for _, entries := range []int64{mostAges, 1 << 40, math.MaxInt64/agesOfValue + 1, math.MaxInt64} {
		var all tags
		if all.open(entries); all.size != mostAges {
			t.Error("the ages for", entries, all.size)
		}
	}
}

// Values of very large costs make room in the order of others: one that was found stays.
func TestCacheEvictsLargeCosts(t *testing.T) {
	// A cache that is made for few values has one shard.
	c := newCache(t, 8, number, wide, WithCost(func(string, int) int64 { return 1 << 59 }))
	if err := c.Resize(8 << 59); err != nil {
		t.Fatal(err)
	}
	for i := 1; i <= 8; i++ {
		mustGet(t, c, keyNumber(i), i)
	}
	mustGet(t, c, keyNumber(1), 1)
	mustGet(t, c, keyNumber(9), 9)
	mustGet(t, c, keyNumber(10), 10)
	if _, ok := c.GetIfPresent(keyNumber(1)); !ok || c.Len() != 8 {
		t.Error("it was found", ok, c.Len())
	}
}

// A GetMany that its context has ended does not look at what its load, which goes on, writes: the race detector sees whether it does.
func TestCacheGetManyLeavesALoadAlone(t *testing.T) {
	for i := 0; i < 20; i++ {
		ctx := newDeadline(always)
		started := make(chan struct{})
		c := newBatches(t, func(_ context.Context, keys []string) (map[string]Loaded[int], error) {
			close(started)
			<-ctx.Done()
			return numbers(keys), nil
		})
		many := make(chan string, 1)
		go func() { many <- texts(c.GetMany(ctx, []string{"key-1", "key-2"})) }()
		begun(t, started)
		var joined sync.WaitGroup
		joined.Add(1)
		go func() { defer joined.Done(); c.Get(always, "key-1") }()
		until(t, "it joins", func() bool { return c.Stats().Joins == 1 })
		ctx.pass()
		all := came(t, many)
		if end := fmt.Sprint(context.DeadlineExceeded); all != "1, 2" && all != end+", "+end {
			t.Error("a batch", all)
		}
		joined.Wait()
	}
}

// Callbacks may call the cache, and what they change is changed: no lock is held.
func TestCacheCallbacksCallTheCache(t *testing.T) {
	var c *Cache[string, int]
	var clock testClock
	var depth atomic.Int64
	within := func(do func()) {
		if depth.Add(1) == 1 {
			do()
		}
		depth.Add(-1)
	}
	all := func() {
		c.Forget("key-1")
		c.Put("key-1", 1)
		c.GetIfPresent("key-1")
		c.ForgetTag("tag")
		c.All(func(key string, _ int) bool { c.Forget(key); return true })
		if c.Resize(3) != nil || c.Resize(2) != nil {
			t.Error("it is resized")
		}
		c.ForgetAll()
	}
	done := make(chan struct{})
	go func() {
		defer close(done)
		c = newCache(t, 2, func(_ context.Context, key string) (int, error) {
			within(all)
			if key == "key-9" {
				return 0, errors.New("it fails")
			}
			return numberOf(key), nil
		}, WithTTL(time.Minute), WithCost(func(string, int) int64 { within(all); return 1 }),
			WithOnEvict(func(string, int, Reason) { within(all) }), WithRecorder(func(Load) { within(all) }),
			WithErrorTTL(func(error) time.Duration { within(all); return time.Second }),
			WithClock(func() time.Time { return clock.time() }))
		for i := 0; i < 30; i++ {
			c.Get(always, keyNumber(i%10))
			clock.pass(10 * time.Second)
			c.GetMany(always, []string{"key-1", "key-2"})
		}
		within(c.Close)
		c.Get(always, "key-3")
	}()
	came(t, done)
	if st := c.Stats(); st.InUse != 0 || st.Weight != 0 || st.Values != 0 {
		t.Errorf("its numbers: %+v", st)
	}
}

// A steady clock that goes on by a century and back makes no value idle that is not, and keeps none that is.
func TestCacheIdleOfClocksThatJump(t *testing.T) {
	const far = 1 << 62 // nanoseconds: 146 years
	var now instant
	for _, it := range []struct {
		idle         time.Duration
		found, later int64
		isThere      bool
	}{
		{math.MaxInt64, far, 5, true},
		{math.MaxInt64, far, far + 5, true},
		// A step of a last look is 1<<31 nanoseconds then.
		{16 * (1<<31 - 1), far, far + int64(time.Hour), false},
		{16 * (1<<31 - 1), 1 << 40, 1<<40 + int64(time.Hour), false},
	} {
		now = instant{}
		c := newCache(t, 10, number, wide, WithIdle(it.idle), func(s *sizes) {
			s.cache.lives.clock = func() instant { return now }
		})
		mustGet(t, c, "key-1", 1)
		f := c.now.Load()
		f.values.find("key-1", c.printOf("key-1")).meet(time.Duration(it.found), &c.room.lives)
		now = instant{it.later, it.later}
		if _, ok := c.GetIfPresent("key-1"); ok != it.isThere {
			t.Errorf("found at %d, and looked for at %d: %t", it.found, it.later, ok)
		}
	}
}
