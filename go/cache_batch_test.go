package singleflight

import (
	"context"
	"fmt"
	"runtime"
	"strings"
	"sync"
	"sync/atomic"
	"testing"
	"time"
)

// A cache whose batch loader has this body, which is told of each key list.
func newBatches(
	t *testing.T, load func(ctx context.Context, keys []string) (map[string]Loaded[int], error), options ...Option,
) *Cache[string, int] {
	options = append(options, wide, WithBatchLoader(load))
	return newCache(t, 100, func(_ context.Context, key string) (int, error) { return -numberOf(key), nil }, options...)
}

func numbers(keys []string) map[string]Loaded[int] {
	values := map[string]Loaded[int]{}
	for _, key := range keys {
		values[key] = Loaded[int]{Value: numberOf(key)}
	}
	return values
}

func texts(got []Got[int]) string {
	var all []string
	for _, it := range got {
		if it.Err != nil {
			all = append(all, it.Err.Error())
		} else {
			all = append(all, fmt.Sprint(it.Value))
		}
	}
	return strings.Join(all, ", ")
}

// The Rust and C packages have a test with these calls and numbers.
func TestCacheCountsMeanTheSame(t *testing.T) {
	var clock testClock
	fails := false
	c := newBatches(t, func(_ context.Context, keys []string) (map[string]Loaded[int], error) {
		if fails {
			return nil, errDown
		}
		return numbers(keys), nil
	}, WithTTL(10*time.Second), WithStaleIfError(20*time.Second), WithClock(clock.time))
	mustGet(t, c, "key-1", -1)
	mustGet(t, c, "key-1", -1)
	if got := texts(c.GetMany(always, []string{"key-1", "key-2", "key-3"})); got != "-1, 2, 3" {
		t.Error("a batch", got)
	}
	c.Put("key-4", 4)
	c.Forget("key-4")
	if _, stamp, err := c.GetStamped(always, "key-2"); err != nil || !c.ForgetIf("key-2", stamp) || c.ForgetIf("key-2", stamp) {
		t.Error("one of the two forgets", err)
	}
	c.ForgetTag("tag")
	clock.pass(10 * time.Second)
	fails = true
	if got := texts(c.GetMany(always, []string{"key-1", "key-1"})); got != "-1, -1" {
		t.Error("it is stale", got)
	}
	c.ForgetAll()
	st, timed := c.Stats(), uint64(0)
	for _, count := range st.LoadTimes {
		timed += count
	}
	if st.Loads != 4 || st.Errors != 1 || st.Stale != 1 || st.Forgets != 5 || timed != 3 {
		t.Errorf("its numbers: %+v", st)
	}
}

// Each Get is counted once, as a hit or as a miss: also where many goroutines hit at one time, where the value that is there was
// forgotten, and where it has expired and could stand in for an error.
func TestCacheCountsEachHit(t *testing.T) {
	const goroutines, gets = 8, 20000
	var clock testClock
	c := newCache(t, 10, func(context.Context, string) (int, error) { return 1, nil },
		WithTTL(10*time.Second), WithStaleIfError(20*time.Second), WithClock(clock.time))
	mustGet(t, c, "key", 1)
	var done sync.WaitGroup
	for i := 0; i < goroutines; i++ {
		done.Add(1)
		go func() {
			defer done.Done()
			for n := 0; n < gets; n++ {
				if v, err := c.Get(always, "key"); v != 1 || err != nil {
					t.Error("another value", v, err)
				}
			}
		}()
	}
	done.Wait()
	mustGet(t, c, "key", 1)
	mustGet(t, c, "key", 1)
	c.now.Load().p.forgets("key")
	mustGet(t, c, "key", 1)
	mustGet(t, c, "key", 1)
	clock.pass(10 * time.Second)
	mustGet(t, c, "key", 1)
	if st := c.Stats(); st.Hits != goroutines*gets+3 || st.Misses != 3 {
		t.Errorf("its numbers: %+v", st)
	}
}

// A batch finds what is there, loads the rest by one call, each key once, and keeps it.
func TestCacheGetMany(t *testing.T) {
	var loads []string
	c := newBatches(t, func(_ context.Context, keys []string) (map[string]Loaded[int], error) {
		loads = append(loads, strings.Join(keys, " "))
		values := numbers(keys)
		delete(values, "key-9")
		values["key-50"] = Loaded[int]{Value: 50}
		return values, nil
	})
	mustGet(t, c, "key-3", -3)
	if got := texts(c.GetMany(always, []string{"key-1", "key-2", "key-1", "key-3", "key-9"})); got != "1, 2, 1, -3, "+ErrNotFound.Error() {
		t.Error("a batch", got)
	}
	if got := texts(c.GetMany(always, []string{"key-2", "key-1"})); got != "2, 1" {
		t.Error("it is there", got)
	}
	if got := c.GetMany(always, nil); len(got) != 0 {
		t.Error("no keys", got)
	}
	if len(loads) != 1 || loads[0] != "key-1 key-2 key-9" {
		t.Error("one load", loads)
	}
	if _, ok := c.GetIfPresent("key-50"); ok {
		t.Error("nobody has asked for it")
	}
	st := c.Stats()
	if st.Loads != 4 || st.Errors != 0 || st.Hits != 3 || st.Misses != 5 || st.InUse != 0 {
		t.Errorf("its numbers: %+v", st)
	}
	one := newCache(t, 10, number)
	if got := texts(one.GetMany(always, []string{"key-1", "key-2"})); got != "1, 2" || one.Stats().Loads != 2 {
		t.Error("without a batch loader", got)
	}
}

// Gets of a key join the batch that loads it, and a batch joins a Get's load.
func TestCacheGetManyJoins(t *testing.T) {
	started, release := chans()
	begunOne, releaseOne := chans()
	c := newBatches(t, func(_ context.Context, keys []string) (map[string]Loaded[int], error) {
		close(started)
		<-release
		return numbers(keys), nil
	})
	one := make(chan int, 1)
	go func() {
		v, _ := c.GetWith(always, "key-5", func(context.Context, string) (Loaded[int], error) {
			close(begunOne)
			<-releaseOne
			return Loaded[int]{Value: 55}, nil
		})
		one <- v
	}()
	begun(t, begunOne)
	many := make(chan string, 1)
	go func() { many <- texts(c.GetMany(always, []string{"key-5", "key-6"})) }()
	begun(t, started)
	joined := make(chan int, 1)
	go func() { v, _ := c.Get(always, "key-6"); joined <- v }()
	until(t, "both join", func() bool { return c.Stats().Joins == 2 })
	close(release)
	// The batch's own load is settled before it waits for the other.
	if v := came(t, joined); v != 6 {
		t.Error("a joiner", v)
	}
	close(releaseOne)
	if v, all := came(t, one), came(t, many); v != 55 || all != "55, 6" {
		t.Error("a batch", v, all)
	}
}

// A batch loader that fails, panics or ends its goroutine ends each of its calls so, and none stays open.
func TestCacheGetManyBreaks(t *testing.T) {
	for _, how := range []string{"fails", "panics", "ends"} {
		for _, leaves := range []bool{false, true} {
			testGetManyBreaks(t, how, leaves)
		}
	}
}

func testGetManyBreaks(t *testing.T, how string, leaves bool) {
	started, release := chans()
	c := newBatches(t, func(context.Context, []string) (map[string]Loaded[int], error) {
		close(started)
		<-release
		switch how {
		case "panics":
			panic("as it was told")
		case "ends":
			runtime.Goexit()
		}
		return map[string]Loaded[int]{"key-1": {Value: 1}}, errDown
	}, WithOnPanic(func(any, []byte) { t.Error("somebody waits") }))
	ctx, cancel := context.WithCancel(always)
	defer cancel()
	if !leaves {
		ctx = always
	}
	results := make(chan string, 2)
	result := func(get func() string) {
		got := "ends"
		defer func() {
			if recover() != nil {
				got = "panics"
			}
			results <- got
		}()
		got = get()
	}
	go result(func() string {
		if texts(c.GetMany(ctx, []string{"key-1", "key-2"})) == errDown.Error()+", "+errDown.Error() {
			return "fails"
		}
		return "returns"
	})
	begun(t, started)
	go result(func() string {
		if _, err := c.Get(always, "key-2"); err == errDown {
			return "fails"
		}
		return "returns"
	})
	until(t, "it joins", func() bool { return c.Stats().Joins == 1 })
	close(release)
	for n := 0; n < 2; n++ {
		if got := came(t, results); got != how {
			t.Errorf("a batch that %s, leaves %v: %s", how, leaves, got)
		}
	}
	until(t, "nothing is open", func() bool { return c.Stats().InUse == 0 })
	if st := c.Stats(); st.Loads != 2 || st.Errors != 2 || st.Values != 0 {
		t.Errorf("its numbers: %+v", st)
	}
	mustGet(t, c, "key-1", -1)
}

// A caller leaves when its context ends. The batch goes on, and its values are kept. A panic that nobody waits for is told.
func TestCacheGetManyLeaves(t *testing.T) {
	started, release := chans()
	var panics, loads atomic.Int64
	c := newBatches(t, func(ctx context.Context, keys []string) (map[string]Loaded[int], error) {
		if loads.Add(1) == 3 {
			panic("as it was told")
		}
		if loads.Load() == 2 {
			close(started)
			<-release
			if ctx.Err() != nil {
				t.Error("its context has ended")
			}
			return numbers(keys), nil
		}
		return numbers(keys), nil
	}, WithOnPanic(func(any, []byte) { panics.Add(1) }))
	c.GetMany(always, []string{"key-0"})
	limit := newDeadline(always)
	done := make(chan string, 1)
	go func() { done <- texts(c.GetMany(limit, []string{"key-0", "key-1", "key-2"})) }()
	begun(t, started)
	limit.pass()
	if got := came(t, done); got != "0, context deadline exceeded, context deadline exceeded" {
		t.Error("it leaves", got)
	}
	if got := texts(c.GetMany(limit, []string{"key-0", "key-3"})); got != "0, context deadline exceeded" || loads.Load() != 2 {
		t.Error("its context has ended", got)
	}
	close(release)
	until(t, "the values are kept", func() bool { _, ok := c.GetIfPresent("key-2"); return ok })
	// Whoever waits for a load of another leaves it too.
	hold, let := chans()
	go c.GetWith(always, "key-7", func(context.Context, string) (Loaded[int], error) {
		close(hold)
		<-let
		return Loaded[int]{Value: 7}, nil
	})
	begun(t, hold)
	limit = newDeadline(always)
	joins := c.Stats().Joins
	go func() { done <- texts(c.GetMany(limit, []string{"key-7", "key-1"})) }()
	until(t, "it joins", func() bool { return c.Stats().Joins == joins+1 })
	limit.pass()
	if got := came(t, done); got != "context deadline exceeded, 1" {
		t.Error("it leaves", got)
	}
	close(let)
	until(t, "nothing is open", func() bool { return c.Stats().InUse == 0 })
	if panics.Load() != 0 {
		t.Error("no panic", panics.Load())
	}
}

// What a batch pushes out is told, once all have their values.
func TestCacheGetManyEvicts(t *testing.T) {
	told := 0
	var c *Cache[string, int]
	c = newCache(t, 2, number, wide, WithOnEvict(func(string, int, Reason) { told++; c.Stats() }),
		WithBatchLoader(func(_ context.Context, keys []string) (map[string]Loaded[int], error) {
			return numbers(keys), nil
		}))
	if got := texts(c.GetMany(always, []string{"key-1", "key-2", "key-3", "key-4"})); got != "1, 2, 3, 4" {
		t.Error("a batch", got)
	}
	if told != 2 || c.Len() != 2 {
		t.Error("told of", told, c.Len())
	}
}
