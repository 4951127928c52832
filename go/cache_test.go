package singleflight

import (
	"container/list"
	"context"
	"errors"
	"fmt"
	"math/rand"
	"os"
	"runtime"
	"strconv"
	"strings"
	"sync"
	"sync/atomic"
	"testing"
	"time"
)

// A cache of so much, whose origin has for each key a version that goes up at each write.
type origin struct {
	*Cache[string, page]
	versions [64]atomic.Int64
	loads    atomic.Int64
}

type page struct {
	key     string
	version int64
}

func keyNumber(i int) string { return fmt.Sprint("key-", i) }

func numberOf(key string) int {
	n, err := strconv.Atoi(strings.TrimPrefix(key, "key-"))
	if err != nil {
		panic(err)
	}
	return n
}

func (o *origin) read(key string) page {
	return page{key, o.versions[numberOf(key)].Load()}
}

func newOrigin(t testing.TB, limit int64, options ...Option) *origin {
	o := &origin{}
	c, err := NewCache(limit, func(_ context.Context, key string) (page, error) {
		o.loads.Add(1)
		return o.read(key), nil
	}, options...)
	if err != nil {
		t.Fatal(err)
	}
	t.Cleanup(c.Close)
	o.Cache = c
	return o
}

// So many slots that two keys of a test share one by a chance of about 1 in 60,000. A test that forgets a key, and then wants the value of
// another one, has keys that are apart.
func wide(s *sizes) { s.slots = 1 << 17 }

func newCache[V any](
	t testing.TB, limit int64, load func(context.Context, string) (V, error), options ...Option,
) *Cache[string, V] {
	c, err := NewCache(limit, load, options...)
	if err != nil {
		t.Fatal(err)
	}
	t.Cleanup(c.Close)
	return c
}

func mustGet[V comparable](t testing.TB, c *Cache[string, V], key string, want V) {
	t.Helper()
	if v, err := c.Get(always, key); v != want || err != nil {
		t.Errorf("Get of %s: %v, %v, not %v", key, v, err, want)
	}
}

func number(_ context.Context, key string) (int, error) { return numberOf(key), nil }

func length(_ context.Context, key string) (int, error) { return len(key), nil }

func TestCacheHits(t *testing.T) {
	loads := 0
	c := newCache(t, 10, func(_ context.Context, key string) (string, error) {
		loads++
		return "load of " + key, nil
	}, wide, WithName("pages"))
	if v, ok := c.GetIfPresent("ada"); ok || v != "" || loads != 0 {
		t.Error("nothing is there", v, ok)
	}
	long := "a key of more than the forty bytes that the library keeps of a key"
	for n := 0; n < 3; n++ {
		mustGet(t, c, "ada", "load of ada")
		mustGet(t, c, "grace", "load of grace")
		mustGet(t, c, long, "load of "+long)
	}
	if v, ok := c.GetIfPresent("ada"); !ok || v != "load of ada" {
		t.Error("it is there", v, ok)
	}
	if loads != 3 {
		t.Error("one load for each key", loads)
	}
	st := c.Stats()
	calls := st.Calls
	st.Calls, st.LoadTime, st.LoadTimes = Stats{}, 0, [LoadTimeBuckets]uint64{}
	want := CacheStats{
		Hits: 7, Misses: 4, Loads: 3, Kept: 3, Values: 3, Weight: 3, Limit: 10,
	}
	if st != want || calls.Loads != 3 || calls.Proved != isProved {
		t.Errorf("its numbers: %+v, %+v", st, calls)
	}
	if c.Name() != "pages" || c.Err() != nil {
		t.Error("its name", c.Name(), c.Err())
	}
}

func TestNewCacheErrors(t *testing.T) {
	load := func(context.Context, string) (int, error) { return 1, nil }
	for name, it := range map[string]struct {
		limit   int64
		load    func(context.Context, string) (int, error)
		options []Option
		want    error
	}{
		"no limit":         {0, load, nil, ErrSize},
		"a limit below 0":  {-1, load, nil, ErrSize},
		"no load function": {1, nil, nil, ErrOption},
		"no loads":         {1, load, []Option{WithLoads(0)}, ErrSize},
		"no TTL":           {1, load, []Option{WithTTL(0)}, ErrSize},
		"a TTL below 0":    {1, load, []Option{WithTTL(-1)}, ErrSize},
		"other values": {1, load, []Option{
			WithCost(func(string, string) int64 { return 1 })}, ErrOption},
		"other keys": {1, load, []Option{
			WithOnEvict(func(page string, _ string) {})}, ErrOption},
		"no memory": {1, load, []Option{
			func(s *sizes) { s.refused = func() bool { return true } }}, ErrMemory},
	} {
		c, err := NewCache(it.limit, it.load, it.options...)
		if it.want == ErrMemory && !isProved {
			continue
		}
		if c != nil || !errors.Is(err, it.want) {
			t.Errorf("%s: %v", name, err)
		}
	}
	for _, option := range []Option{
		WithTTL(1), WithCost(func(string, int) int64 { return 1 }), WithOnEvict(func(string, int) {}),
	} {
		if _, err := New[string, int](option); !errors.Is(err, ErrOption) {
			t.Error("an option of a cache, for an Of", err)
		}
		if _, err := NewGroup(option); !errors.Is(err, ErrOption) {
			t.Error("an option of a cache, for a Group", err)
		}
	}
}

// Of those who miss one key at one time, one loads. After that there is a hit.
func TestCacheShares(t *testing.T) {
	started, release := make(chan struct{}), make(chan struct{})
	var loads atomic.Int64
	c := newCache(t, 10, func(context.Context, string) (int, error) {
		if loads.Add(1) == 1 {
			close(started)
		}
		<-release
		return 7, nil
	}, wide)
	results := make(chan int, 100)
	for i := 0; i < 100; i++ {
		go func(i int) {
			ctx := context.Background()
			if i%2 == 0 {
				var cancel context.CancelFunc
				ctx, cancel = context.WithTimeout(ctx, time.Minute)
				defer cancel()
			}
			v, err := c.Get(ctx, "ada")
			if err != nil {
				t.Error(err)
			}
			results <- v
		}(i)
	}
	begun(t, started)
	until(t, "all ask", func() bool {
		st := c.Stats()
		return st.Misses == 100 && st.Calls.Loads+st.Calls.Joins == 100
	})
	close(release)
	for i := 0; i < 100; i++ {
		if v := came(t, results); v != 7 {
			t.Error("the load's value", v)
		}
	}
	mustGet(t, c, "ada", 7)
	if n := loads.Load(); n != 1 {
		t.Error("one load", n)
	}
}

// Between two Forgets of a key one load runs, also where a Get missed before the load had ended, and asked after.
func TestCacheLoadsOnceBetweenForgets(t *testing.T) {
	var loads atomic.Int64
	c, err := NewCache(10, func(context.Context, string) (int64, error) { return loads.Add(1), nil })
	if err != nil {
		t.Fatal(err)
	}
	defer c.Close()
	rounds := int64(20000)
	if testing.Short() {
		rounds = 5000
	}
	for round := int64(1); round <= rounds; round++ {
		c.Forget("key")
		var all sync.WaitGroup
		start := make(chan struct{})
		for i := 0; i < 8; i++ {
			all.Add(1)
			go func() {
				defer all.Done()
				<-start
				if v, err := c.Get(context.Background(), "key"); err != nil || v != round {
					t.Error("another load's value", v, err, round)
				}
			}()
		}
		close(start)
		all.Wait()
		if loads.Load() != round || t.Failed() {
			t.Fatal("loads, after so many Forgets", loads.Load(), round)
		}
	}
}

// Errors are shared by those who wait, and not kept.
func TestCacheErrors(t *testing.T) {
	started, release := make(chan struct{}), make(chan struct{})
	failed := errors.New("the load failed")
	var loads atomic.Int64
	c := newCache(t, 10, func(context.Context, string) (int, error) {
		if loads.Add(1) == 1 {
			close(started)
			<-release
			return 3, failed
		}
		return 7, nil
	}, wide)
	type result struct {
		v   int
		err error
	}
	results := make(chan result, 2)
	get := func() {
		v, err := c.Get(always, "ada")
		results <- result{v, err}
	}
	go get()
	begun(t, started)
	go get()
	until(t, "both ask", func() bool { return c.Stats().Calls.Joins == 1 })
	close(release)
	for i := 0; i < 2; i++ {
		if r := came(t, results); r.err != failed || r.v != 3 {
			t.Error("the error is shared, with the value", r)
		}
	}
	if st := c.Stats(); st.Values != 0 || st.Kept != 0 || st.Errors != 1 {
		t.Errorf("an error is kept: %+v", st)
	}
	mustGet(t, c, "ada", 7)
	mustGet(t, c, "ada", 7)
	if n := loads.Load(); n != 2 {
		t.Error("loads", n)
	}
}

// A value may be of any type, and a nil one is a value.
func TestCacheValues(t *testing.T) {
	c := newCache(t, 10, func(_ context.Context, key string) (error, error) {
		if key == "none" {
			return nil, nil
		}
		return errors.New(key), nil
	}, wide)
	for n := 0; n < 2; n++ {
		if v, err := c.Get(always, "none"); v != nil || err != nil {
			t.Error("a nil value", v, err)
		}
		if v, err := c.Get(always, "ada"); v == nil || v.Error() != "ada" || err != nil {
			t.Error("an interface", v, err)
		}
	}
	if st := c.Stats(); st.Loads != 2 {
		t.Errorf("loads: %+v", st)
	}
	type name string
	big, err := NewCache(3, func(_ context.Context, key name) ([100]byte, error) {
		return [100]byte{99: key[0]}, nil
	}, wide)
	if err != nil {
		t.Fatal(err)
	}
	defer big.Close()
	for n := 0; n < 2; n++ {
		if v, err := big.Get(always, "x"); v[99] != 'x' || v[0] != 0 || err != nil {
			t.Error("an array", v, err)
		}
	}
}

func TestCacheForget(t *testing.T) {
	o := newOrigin(t, 10, wide)
	keys := apart(o.Cache, 3)
	one, other := keys[0], keys[1]
	mustGet(t, o.Cache, one, page{one, 0})
	mustGet(t, o.Cache, other, page{other, 0})
	o.versions[numberOf(one)].Store(1)
	mustGet(t, o.Cache, one, page{one, 0})
	o.Forget(one)
	if st := o.Stats(); st.Values != 1 || st.Left != 1 || st.Evictions != 0 {
		t.Errorf("it has left: %+v", st)
	}
	if _, ok := o.GetIfPresent(one); ok {
		t.Error("it was forgotten")
	}
	mustGet(t, o.Cache, one, page{one, 1})
	mustGet(t, o.Cache, other, page{other, 0})
	if n := o.loads.Load(); n != 3 {
		t.Error("the other key is loaded once", n)
	}
	o.Forget(keys[2])
}

// Each look after a Forget asks whether the call is current: a value is not found whose stamp has ended,
// although nobody has taken it out.
func TestCacheAsksTheLibrary(t *testing.T) {
	o := newOrigin(t, 10, wide)
	for n := int64(0); n < 3; n++ {
		o.versions[1].Store(n)
		mustGet(t, o.Cache, "key-1", page{"key-1", n})
		o.now.Load().p.forgets("key-1")
		if v, ok := o.GetIfPresent("key-1"); ok {
			t.Error("its stamp has ended", v)
		}
	}
}

// What ends the open calls of a key: a Forget of it, or of all, or a Put.
var ends = map[string]func(c *Cache[string, page]){
	"Forget":    func(c *Cache[string, page]) { c.Forget("key-1") },
	"ForgetAll": func(c *Cache[string, page]) { c.ForgetAll() },
	"Put":       func(c *Cache[string, page]) { c.Put("key-1", page{"key-1", 1}) },
}

// A load that runs when its key is forgotten: those who wait for it get its result, nobody who asks
// later does, and it is not kept.
func TestCacheForgetsOpenLoads(t *testing.T) {
	for name, end := range ends {
		for _, leaves := range []bool{false, true} {
			testForgetsOpenLoad(t, name, end, leaves)
		}
	}
}

func testForgetsOpenLoad(t *testing.T, name string, end func(*Cache[string, page]), leaves bool) {
	name = fmt.Sprint(name, ", leaves: ", leaves)
	started, release := make(chan struct{}), make(chan struct{})
	var loads atomic.Int64
	c := newCache(t, 10, func(_ context.Context, key string) (page, error) {
		n := loads.Add(1) - 1
		if n == 0 {
			close(started)
			<-release
		}
		return page{key, n}, nil
	}, wide)
	results := make(chan page, 3)
	get := func() {
		ctx := context.Background()
		if leaves {
			var cancel context.CancelFunc
			ctx, cancel = context.WithTimeout(ctx, time.Minute)
			defer cancel()
		}
		v, err := c.Get(ctx, "key-1")
		if err != nil {
			t.Error(name, err)
		}
		results <- v
	}
	go get()
	begun(t, started)
	go get()
	until(t, "it joins", func() bool { return c.Stats().Calls.Joins == 1 })
	within(t, patience, name+": it waits for nobody", func() { end(c) })
	if v, ok := c.GetIfPresent("key-1"); ok && v.version == 0 {
		t.Error(name, "is there")
	}
	within(t, patience, name+": a later Get does not wait for the older load", func() {
		v, err := c.Get(context.Background(), "key-1")
		if v.version == 0 || v.key != "key-1" || err != nil {
			t.Error(name, "an older value", v, err)
		}
	})
	close(release)
	for waiting := 2; waiting > 0; waiting-- {
		if v := came(t, results); v != (page{"key-1", 0}) {
			t.Error(name, "who waited has the load's value", v)
		}
	}
	for n := 0; n < 3; n++ {
		if v, err := c.Get(always, "key-1"); v.version == 0 || err != nil {
			t.Error(name, "the older value came back", v, err)
		}
	}
}

func TestCachePut(t *testing.T) {
	o := newOrigin(t, 10, wide)
	if !o.Put("key-1", page{"key-1", 5}) {
		t.Error("it is kept")
	}
	mustGet(t, o.Cache, "key-1", page{"key-1", 5})
	if !o.Put("key-1", page{"key-1", 6}) {
		t.Error("it is kept, in the place of the older")
	}
	mustGet(t, o.Cache, "key-1", page{"key-1", 6})
	st := o.Stats()
	if o.loads.Load() != 0 || st.Loads != 0 || st.Values != 1 || st.Weight != 1 || st.Kept != 2 {
		t.Errorf("nothing is loaded: %+v", st)
	}
	// One that costs too much is not kept, and the older value is forgotten.
	heavy := newCache(t, 10, func(context.Context, string) (int, error) { return 1, nil },
		wide, WithCost(func(_ string, v int) int64 { return int64(v) }))
	for _, cost := range []int{11, -1} {
		heavy.Put("ada", 2)
		if heavy.Put("ada", cost) {
			t.Error("it costs too much", cost)
		}
		if v, ok := heavy.GetIfPresent("ada"); ok {
			t.Error("the older value is there", v)
		}
		if st := heavy.Stats(); st.Weight != 0 || st.Values != 0 {
			t.Errorf("weight: %+v", st)
		}
	}
	if !heavy.Put("ada", 10) || !heavy.Put("grace", 0) {
		t.Error("as much as there is, and nothing")
	}
	heavy.Put("alan", 11)
	if st := heavy.Stats(); st.Values != 2 || st.Weight != 10 {
		t.Errorf("it pushes nothing out: %+v", st)
	}
}

// A Put finds a load that has begun since its Forget. It waits for nothing, and is not kept.
func TestCachePutBesideALoad(t *testing.T) {
	started, release := chans()
	c := newCache(t, 10, func(context.Context, string) (int, error) {
		close(started)
		<-release
		return 1, nil
	}, wide)
	got := make(chan int, 1)
	go func() { v, _ := c.Get(always, "ada"); got <- v }()
	begun(t, started)
	// As Put does after its Forget.
	n := nodeOf(&c.room, &known[string, int]{key: "ada", print: c.printOf("ada"), cost: 1, value: 2})
	within(t, patience, "it waits for nobody", func() {
		last := c.room.begunOf(n.print)
		if kept, out := c.now.Load().put("ada", n, last, last.Add(1)); len(out) != 0 || kept {
			t.Error("the load is newer")
		}
	})
	close(release)
	if v := came(t, got); v != 1 {
		t.Error("the load's value", v)
	}
	mustGet(t, c, "ada", 1)
	until(t, "nothing is left", func() bool { return c.Stats().Calls.InUse == 0 })
}

// A Put leads a call although another has begun meanwhile. A caller that joins that one does not get the Put's value.
func TestCachePutThatIsLate(t *testing.T) {
	c := newCache(t, 10, func(context.Context, string) (int, error) { return 2, nil }, wide)
	f := c.now.Load()
	n := nodeOf(&c.room, &known[string, int]{key: "ada", print: c.printOf("ada"), cost: 1, value: 1})
	last := c.room.begunOf(n.print)
	number := last.Add(1)
	last.Add(1)
	got := make(chan int, 1)
	a := asking{key: "ada"}
	f.p.asks(&a)
	go func() { v, _ := c.Get(always, "ada"); got <- v }()
	until(t, "it joins", func() bool { return c.Stats().Calls.Joins == 1 })
	kept, _ := f.settle(&a, n, last, number)
	if v := came(t, got); v != 2 || kept {
		t.Error("who has joined loads", v)
	}
}

// A Put whose function of WithCost panics, or ends its goroutine, is a Forget: the value has left by then.
func TestCachePutWhoseCostBreaks(t *testing.T) {
	for how, breaks := range map[string]func(){
		"panics": func() { panic("no cost") }, "ends the goroutine": runtime.Goexit,
	} {
		var puts bool
		var left []int
		var c *Cache[string, int]
		c = newCache(t, 4, func(context.Context, string) (int, error) { return 1, nil },
			WithCost(func(_ string, v int) int64 {
				if puts {
					// A look takes a value out that is not current.
					if how == "panics" {
						if v, ok := c.GetIfPresent("key"); ok {
							t.Error("the older value is current when the cost is asked for", v)
						}
					}
					breaks()
				}
				return 1
			}), WithOnEvict(func(_ string, v int) { left = append(left, v) }))
		mustGet(t, c, "key", 1)
		done := make(chan struct{})
		go func() {
			defer close(done)
			defer func() { recover() }()
			puts = true
			c.Put("key", 2)
			t.Error("it returns", how)
		}()
		came(t, done)
		puts = false
		if st := c.Stats(); st.Values != 0 {
			t.Error("the older value is there", how, st)
		}
		if v, ok := c.GetIfPresent("key"); ok {
			t.Error("the older value is current", how, v)
		}
		if len(left) != 1 || left[0] != 1 {
			t.Error("what has left", how, left)
		}
		if !c.Put("key", 3) {
			t.Error("the next Put keeps its value", how)
		}
		mustGet(t, c, "key", 3)
	}
}

// A load that began and ended while a Put asked for the cost has the newer value.
func TestCachePutWhoseCostLoads(t *testing.T) {
	var c *Cache[string, int]
	puts := false
	c = newCache(t, 4, func(context.Context, string) (int, error) { return 2, nil },
		WithCost(func(string, int) int64 {
			if puts {
				puts = false
				c.Get(always, "key")
			}
			return 1
		}))
	puts = true
	if c.Put("key", 1) {
		t.Error("a Put is kept though a load has begun")
	}
	mustGet(t, c, "key", 2)
}

// A Put pushes two values out, and the function of WithOnEvict panics at the first. It is told of both.
func TestCachePutWhoseOnEvictPanics(t *testing.T) {
	told, puts := 0, true
	c := newCache(t, 2, func(_ context.Context, key string) (int, error) { return 1, nil },
		WithCost(func(_ string, v int) int64 { return int64(v) }),
		WithOnEvict(func(string, int) {
			told++
			if puts {
				panic("as it was told")
			}
		}))
	mustGet(t, c, "a", 1)
	mustGet(t, c, "b", 1)
	func() {
		defer func() { recover() }()
		c.Put("c", 2)
	}()
	puts = false
	if told != 2 {
		t.Error("told of", told)
	}
	mustGet(t, c, "c", 2)
}

func TestCacheForgetAll(t *testing.T) {
	left := map[string]int{}
	o := newOrigin(t, 100, wide, WithOnEvict(func(key string, v page) {
		if v.key != key {
			t.Error("another's value", key, v)
		}
		left[key]++
	}))
	for i := 0; i < 50; i++ {
		o.Get(always, keyNumber(i))
		o.versions[i].Store(1)
	}
	o.ForgetAll()
	if st := o.Stats(); st.Values != 0 || st.Weight != 0 || len(left) != 50 {
		t.Errorf("all have left: %+v, %d", st, len(left))
	}
	for i := 0; i < 50; i++ {
		if left[keyNumber(i)] != 1 {
			t.Error("told", keyNumber(i), left[keyNumber(i)])
		}
		mustGet(t, o.Cache, keyNumber(i), page{keyNumber(i), 1})
		mustGet(t, o.Cache, keyNumber(i), page{keyNumber(i), 1})
	}
	if n := o.loads.Load(); n != 100 {
		t.Error("each is loaded once more", n)
	}
}

// Each of many ForgetAlls at one time forgets what was loaded before it was called.
func TestCacheForgetAlls(t *testing.T) {
	c := newCache(t, 100, number)
	var all sync.WaitGroup
	for i := 0; i < 50; i++ {
		mustGet(t, c, keyNumber(i), i)
		all.Add(1)
		go func(i int) {
			defer all.Done()
			c.ForgetAll()
			if _, ok := c.GetIfPresent(keyNumber(i)); ok {
				t.Error("a value that was loaded before")
			}
		}(i)
	}
	all.Wait()
}

// Loads hang, and the cache is forgotten again and again. All who wait for the loads get their results when these end, and
// nothing of them is kept.
func TestCacheForgetAllBesideHungLoads(t *testing.T) {
	const rounds = 20
	release := make(chan struct{})
	loads := make(chan int, rounds)
	n := 0
	c := newCache(t, 1000, func(ctx context.Context, key string) (int, error) {
		// One load at a time begins.
		n++
		mine := n
		loads <- mine
		<-release
		return mine, nil
	})
	type got struct{ round, v int }
	results := make(chan got, 3*rounds)
	ctx, cancel := context.WithCancel(always)
	for round := 1; round <= rounds; round++ {
		get := func(ctx context.Context) {
			go func(round int) {
				v, err := c.Get(ctx, "key")
				if err != nil {
					t.Error(err)
				}
				results <- got{round, v}
			}(round)
		}
		get([]context.Context{always, ctx}[round%2])
		if mine := came(t, loads); mine != round {
			t.Error("a load", mine, round)
		}
		joins := c.Stats().Calls.Joins
		get(always)
		get(ctx)
		left, leave := context.WithCancel(always)
		gone := make(chan error)
		go func() { _, err := c.Get(left, "key"); gone <- err }()
		until(t, "all wait", func() bool { return c.Stats().Calls.Joins == joins+3 })
		leave()
		if err := came(t, gone); err != context.Canceled {
			t.Error("one leaves", err)
		}
		c.ForgetAll()
	}
	if st := c.Stats().Calls; st.InUse != rounds {
		t.Error("its loads run", st)
	}
	close(release)
	for i := 0; i < 3*rounds; i++ {
		if it := came(t, results); it.v != it.round {
			t.Error("a result", it)
		}
	}
	cancel()
	until(t, "nobody is in use", func() bool { return c.Stats().Calls.InUse == 0 })
	if st := c.Stats(); st.Kept != 0 || st.Loads != rounds || st.Calls.Loads != rounds || len(c.olds) != 0 {
		t.Error("its numbers", st)
	}
}

// Where there is no memory for a new library's group, a ForgetAll forgets all the same.
func TestCacheForgetAllWithoutMemory(t *testing.T) {
	var refuses atomic.Bool
	o := newOrigin(t, 100, wide, func(s *sizes) { s.refused = refuses.Load })
	mustGet(t, o.Cache, "key-1", page{"key-1", 0})
	o.versions[1].Store(1)
	refuses.Store(true)
	o.ForgetAll()
	mustGet(t, o.Cache, "key-1", page{"key-1", 1})
	if isProved && o.Err() != ErrMemory || o.Stats().Values != 1 {
		t.Error("plain Go serves", o.Err(), o.Stats())
	}
	refuses.Store(false)
	o.ForgetAll()
	if o.Err() != nil || o.Stats().Values != 0 {
		t.Error("the library serves again", o.Err(), o.Stats())
	}
}

// Keys that share a slot of the library, a set, and a hash, have their own values.
func TestCacheKeysThatShare(t *testing.T) {
	o := newOrigin(t, 4)
	var all sync.WaitGroup
	for g := 0; g < 8; g++ {
		all.Add(1)
		go func(g int) {
			defer all.Done()
			random := rand.New(rand.NewSource(int64(g)))
			for n := 0; n < 5000; n++ {
				key := keyNumber(random.Intn(64))
				if v, err := o.Get(always, key); v.key != key || err != nil {
					t.Error("another's value", key, v, err)
				}
				if v, ok := o.GetIfPresent(key); ok && v.key != key {
					t.Error("another's value", key, v)
				}
			}
		}(g)
	}
	all.Wait()
}

// A table of values in one shard, and what keeps one in it, for tests of the table alone.
func tableWith(t *testing.T, limit int64) (*values[string, int], func(key string, print uint32) (*node[string, int], []*node[string, int])) {
	c := newCache(t, limit, number, wide, WithOnEvict(func(string, int) {}))
	table := &c.now.Load().values
	table.open(c.now.Load().p, &c.room, 1)
	return table, func(key string, print uint32) (*node[string, int], []*node[string, int]) {
		a := asking{key: fmt.Sprint("call of ", key)}
		table.p.asks(&a)
		n := nodeOf(&c.room, &known[string, int]{key: key, print: print, cost: 1})
		_, out := table.keep(n, a.stamp.packed())
		table.p.ends(&a)
		return n, out
	}
}

// Two keys of one hash have two values, and a key with the hash of another has none.
func TestTableHash(t *testing.T) {
	const same = 0x12345678
	table, keep := tableWith(t, 100)
	a, _ := keep("a", same)
	if n, _, _ := table.look("b", same, watch{}, nil); n != nil {
		t.Error("b has a's value")
	}
	b, out := keep("b", same)
	if len(out) != 0 {
		t.Error("a leaves for b", out[0].key)
	}
	// The hashes differ in bits that choose no bucket yet.
	c, _ := keep("c", same^1<<20)
	for i := 0; i < 3; i++ {
		for key, want := range map[string]*node[string, int]{"a": a, "b": b, "d": nil} {
			if n, _, _ := table.look(key, same, watch{}, nil); n != want {
				t.Error("a look", key, n)
			}
		}
		if n, _, _ := table.look("c", same^1<<20, watch{}, nil); n != c {
			t.Error("a look at c", n)
		}
		// The shard grows.
		for n := 0; n < 20; n++ {
			keep(keyNumber(20*i+n), uint32(n)*0x9e3779b9)
		}
	}
	table.drop(a, ReasonForgotten)
	if n, _, _ := table.look("b", same, watch{}, nil); n != b {
		t.Error("b left with a")
	}
	if out := table.close(ReasonClosed); len(out) != 62 {
		t.Error("all leave", len(out))
	}
}

// The values cost no more than the limit together, whatever comes; what they cost is what is told.
func TestCacheLimit(t *testing.T) {
	for _, slots := range []uint64{1 << 14, 1} {
		var told sync.Map
		c := newCache(t, 100, number,
			func(s *sizes) { s.slots = slots }, WithCost(func(_ string, v int) int64 { return int64(v) }),
			WithOnEvict(func(key string, v int) { told.Store(key, v) }))
		stop := make(chan struct{})
		var all, watch sync.WaitGroup
		watch.Add(1)
		go func() {
			defer watch.Done()
			for {
				select {
				case <-stop:
					return
				default:
				}
				if st := c.Stats(); st.Weight > 100 || st.Weight < 0 {
					t.Error("more than the limit", st.Weight)
				}
				runtime.Gosched()
			}
		}()
		for g := 0; g < 4; g++ {
			all.Add(1)
			go func(g int) {
				defer all.Done()
				random := rand.New(rand.NewSource(int64(g)))
				for n := 0; n < 5000; n++ {
					key := keyNumber(random.Intn(120))
					switch random.Intn(8) {
					case 0:
						c.Forget(key)
					case 1:
						c.Put(key, numberOf(key))
					case 2:
						if random.Intn(100) == 0 {
							c.ForgetAll()
						}
					default:
						mustGet(t, c, key, numberOf(key))
					}
				}
			}(g)
		}
		all.Wait()
		close(stop)
		watch.Wait()
		sum := int64(0)
		for _, it := range c.now.Load().values.all() {
			sum += it.cost()
		}
		if st := c.Stats(); sum != st.Weight || sum > 100 {
			t.Errorf("%d slots: the values cost %d: %+v", slots, sum, st)
		}
		// All of the room is there yet: what was forgotten last may have left little else.
		mustGet(t, c, keyNumber(100), 100)
		if v, ok := c.GetIfPresent(keyNumber(100)); !ok || c.Weight() != 100 {
			t.Errorf("%d slots: a value of the limit is not kept: %d, %+v", slots, v, c.Stats())
		}
	}
}

// One at a time: what the table has after each step costs what it says, within the limit.
func TestCacheLimitByStep(t *testing.T) {
	random := rand.New(rand.NewSource(1))
	for _, limit := range []int64{1, 2, 3, 10, 50} {
		c := newCache(t, limit, number,
			WithCost(func(_ string, v int) int64 { return int64(v % 7) }))
		for n := 0; n < 2000; n++ {
			key := keyNumber(random.Intn(40))
			if n%9 == 0 {
				c.Put(key, random.Intn(60))
			} else {
				c.Get(always, key)
			}
			sum := int64(0)
			for _, it := range c.now.Load().values.all() {
				sum += it.cost()
			}
			if st := c.Stats(); sum > limit || sum != st.Weight {
				t.Fatalf("limit %d: they cost %d: %+v", limit, sum, st)
			}
		}
	}
}

// How many values the evictions of a cache have come to.
func passes[V any](c *Cache[string, V]) (n uint64) {
	for i := range c.now.Load().values.shards {
		n += c.now.Load().values.shards[i].passes
	}
	return n
}

// Evictions take a constant number of steps, also where the cache had many more values before, of which the last are
// anywhere in the table.
func TestCacheEvictionSteps(t *testing.T) {
	const small, large, gets = 30000, 300, 2000
	c := newCache(t, small, number, WithCost(func(_ string, i int) int64 {
		if i < small {
			return 1
		}
		return small / large
	}), wide)
	c.kind.hash = fixedHash
	for i := 0; i < small; i++ {
		mustGet(t, c, keyNumber(i), i)
	}
	// The small values leave.
	for i := small; i < small+2*large; i++ {
		mustGet(t, c, keyNumber(i), i)
	}
	// Those that are there have as many marks as a node can have.
	for n := 0; n < mostMarks; n++ {
		for i := small + large; i < small+2*large; i++ {
			c.GetIfPresent(keyNumber(i))
		}
	}
	before, evicted := passes(c), c.Stats().Evictions
	for i := small + 2*large; i < small+2*large+gets; i++ {
		mustGet(t, c, keyNumber(i), i)
	}
	evicted = c.Stats().Evictions - evicted
	if evicted < gets/2 {
		t.Fatal("evicted", evicted)
	}
	// Each that was passed and stayed has lost a mark, or has come to the main queue.
	if steps := passes(c) - before; steps > evicted+(mostMarks+1)*large {
		t.Errorf("%d steps for %d evictions", steps, evicted)
	}
}

// A hash that is the same in each process, for tests whose numbers come of which keys share a shard, a bucket or a row of ghosts.
func fixedHash(key string) uint64 {
	h := uint64(0xcbf29ce484222325)
	for i := 0; i < len(key); i++ {
		h = (h ^ uint64(key[i])) * 0x100000001b3
	}
	h = (h ^ h>>32) * 0x9e3779b97f4a7c15
	return h ^ h>>29
}

// Hits of a cache of so many values by least recent use, which makes room for each value.
func hitsByLRU(trace []uint64, values int) (hits int) {
	order, at := list.New(), map[uint64]*list.Element{}
	for _, key := range trace {
		if it := at[key]; it != nil {
			hits++
			order.MoveToFront(it)
			continue
		}
		if len(at) == values {
			delete(at, order.Remove(order.Back()).(uint64))
		}
		at[key] = order.PushFront(key)
	}
	return hits
}

// What makes room is chosen well: there are as many hits as by least recent use, but for four in a
// hundred gets; and where keys are asked for by zipf's law, or once, more.
func TestCacheHitRatio(t *testing.T) {
	if testing.Short() {
		t.Skip("it is the same however the package was built")
	}
	const keys, gets = 10000, 100000
	random := rand.New(rand.NewSource(1))
	draw := rand.NewZipf(random, 1.01, 1, keys-1)
	var zipf, scan, moves []uint64
	for i := uint64(0); i < gets; i++ {
		zipf = append(zipf, draw.Uint64())
		scan = append(scan, draw.Uint64(), 1<<20+i)
		moves = append(moves, i/50+uint64(random.Intn(keys/25)))
	}
	for _, it := range []struct {
		name   string
		trace  []uint64
		values int
		more   float64
	}{
		{"by zipf, 1 %", zipf, keys / 100, 3},
		{"by zipf, 5 %", zipf, keys / 20, 2},
		{"by zipf, 20 %", zipf, keys / 5, 0},
		{"one in two is asked for once", scan, keys / 20, 3},
		{"the keys change", moves, keys / 20, -4},
	} {
		c := newCache(t, int64(it.values), number, wide)
		// By the seeds of one process in thousands, keys that change have some points less.
		c.kind.hash = fixedHash
		for _, key := range it.trace {
			c.Get(always, keyNumber(int(key)))
		}
		percent := 100 / float64(len(it.trace))
		ours, lru := float64(c.Stats().Hits)*percent, float64(hitsByLRU(it.trace, it.values))*percent
		t.Logf("%s: %.2f %% hits, and %.2f by least recent use", it.name, ours, lru)
		if ours < lru+it.more {
			t.Errorf("%s: %.2f %% hits, and %.2f by least recent use", it.name, ours, lru)
		}
	}
}

// Each value that leaves is told of once, and one that stays is not; a callback may call the cache.
func TestCacheOnEvict(t *testing.T) {
	var next atomic.Int64
	type told struct{ times atomic.Int64 }
	var all [1 << 18]told
	var c *Cache[string, int64]
	var depth atomic.Int64
	c = newCache(t, 20, func(context.Context, string) (int64, error) { return next.Add(1), nil },
		WithLoads(4), WithOnEvict(func(key string, id int64) {
			deep := depth.Add(1)
			all[id].times.Add(1)
			if deep < 4 {
				switch id % 8 {
				case 0:
					c.Get(always, key)
				case 1:
					c.Forget(key)
				case 2:
					c.Put(key, next.Add(1))
				case 3:
					c.GetIfPresent(key)
				case 4:
					if id%512 == 4 {
						c.ForgetAll()
					}
				case 5:
					ctx, cancel := context.WithTimeout(always, time.Minute)
					c.Get(ctx, key+"x")
					cancel()
				}
			}
			depth.Add(-1)
			c.Stats()
		}))
	within(t, 5*patience, "a callback that calls the cache", func() {
		var workers sync.WaitGroup
		for g := 0; g < 4; g++ {
			workers.Add(1)
			go func(g int) {
				defer workers.Done()
				random := rand.New(rand.NewSource(int64(g)))
				for n := 0; n < 3000; n++ {
					key := keyNumber(random.Intn(60))
					switch random.Intn(12) {
					case 0:
						c.Forget(key)
					case 1:
						c.Put(key, next.Add(1))
					case 2:
						if random.Intn(50) == 0 {
							c.ForgetAll()
						}
					case 3:
						ctx, cancel := context.WithTimeout(always, time.Minute)
						c.Get(ctx, key)
						cancel()
					default:
						c.Get(always, key)
					}
				}
			}(g)
		}
		workers.Wait()
	})
	sum := uint64(0)
	until(t, "the callbacks of loads with goroutines of their own end", func() bool {
		sum = 0
		for id := range all {
			sum += uint64(all[id].times.Load())
		}
		return depth.Load() == 0 && c.Stats().Left == sum
	})
	stays := map[int64]bool{}
	for _, it := range c.now.Load().values.all() {
		stays[it.value] = true
	}
	for id := range all {
		n := all[id].times.Load()
		if n > 1 || n > 0 && stays[int64(id)] {
			t.Errorf("value %d is told of %d times, and stays: %v", id, n, stays[int64(id)])
		}
	}
	st := c.Stats()
	if st.Left != sum || st.Kept != sum+uint64(len(stays)) {
		t.Errorf("%d left and %d stay: %+v", sum, len(stays), st)
	}
	c.Close()
	for id := range stays {
		if n := all[id].times.Load(); n != 1 {
			t.Errorf("value %d is told of %d times after Close", id, n)
		}
	}
}

// All who wait for a load have its value before a callback is called for what it pushed out.
func TestCacheOnEvictComesLast(t *testing.T) {
	for _, leaves := range []bool{false, true} {
		started, release := make(chan struct{}), make(chan struct{})
		joined := make(chan int, 2)
		told := make(chan bool, 1)
		c := newCache(t, 1, func(_ context.Context, key string) (int, error) {
			if key == "second" {
				close(started)
				<-release
			}
			return len(key), nil
		}, wide, WithOnEvict(func(key string, _ int) {
			if key != "first" {
				return // at the end
			}
			wait := 1
			if leaves {
				wait = 2 // the leader too, whose load has a goroutine of its own
			}
			for ; wait > 0; wait-- {
				select {
				case <-joined:
				case <-time.After(patience):
					told <- false
					return
				}
			}
			told <- true
		}))
		mustGet(t, c, "first", 5)
		go func() {
			ctx, cancel := context.WithCancel(always)
			defer cancel()
			if !leaves {
				ctx = always
			}
			v, _ := c.Get(ctx, "second")
			joined <- v
		}()
		begun(t, started)
		go func() { v, _ := c.Get(always, "second"); joined <- v }()
		until(t, "it waits", func() bool { return c.Stats().Calls.Joins == 1 })
		close(release)
		if !came(t, told) {
			t.Error("a joiner waits for a callback")
		}
	}
}

// A callback that panics, or ends its goroutine: the others are told all the same.
func TestCacheOnEvictPanics(t *testing.T) {
	for _, ends := range []bool{false, true} {
		var told, panics atomic.Int64
		c := newCache(t, 100, length,
			wide, WithOnEvict(func(string, int) {
				if told.Add(1)%2 == 1 {
					if ends {
						runtime.Goexit()
					}
					panic("as it was told")
				}
			}))
		for i := 0; i < 10; i++ {
			c.Get(always, keyNumber(i))
		}
		done := make(chan struct{})
		go func() {
			defer close(done)
			defer func() {
				if recover() != nil {
					panics.Add(1)
				}
			}()
			c.ForgetAll()
		}()
		came(t, done)
		if told.Load() != 10 || panics.Load() == 0 != ends {
			t.Error("all are told, and it panics", told.Load(), panics.Load())
		}
		mustGet(t, c, "ada", 3)
		told.Store(1)
	}
}

func TestCachePanics(t *testing.T) {
	for _, leaves := range []bool{false, true} {
		for _, ends := range []bool{false, true} {
			started, release := make(chan struct{}), make(chan struct{})
			var loads atomic.Int64
			c := newCache(t, 10, func(context.Context, string) (int, error) {
				if loads.Add(1) > 1 {
					return 7, nil
				}
				close(started)
				<-release
				if ends {
					runtime.Goexit()
				}
				panic("as it was told")
			}, wide)
			results := make(chan string, 2)
			get := func() {
				ctx, cancel := context.WithCancel(always)
				defer cancel()
				if !leaves {
					ctx = always
				}
				how := "ended"
				defer func() {
					if v := recover(); v != nil {
						how = "panicked"
					}
					results <- how
				}()
				c.Get(ctx, "ada")
				how = "returned"
			}
			go get()
			begun(t, started)
			go get()
			until(t, "both wait", func() bool { return c.Stats().Calls.Joins == 1 })
			close(release)
			want := "panicked"
			if ends {
				want = "ended"
			}
			for n := 0; n < 2; n++ {
				if how := came(t, results); how != want {
					t.Error("a load that", want, how)
				}
			}
			until(t, "it is counted", func() bool { return c.Stats().Errors == 1 })
			if st := c.Stats(); st.Values != 0 {
				t.Errorf("it is kept: %+v", st)
			}
			mustGet(t, c, "ada", 7)
			mustGet(t, c, "ada", 7)
		}
	}
	// So does one of the cost function, and of a Put's.
	c := newCache(t, 10, func(context.Context, string) (int, error) { return 1, nil },
		wide, WithCost(func(key string, _ int) int64 {
			if key == "ada" {
				panic("as it was told")
			}
			return 1
		}))
	for _, do := range []func(){
		func() { c.Get(always, "ada") }, func() { c.Put("ada", 1) },
	} {
		func() {
			defer func() {
				if recover() == nil {
					t.Error("it panics")
				}
			}()
			do()
		}()
	}
	mustGet(t, c, "grace", 1)
	if st := c.Stats(); st.Values != 1 || st.Weight != 1 || st.Calls.InUse != 0 {
		t.Errorf("nothing is left of it: %+v", st)
	}
}

// A Get waits no longer than its context. The load goes on, and its value is kept.
func TestCacheContext(t *testing.T) {
	started, release := make(chan struct{}), make(chan struct{})
	type name string
	var loads atomic.Int64
	c := newCache(t, 10, func(ctx context.Context, key string) (string, error) {
		if loads.Add(1) == 1 {
			close(started)
			<-release
			if ctx.Err() == nil {
				t.Error("nobody waits, and its context goes on")
			}
		}
		who, _ := ctx.Value(name("who")).(string)
		return key + " for " + who, nil
	}, wide)
	ctx, cancel := context.WithCancel(context.WithValue(always, name("who"), "grace"))
	results := make(chan error, 1)
	go func() { _, err := c.Get(ctx, "ada"); results <- err }()
	begun(t, started)
	cancel()
	if err := came(t, results); err != context.Canceled {
		t.Error("it leaves", err)
	}
	if _, err := c.Get(ctx, "ada"); err != context.Canceled {
		t.Error("a miss with a context that has ended", err)
	}
	if _, err := c.Get(ctx, "grace"); err != context.Canceled || loads.Load() != 1 {
		t.Error("it loads nothing", err, loads.Load())
	}
	close(release)
	until(t, "the value is kept", func() bool { _, ok := c.GetIfPresent("ada"); return ok })
	if v, err := c.Get(ctx, "ada"); v != "ada for grace" || err != nil {
		t.Error("a hit does not look at the context", v, err)
	}
	if n := loads.Load(); n != 1 {
		t.Error("loads", n)
	}
}

func TestCacheTTL(t *testing.T) {
	var steady, wall atomic.Int64
	clock := func() instant { return instant{steady.Load(), wall.Load()} }
	var left []string
	o := newOrigin(t, 10, wide, WithTTL(time.Minute), func(s *sizes) { s.cache.lives.clock = clock },
		WithOnEvict(func(key string, v page) { left = append(left, fmt.Sprint(key, " ", v.version)) }))
	const second = int64(time.Second)
	step := func(what string, both, wallAlone int64, loads int64) {
		t.Helper()
		steady.Add(both * second)
		wall.Add((both + wallAlone) * second)
		o.versions[1].Add(1)
		before := o.loads.Load()
		o.Get(always, "key-1")
		if n := o.loads.Load() - before; n != loads {
			t.Errorf("%s: %d loads, not %d", what, n, loads)
		}
		mustGet(t, o.Cache, "key-2", page{"key-2", 0})
	}
	wall.Store(1700000000 * second)
	step("the first", 0, 0, 1)
	step("at once", 0, 0, 0)
	step("after 59 s", 59, 0, 0)
	step("after a minute", 1, 0, 1)
	step("the wall clock goes back by a year", 1, -365*86400, 0)
	step("58 s later", 58, 0, 0)
	step("a minute after the load", 1, 0, 1)
	step("the wall clock goes on by a year", 1, 365*86400, 1)
	step("at once", 0, 0, 0)
	// A machine that was stopped for an hour: its steady clock may have stood.
	step("after an hour", 0, 3600, 1)
	step("at once", 0, 0, 0)
	if got := strings.Join(left, ", "); !strings.HasPrefix(got, "key-1 1, key-2 0, key-1 4") {
		t.Error("what was too old has left", got)
	}
	if v, ok := o.GetIfPresent("key-1"); !ok || v.key != "key-1" {
		t.Error("it is there", v, ok)
	}
	steady.Add(60 * second)
	if _, ok := o.GetIfPresent("key-1"); ok {
		t.Error("it is too old")
	}
	if st := o.Stats(); st.Values != 1 {
		t.Errorf("it has left: %+v", st)
	}
}

// A value's age is counted from when its load began.
func TestCacheTTLOfALongLoad(t *testing.T) {
	var now atomic.Int64
	loads := 0
	c := newCache(t, 10, func(context.Context, string) (int, error) {
		loads++
		now.Add(int64(50 * time.Second))
		return loads, nil
	}, wide, WithTTL(time.Minute), func(s *sizes) {
		s.cache.lives.clock = func() instant { return instant{now.Load(), now.Load()} }
	})
	mustGet(t, c, "ada", 1)
	mustGet(t, c, "ada", 1)
	now.Add(int64(10 * time.Second))
	mustGet(t, c, "ada", 2)
	// So is that of a Put.
	c.Put("grace", 9)
	mustGet(t, c, "grace", 9)
	now.Add(int64(60 * time.Second))
	mustGet(t, c, "grace", 3)
}

// The clocks themselves: a value with a short TTL is loaded again in a while.
func TestCacheTTLByTheClock(t *testing.T) {
	var loads atomic.Int64
	c := newCache(t, 10, func(context.Context, string) (int64, error) { return loads.Add(1), nil },
		wide, WithTTL(20*time.Millisecond))
	until(t, "it is loaded again", func() bool { c.Get(always, "ada"); return loads.Load() > 3 })
}

// Nothing has a value any more that has left, whatever has pushed it out.
func TestCacheValuesAreFreed(t *testing.T) {
	type big struct{ bytes [1 << 12]byte }
	var made, freed, now atomic.Int64
	newBig := func() *big {
		v := &big{}
		made.Add(1)
		runtime.SetFinalizer(v, func(*big) { freed.Add(1) })
		return v
	}
	c := newCache(t, 20, func(context.Context, string) (*big, error) { return newBig(), nil },
		wide, WithTTL(time.Minute), func(s *sizes) {
			s.cache.lives.clock = func() instant { return instant{now.Load(), now.Load()} }
		})
	for i := 0; i < 20; i++ {
		ctx, cancel := context.WithCancel(always)
		if i%2 == 0 {
			ctx = always
		}
		for n := 0; n < 3; n++ {
			if v, err := c.Get(ctx, keyNumber(i)); v == nil || err != nil {
				t.Error(v, err)
			}
		}
		cancel()
	}
	// All that was made is in the cache, or is freed.
	left := uint64(0)
	steps := []struct {
		what string
		do   func()
	}{
		{"nothing", func() {}},
		{"a Forget", func() { c.Forget(keyNumber(3)) }},
		{"a Put in its place", func() { c.Put(keyNumber(4), newBig()) }},
		{"a value that takes its room", func() { c.Put("more", newBig()); c.Put("and more", newBig()) }},
		{"its age", func() {
			now.Add(int64(time.Hour))
			c.GetIfPresent(keyNumber(5))
			c.Get(always, keyNumber(6))
		}},
		{"ForgetAll", c.ForgetAll},
		{"Close", func() { c.Get(always, keyNumber(8)); c.Close() }},
	}
	for i, step := range steps {
		step.do()
		until(t, "it is freed when it leaves by "+step.what, func() bool {
			runtime.GC()
			return freed.Load() == made.Load()-int64(c.Stats().Values)
		})
		if st := c.Stats(); i > 0 && st.Left <= left {
			t.Errorf("nothing leaves by %s: %+v", step.what, st)
		} else {
			left = st.Left
		}
	}
	runtime.KeepAlive(c)
}

// Close makes all values leave. The cache loads still, and keeps nothing.
func TestCacheClose(t *testing.T) {
	var left atomic.Int64
	o := newOrigin(t, 100, wide, WithOnEvict(func(string, page) { left.Add(1) }))
	for i := 0; i < 20; i++ {
		o.Get(always, keyNumber(i))
	}
	o.Close()
	o.Close()
	if st := o.Stats(); left.Load() != 20 || st.Values != 0 || st.Weight != 0 {
		t.Errorf("all have left: %d, %+v", left.Load(), st)
	}
	for n := 0; n < 3; n++ {
		mustGet(t, o.Cache, "key-1", page{"key-1", 0})
		if _, ok := o.GetIfPresent("key-1"); ok || o.Put("key-1", page{"key-1", 0}) {
			t.Error("nothing is kept")
		}
		o.Forget("key-1")
		o.ForgetAll()
	}
	if n := o.loads.Load(); n != 23 || o.Err() != ErrClosed {
		t.Error("it loads", n, o.Err())
	}
}

// A Close while others use the cache: each value that was kept leaves, and is told of once.
func TestCacheCloseBesideGets(t *testing.T) {
	for round := 0; round < 30; round++ {
		var next, left atomic.Int64
		c := newCache(t, 50, func(context.Context, string) (int64, error) { return next.Add(1), nil },
			WithOnEvict(func(string, int64) { left.Add(1) }))
		var all sync.WaitGroup
		for g := 0; g < 4; g++ {
			all.Add(1)
			go func(g int) {
				defer all.Done()
				for n := 0; n < 500; n++ {
					if g == 0 && n == 250 {
						c.Close()
					}
					if n%7 == 0 {
						c.Put(keyNumber(n%90), next.Add(1))
					}
					if _, err := c.Get(always, keyNumber((n*7+g)%90)); err != nil {
						t.Error(err)
					}
				}
			}(g)
		}
		all.Wait()
		if st := c.Stats(); st.Values != 0 || st.Weight != 0 || int64(st.Kept) != left.Load() {
			t.Fatalf("%d have left: %+v", left.Load(), st)
		}
	}
}

// A cache that nobody closes is freed when nobody has it, also if its functions and values have it.
func TestForgottenCache(t *testing.T) {
	freed := make(chan struct{}, 1)
	func() {
		var c *Cache[string, int]
		c, err := NewCache(10, func(context.Context, string) (int, error) { return int(c.Stats().Calls.InUse), nil },
			WithOnEvict(func(string, int) { c.Stats() }),
			WithCost(func(string, int) int64 { c.Stats(); return 1 }))
		if err != nil {
			t.Fatal(err)
		}
		c.Get(always, "ada")
		whenFreed(&c.now.Load().p.table, freed)
	}()
	isCollected(t, freed)
}

// A cache whose values have costs has more room when there are many. It loses few.
func TestCacheGrows(t *testing.T) {
	var left atomic.Int64
	c := newCache(t, 1<<40, number,
		WithLoads(2), WithCost(func(string, int) int64 { return 1 << 10 }),
		WithOnEvict(func(string, int) { left.Add(1) }))
	keys := 40000
	if testing.Short() {
		keys = 10000
	}
	buckets := len(c.now.Load().values.shards[0].index.Load())
	for n := 0; n < 3; n++ {
		for i := 0; i < keys; i++ {
			mustGet(t, c, keyNumber(i), i)
		}
	}
	st := c.Stats()
	if n := len(c.now.Load().values.shards[0].index.Load()); n <= buckets {
		t.Errorf("it grows: %d, %+v", n, st)
	}
	if st.Values < uint64(keys*9/10) || int64(st.Left) != left.Load() || st.Weight != int64(st.Values)<<10 || st.Loads > uint64(2*keys) {
		t.Errorf("it has most of the values: %+v", st)
	}
	sum := int64(0)
	for _, it := range c.now.Load().values.all() {
		sum += it.cost()
	}
	if sum != st.Weight || c.Len() != int(st.Values) {
		t.Errorf("what they cost: %d, %+v", sum, st)
	}
	c.Close()
	if st := c.Stats(); st.Values != 0 || st.Weight != 0 || int64(st.Kept) != left.Load() {
		t.Errorf("all have left: %+v", st)
	}
}

// Many loads at a time, and many Gets while the cache grows.
func TestCacheGrowsBesideGets(t *testing.T) {
	var left atomic.Int64
	c := newCache(t, 1<<40, number, WithCost(func(string, int) int64 { return 1 }),
		WithOnEvict(func(string, int) { left.Add(1) }))
	gets := 20000
	if testing.Short() {
		gets = 5000
	}
	var all sync.WaitGroup
	for g := 0; g < 8; g++ {
		all.Add(1)
		go func(g int) {
			defer all.Done()
			for i := 0; i < gets; i++ {
				mustGet(t, c, keyNumber(i*(g+1)%25000), i*(g+1)%25000)
				if i%50 == 0 {
					c.Forget(keyNumber(i % 100))
				}
			}
		}(g)
	}
	all.Wait()
	st := c.Stats()
	if st.Weight != int64(st.Values) || st.Left != uint64(left.Load()) || len(c.now.Load().values.all()) != int(st.Values) {
		t.Errorf("its numbers: %+v, %d left", st, left.Load())
	}
}

// A burst of loads does not empty a cache.
func TestCacheBurst(t *testing.T) {
	release := make(chan struct{})
	var begun atomic.Int64
	c := newCache(t, 1000, func(_ context.Context, key string) (int, error) {
		if i := numberOf(key); i >= 100 {
			begun.Add(1)
			<-release
		}
		return numberOf(key), nil
	}, wide, WithLoads(2))
	for i := 0; i < 100; i++ {
		mustGet(t, c, keyNumber(i), i)
	}
	var all sync.WaitGroup
	for i := 100; i < 400; i++ {
		all.Add(1)
		go func(i int) {
			defer all.Done()
			mustGet(t, c, keyNumber(i), i)
		}(i)
	}
	until(t, "all load", func() bool { return begun.Load() == 300 })
	hits := c.Stats().Hits
	for i := 0; i < 100; i++ {
		mustGet(t, c, keyNumber(i), i)
	}
	close(release)
	all.Wait()
	if st := c.Stats(); st.Hits-hits != 100 {
		t.Errorf("the values stay: %d hits, %+v", st.Hits-hits, st)
	}
}

// A value is kept before its call is settled: one who has joined finds it as soon as it has the result, however slow the
// leader is. So nobody has a newer value and then this.
func TestCacheKeepsBeforeItSettles(t *testing.T) {
	var started, release chan struct{}
	var c *Cache[string, int]
	c = newCache(t, 10, func(context.Context, string) (int, error) {
		close(started)
		<-release
		return 1, nil
	}, wide, WithRecorder(func(Load) {
		// The call is settled, and its leader has not returned.
		if _, ok := c.GetIfPresent("key"); !ok {
			t.Error("it is not there when the call is settled")
		}
	}))
	for round := 1; round <= 500; round++ {
		started, release = chans()
		done := make(chan bool, 2)
		get := func() {
			c.Get(always, "key")
			_, ok := c.GetIfPresent("key")
			done <- ok
		}
		go get()
		begun(t, started)
		go get()
		until(t, "it joins", func() bool { return c.Stats().Calls.Joins == uint64(round) })
		close(release)
		if !came(t, done) || !came(t, done) {
			t.Fatal("it is not there yet")
		}
		c.Forget("key")
	}
}

// A value that came in while its key was forgotten does not stay.
func TestCacheKeepsNothingForgotten(t *testing.T) {
	var c *Cache[string, int]
	var told atomic.Int64
	c = newCache(t, 10, func(_ context.Context, key string) (int, error) {
		c.Forget(key)
		return 1, nil
	}, wide, WithOnEvict(func(string, int) { told.Add(1) }))
	mustGet(t, c, "ada", 1)
	if st := c.Stats(); st.Values != 0 || st.Kept != 0 || told.Load() != 0 {
		t.Errorf("it was forgotten before it came in: %+v", st)
	}
	// A Put within a load is newer than that.
	c = newCache(t, 10, func(_ context.Context, key string) (int, error) {
		if !c.Put(key, 2) {
			t.Error("it is kept")
		}
		return 1, nil
	}, wide)
	mustGet(t, c, "ada", 1)
	mustGet(t, c, "ada", 2)
}

// A load function may get other keys, and options of groups are a cache's too.
func TestCacheOptions(t *testing.T) {
	var c *Cache[string, int]
	records := make(chan Load, 10)
	c = newCache(t, 10, func(ctx context.Context, key string) (int, error) {
		if len(key) < 4 {
			v, err := c.Get(ctx, key+"x")
			return v + 1, err
		}
		return 1, nil
	}, wide, WithName("pages"), WithRecorder(func(l Load) { records <- l }))
	mustGet(t, c, "a", 4)
	for _, want := range []string{"axxx", "axx", "ax", "a"} {
		if l := came(t, records); l.Key != want || l.Group != "pages" || l.Err != nil {
			t.Error("a record", l)
		}
	}
	c.Put("b", 7)
	mustGet(t, c, "b", 7)
	if len(records) != 0 {
		t.Error("a Put is no load", <-records)
	}
}

// The keys' values beside Forgets: a Get that begins after a Forget has returned never returns what
// was loaded before. SFLIGHT_GETS says how many Gets there are, ten for each Forget.
func TestCacheForgetIsNotLost(t *testing.T) {
	gets := 300000
	if isRaceDetected || testing.Short() {
		gets = 60000
	}
	if text := os.Getenv("SFLIGHT_GETS"); text != "" {
		n, err := strconv.Atoi(text)
		if err != nil {
			t.Fatal(err)
		}
		gets = n
	}
	for name, forget := range map[string]func(o *origin, i int){
		"Forget": func(o *origin, i int) { o.Forget(keyNumber(i)) },
		"Put":    func(o *origin, i int) { o.Put(keyNumber(i), o.read(keyNumber(i))) },
		"ForgetAll": func(o *origin, i int) {
			if i%16 == 0 {
				o.ForgetAll()
			} else {
				o.Forget(keyNumber(i))
			}
		},
	} {
		old, hits, forgets := besideForgets(t, gets, forget)
		t.Logf("%s: %d gets, %d hits, %d forgets, %d old", name, gets, hits, forgets, old)
		if old != 0 {
			t.Errorf("%s: %d Gets returned what was loaded before", name, old)
		}
		if hits == 0 || forgets == 0 {
			t.Error(name, "nothing was tested", hits, forgets)
		}
	}
}

func besideForgets(
	t *testing.T, gets int, forget func(o *origin, i int), options ...Option,
) (old, hits, forgets int64) {
	const getters, writers = 6, 2
	o := newOrigin(t, 40, options...)
	var forgotten [64]atomic.Int64 // the version that each Get has to have, at least
	var count [2]atomic.Int64
	var all sync.WaitGroup
	for g := 0; g < getters; g++ {
		all.Add(1)
		go func(g int) {
			defer all.Done()
			random := rand.New(rand.NewSource(int64(g)))
			ctx, cancel := context.WithCancel(always)
			defer cancel()
			if g%3 > 0 {
				ctx = always
			}
			for n := 0; n < gets/getters; n++ {
				i := random.Intn(8)
				if n%4 == 0 {
					i = random.Intn(64)
				}
				least := forgotten[i].Load()
				var v page
				var err error
				ok := true
				if n%16 == 0 {
					v, ok = o.GetIfPresent(keyNumber(i))
				} else {
					v, err = o.Get(ctx, keyNumber(i))
				}
				if ok && (err != nil || v.key != keyNumber(i) || v.version < least) {
					count[0].Add(1)
				}
			}
		}(g)
	}
	for w := 0; w < writers; w++ {
		all.Add(1)
		go func(w int) {
			defer all.Done()
			random := rand.New(rand.NewSource(int64(w)))
			for n := 0; n < gets/10/writers; n++ {
				// Each key has one writer.
				i := random.Intn(8)
				if n%4 == 0 {
					i = random.Intn(64)
				}
				i = i&^1 | w
				version := o.versions[i].Add(1)
				forget(o, i)
				forgotten[i].Store(version)
				count[1].Add(1)
			}
		}(w)
	}
	within(t, 30*time.Minute, "Gets beside Forgets", all.Wait)
	return count[0].Load(), int64(o.Stats().Hits), count[1].Load()
}
