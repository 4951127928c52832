package singleflight

import (
	"bytes"
	"context"
	"errors"
	"fmt"
	"math/rand"
	"os"
	"runtime"
	"strings"
	"sync"
	"sync/atomic"
	"testing"
	"time"
)

// A recorded cache is one that begins to be recorded now, to this log.
type recordedCache struct {
	*Recording
	log bytes.Buffer
}

func recordCache[K comparable, V any](t *testing.T, c *Cache[K, V]) *recordedCache {
	t.Helper()
	it := &recordedCache{}
	var err error
	if it.Recording, err = c.Record(&it.log); err != nil {
		t.Fatal(err)
	}
	return it
}

// stops ends the recording, which has to be legal in time and to have lost nothing. It returns its events.
func (it *recordedCache) stops(t *testing.T) []record {
	t.Helper()
	n, err := it.Stop()
	if err != nil || n.Lost != 0 {
		t.Fatal("the recording has failed, or lost something", n, err)
	}
	all := isLegal(t, it.log.Bytes())
	if uint64(len(all)) != n.Events {
		t.Error("lines and events", len(all), n)
	}
	return all
}

// kindsOf counts the events by their kinds.
func kindsOf(all []record) map[string]int {
	kinds := map[string]int{}
	for _, it := range all {
		kind := it.E
		if it.Closed != nil {
			kind += " closed"
		}
		if it.Err != nil {
			kind += " err"
		}
		kinds[kind]++
	}
	return kinds
}

// mustBe fails the test where the kinds are others.
func mustBe(t *testing.T, all []record, want map[string]int) {
	t.Helper()
	if got := kindsOf(all); fmt.Sprint(got) != fmt.Sprint(want) {
		t.Errorf("%v, and not %v: %+v", got, want, all)
	}
}

// Gets of all kinds beside Forgets of all kinds, and evictions: what is recorded is legal, and has all of it.
func TestCacheRecordingOfAStress(t *testing.T) {
	all := []Option{WithTTL(3 * time.Millisecond), WithJitter(0.5), WithRefreshAfter(time.Millisecond), WithStaleIfError(5 * time.Millisecond),
		WithErrorTTL(func(error) time.Duration { return time.Millisecond }),
		WithCost(func(key string, _ page) int64 { return int64(len(key) % 4) }), WithLoads(1)}
	for name, options := range map[string][]Option{
		"all":   all,
		"kept":  {WithRefreshAfter(500 * time.Microsecond)},
		"plain": nil,
		"idle":  {WithIdle(2 * time.Millisecond), WithErrorTTL(func(error) time.Duration { return time.Second })},
	} {
		t.Run(name, func(t *testing.T) {
			s := &stressOrigin{}
			limit := int64(40)
			if name == "kept" {
				limit = 1000
			}
			c, err := NewCacheOf(limit, s.load, append(options, WithBatchLoader(s.loadMany), WithOnPanic(func(any, []byte) {}))...)
			if err != nil {
				t.Fatal(err)
			}
			defer c.Close()
			s.Cache = c
			gets := 4000
			if testing.Short() || isRaceDetected {
				gets = 900
			}
			r := recordCache(t, c)
			var all sync.WaitGroup
			for g := 0; g < 6; g++ {
				all.Add(1)
				go func(g int) {
					defer all.Done()
					random := rand.New(rand.NewSource(int64(g)))
					for n := 0; n < gets/6; n++ {
						s.get(random, n)
						if n%10 == 0 && g < 2 {
							s.write(random, g, n/10)
						}
					}
				}(g)
			}
			within(t, 10*patience, "a recorded cache", all.Wait)
			until(t, "loads end", func() bool { return c.Stats().InUse == 0 })
			events := r.stops(t)
			if s.old.Load() != 0 {
				t.Error("old values", s.old.Load())
			}
			kinds := kindsOf(events)
			for _, kind := range []string{"lead", "enter", "forget", "forget closed", "settle"} {
				// On a slow machine each value may have ended before it is found or forgotten.
				if kinds[kind] == 0 && (name == "kept" || name == "plain") {
					t.Error("no event is a", kind, kinds)
				}
			}
			t.Log(len(events), kinds)
		})
	}
}

// What each method is recorded as: docs/RECORDS.md has the mapping.
func TestCacheRecordingsLines(t *testing.T) {
	fails := false
	c, err := NewCacheOf(2, func(_ context.Context, key string) (Loaded[int], error) {
		if fails {
			return Loaded[int]{}, errStress
		}
		return Loaded[int]{Value: 1, Tags: []string{"tag of " + key}}, nil
	}, wide)
	if err != nil {
		t.Fatal(err)
	}
	defer c.Close()
	r := recordCache(t, c)
	c.Forget("a")       // idle
	c.Get(always, "a")  // A
	c.Get(always, "a")  // enters it
	c.GetIfPresent("a") // and again
	c.GetIfPresent("b") // nothing
	_, stamp, _ := c.GetStamped(always, "a")
	c.ForgetIf("a", stamp) // closes it
	c.ForgetIf("a", stamp) // nothing: it is not there
	c.Put("a", 2)          // an idle Forget, and B
	c.Get(always, "a")     // enters it
	c.ForgetAll()          // closes it
	c.Get(always, "a")     // C
	c.ForgetTag("tag of a")
	c.ForgetTag("tag of b") // nothing
	c.Get(always, "a")      // D
	c.GetMany(always, []string{"a", "b", "a"})
	c.Forget("b")
	fails = true
	if _, err := c.Get(always, "b"); err != errStress {
		t.Error(err)
	}
	all := r.stops(t)
	calls := func(letter, key, closes, result string, joiners int) string {
		text := `{"e":"lead","k":KEY,"c":?,"own":null}` + "\n"
		for i := 0; i < joiners; i++ {
			text += `{"e":"enter","k":KEY,"c":?,"m":?}` + "\n"
		}
		if closes != "" {
			text += `{"e":"forget","k":KEY,"closed":?}` + "\n"
		}
		text += fmt.Sprintf(`{"e":"settle","c":?,RESULT,"joiners":%d}`, joiners) + "\n" + `{"e":"handed","c":?}` + "\n"
		return strings.NewReplacer("?", letter, "KEY", key, "RESULT", result).Replace(text)
	}
	idle := `{"e":"forget","k":"a","closed":null}` + "\n"
	want := `{"format":4,"lost":0}` + "\n" + idle +
		calls("A", `"a"`, "forgotten", `"ok":A`, 3) +
		idle + calls("B", `"a"`, "forgotten", `"ok":B`, 1) +
		calls("C", `"a"`, "forgotten", `"ok":C`, 0) +
		calls("D", `"a"`, "", `"ok":D`, 2) +
		calls("E", `"b"`, "forgotten", `"ok":E`, 0) +
		calls("F", `"b"`, "", `"err":"*errors.errorString"`, 0)
	if got := sorted(shape(r.log.Bytes())); got != sorted(want) {
		t.Errorf("the lines\n%s\nand not\n%s%+v", got, sorted(want), all)
	}
}

// What was loaded before the recording, or is loading, is not in it. What is kept at its end is.
func TestCacheRecordingOfAPart(t *testing.T) {
	started, release := chans()
	var held string
	c := newCache(t, 10, func(_ context.Context, key string) (int, error) {
		if key == held {
			close(started)
			<-release
		}
		return 1, nil
	}, wide)
	keys := apart(c, 3)
	a, b := keys[0], keys[1]
	held = keys[2]
	c.Get(always, a)
	c.Get(always, b)
	got := make(chan error)
	go func() { _, err := c.Get(always, held); got <- err }()
	begun(t, started)
	r := recordCache(t, c)
	c.Get(always, a) // not recorded
	c.Forget(a)      // idle
	c.Get(always, a)
	c.Get(always, a)
	c.Get(always, b) // not recorded
	c.Put(b, 2)
	c.Forget(held) // idle: the call began before
	close(release)
	if err := came(t, got); err != nil {
		t.Error(err)
	}
	c.Get(always, b)
	mustBe(t, r.stops(t), map[string]int{"forget": 3, "lead": 2, "enter": 2, "settle": 2, "handed": 2})
	// The nodes of an earlier recording are in no later one.
	r = recordCache(t, c)
	c.Get(always, a)
	c.Forget(a)
	c.Get(always, b)
	mustBe(t, r.stops(t), map[string]int{"forget": 1})
}

// The recording tells of a Forget that the cache has not seen: so each promise of it is looked at.
func TestCacheRecordingFindsOldValues(t *testing.T) {
	other := newCore(new(sizes))
	for name, it := range map[string]struct {
		do   func(c *Cache[string, int], l *ledger)
		says string
	}{
		"a Forget that forgets nothing": {func(c *Cache[string, int], l *ledger) {
			c.Get(always, "a")
			l.forgets(other, "a")
			c.Get(always, "a")
		}, "has to follow"},
		"a ForgetAll that forgets nothing": {func(c *Cache[string, int], l *ledger) {
			c.Get(always, "a")
			f := l.forgetsAll(watch{l.by, now()})
			f.ends()
			c.Get(always, "a")
		}, "has to follow"},
		"a ForgetTag that forgets nothing": {func(c *Cache[string, int], l *ledger) {
			c.Put("a", 1)
			rec := l.shard("a").keys["a"].value
			rec.value.tags = []uint32{7}
			l.by.tags.forgot(7, 1, forgetRecord{1, now(), now(), false})
			time.Sleep(time.Millisecond)
			c.Get(always, "a")
		}, "has to follow"},
		"two loads at one time": {func(c *Cache[string, int], l *ledger) {
			c.GetWith(always, "a", func(context.Context, string) (Loaded[int], error) {
				a := &asking{key: "a", from: now()}
				l.asks(other, a)
				a.record().begins()
				other.ends(a)
				time.Sleep(time.Millisecond)
				return Loaded[int]{Value: 1}, nil
			})
		}, "two calls were open at once"},
		// Nothing is wrong where a Forget that is not recorded closes a load: it may have begun before the recording.
		"a Forget that is not recorded": {func(c *Cache[string, int], l *ledger) {
			c.GetWith(always, "a", func(_ context.Context, key string) (Loaded[int], error) {
				c.now.Load().p.table.forget(key)
				c.Get(always, key)
				return Loaded[int]{Value: 1}, nil
			})
			c.Get(always, "a")
		}, ""},
	} {
		t.Run(name, func(t *testing.T) {
			c := newCache(t, 10, length, wide)
			r := recordCache(t, c)
			it.do(c, c.now.Load().p.ledger.Load())
			if n, err := r.Stop(); err != nil || n.Lost != 0 {
				t.Fatal(n, err)
			}
			all, _, err := readRecords(r.log.Bytes())
			if err == nil {
				err = judge(all)
			}
			if (err == nil) != (it.says == "") || err != nil && !strings.Contains(err.Error(), it.says) {
				t.Errorf("%v, and not %q: %s", err, it.says, r.log.String())
			}
		})
	}
}

// A Get that joins a load, and the values that a refresh and a failed load leave.
func TestCacheRecordingOfLoads(t *testing.T) {
	var clock testClock
	var fails atomic.Bool
	held := make(chan chan struct{}, 1)
	c := newCache(t, 10, func(context.Context, string) (int, error) {
		release := make(chan struct{})
		held <- release
		<-release
		if fails.Load() {
			return 0, errStress
		}
		return 1, nil
	}, wide, WithClock(clock.time), WithTTL(time.Hour), WithRefreshAfter(time.Minute), WithStaleIfError(time.Hour))
	r := recordCache(t, c)
	gets := func(n int) (wait func()) {
		all := make(chan error, n)
		for i := 0; i < n; i++ {
			go func() { _, err := c.Get(always, "a"); all <- err }()
		}
		return func() {
			for i := 0; i < n; i++ {
				if err := came(t, all); err != nil {
					t.Error(err)
				}
			}
		}
	}
	joined := func(n uint64) { until(t, "they have joined", func() bool { return c.Stats().Joins == n }) }
	idles := func() { until(t, "loads end", func() bool { return c.Stats().InUse == 0 && !isLeading() }) }
	// Two join.
	wait := gets(3)
	release := came(t, held)
	joined(2)
	close(release)
	wait()
	// A refresh takes its place, and the old value is returned meanwhile.
	clock.pass(2 * time.Minute)
	c.Get(always, "a")
	release = came(t, held)
	c.Get(always, "a")
	close(release)
	idles()
	c.Get(always, "a")
	// A refresh that fails, and a load that does: the value stands in for all who share it.
	fails.Store(true)
	clock.pass(2 * time.Minute)
	c.Get(always, "a")
	close(came(t, held))
	idles()
	clock.pass(time.Hour)
	wait = gets(2)
	release = came(t, held)
	joined(3)
	close(release)
	wait()
	idles()
	// A refresh whose value is forgotten.
	fails.Store(false)
	wait = gets(1)
	close(came(t, held))
	wait()
	clock.pass(2 * time.Minute)
	c.Get(always, "a")
	release = came(t, held)
	c.Forget("a")
	close(release)
	idles()
	if st := c.Stats(); st.Refreshes != 3 || st.Stale != 2 {
		t.Error("other loads", st)
	}
	mustBe(t, r.stops(t), map[string]int{"lead": 4, "enter": 9, "forget closed": 2, "settle": 4, "handed": 4})
}

// Where the writer is stopped, hits and calls are dropped and counted, and what is left is legal.
func TestCacheRecordingOfASlowWriter(t *testing.T) {
	c := newCache(t, 100, number, wide)
	release := make(chan struct{})
	var log bytes.Buffer
	r, err := c.Record(writer(func(text []byte) (int, error) { <-release; return log.Write(text) }))
	if err != nil {
		t.Fatal(err)
	}
	within(t, 5*patience, "a Get waits for the writer", func() {
		for i := 0; i < 4*eventsOfLane; i++ {
			c.Get(always, keyNumber(i%8))
			if i%100 == 0 {
				c.Forget(keyNumber(i % 8))
			}
		}
	})
	close(release)
	n, err := r.Stop()
	if err != nil || n.Lost == 0 || n.Events+n.Lost < 4*eventsOfLane {
		t.Error("what is lost is counted", n, err)
	}
	all, lost, err := readRecords(log.Bytes())
	if err != nil || lost != n.Lost || uint64(len(all)) != n.Events {
		t.Error("it is written", len(all), lost, n, err)
	}
	if err := judge(all); err != nil {
		t.Error("what is left is not legal", err)
	}
}

// Where the writer is stopped, no Get that has joined a load stands in the log without that, also if the value is not kept.
func TestCacheRecordingOfJoinersOfASlowWriter(t *testing.T) {
	if testing.Short() && !isRaceDetected {
		t.Skip("it fills lanes of many events")
	}
	heavy := WithCost(func(string, int) int64 { return 11 })
	var c *Cache[string, int]
	var meet sync.Once
	c = newCache(t, 10, func(_ context.Context, key string) (int, error) {
		// The first load is shared by all, whatever runs when.
		meet.Do(func() { until(t, "the others join", func() bool { return c.Stats().Joins == 2 }) })
		for i := 0; i < 5; i++ {
			runtime.Gosched()
		}
		return len(key), nil
	}, wide, heavy)
	release := make(chan struct{})
	var log bytes.Buffer
	r, err := c.Record(writer(func(text []byte) (int, error) { <-release; return log.Write(text) }))
	if err != nil {
		t.Fatal(err)
	}
	within(t, 5*patience, "a Get waits for the writer", func() {
		var all sync.WaitGroup
		for i := 0; i < 3; i++ {
			all.Add(1)
			go func() {
				defer all.Done()
				// The lane of each goroutine is full long before the end, also where the writer has taken it once.
				for i := 0; i < 3*eventsOfLane; i++ {
					c.Get(always, "key")
				}
			}()
		}
		all.Wait()
	})
	close(release)
	if n, err := r.Stop(); err != nil || n.Lost == 0 {
		t.Error("the lanes were full", n, err)
	}
	events, _, err := readRecords(log.Bytes())
	if err != nil {
		t.Fatal(err)
	}
	if kinds := kindsOf(events); kinds["enter"] == 0 {
		t.Error("nobody has joined", kinds)
	}
	if err := judge(events); err != nil {
		t.Error("what is left is not legal", err)
	}
}

// Values that make room are counted.
func TestCacheRecordingOfEvictions(t *testing.T) {
	c := newCache(t, 2, number, wide)
	r := recordCache(t, c)
	for i := 0; i < 5; i++ {
		c.Get(always, keyNumber(i))
	}
	n, err := r.Stop()
	if n.Evictions != 3 || n.Events != 15 || err != nil {
		t.Error(n, err)
	}
	mustBe(t, isLegal(t, r.log.Bytes()), map[string]int{"lead": 5, "settle": 5, "handed": 5})
}

func TestTwoRecordingsOfACache(t *testing.T) {
	c := newCache(t, 10, length)
	r := recordCache(t, c)
	if _, err := c.Record(&bytes.Buffer{}); !errors.Is(err, ErrRecording) {
		t.Error("two at a time", err)
	}
	c.Get(always, "a")
	c.ForgetAll()
	if _, err := c.Record(&bytes.Buffer{}); !errors.Is(err, ErrRecording) {
		t.Error("two at a time, in another fill", err)
	}
	c.Get(always, "a")
	mustBe(t, r.stops(t), map[string]int{"lead": 2, "forget closed": 1, "settle": 2, "handed": 2})
	if p := c.now.Load().p; p.recorder.Load() != nil {
		t.Error("it is recorded still")
	}
	// A writer that fails ends the recording, and another one may begin.
	failing, err := c.Record(writer(func([]byte) (int, error) { return 0, errWriter }))
	if err != nil {
		t.Fatal(err)
	}
	c.Get(always, "a")
	c.Get(always, "b")
	c.Get(always, "b")
	if n, err := failing.Stop(); !errors.Is(err, errWriter) || n.Events != 0 {
		t.Error(n, err)
	}
	r = recordCache(t, c)
	c.Get(always, "c")
	mustBe(t, r.stops(t), map[string]int{"lead": 1, "settle": 1, "handed": 1})
}

// What a cache that nobody has any more records ends.
func TestRecordingOfAForgottenCache(t *testing.T) {
	over := func() <-chan struct{} {
		c, err := NewCache(10, length)
		if err != nil {
			t.Fatal(err)
		}
		r, err := c.Record(new(bytes.Buffer))
		if err != nil {
			t.Fatal(err)
		}
		c.Get(always, "key")
		c.ForgetAll()
		c.Get(always, "key")
		return r.r.over
	}()
	until(t, "its writer's goroutine goes on", func() bool {
		runtime.GC()
		select {
		case <-over:
			return true
		default:
			return false
		}
	})
}

// A cache under load for as many seconds as SFLIGHT_RECORDED says, whose log is written to SFLIGHT_RECORDED_TO if that is set.
func TestCacheRecordingOfALoad(t *testing.T) {
	lasts, err := time.ParseDuration(os.Getenv("SFLIGHT_RECORDED"))
	if err != nil {
		t.Skip("SFLIGHT_RECORDED is no time")
	}
	c := newCache(t, 1000, number, wide)
	out, err := os.Create(os.Getenv("SFLIGHT_RECORDED_TO"))
	if err != nil {
		t.Fatal(err)
	}
	defer out.Close()
	r, err := c.Record(out)
	if err != nil {
		t.Fatal(err)
	}
	var gets atomic.Int64
	var all sync.WaitGroup
	for i := 0; i < 4; i++ {
		all.Add(1)
		go func(i int) {
			defer all.Done()
			random := rand.New(rand.NewSource(int64(i)))
			until := time.Now().Add(lasts)
			for n := 0; time.Now().Before(until); n++ {
				for g := 0; g < 1000; g++ {
					c.Get(always, keyNumber(random.Intn(1200)))
				}
				c.Forget(keyNumber(random.Intn(1200)))
				gets.Add(1000)
			}
		}(i)
	}
	all.Wait()
	n, err := r.Stop()
	t.Log(gets.Load(), n, err)
}

// BenchmarkCacheHit is a hit of a cache that is not recorded, and of one that is.
func BenchmarkCacheHit(b *testing.B) {
	for _, isRecorded := range []bool{false, true} {
		b.Run(fmt.Sprint("recorded ", isRecorded), func(b *testing.B) {
			c := newCache(b, 10, length)
			if isRecorded {
				r, err := c.Record(new(bytes.Buffer))
				if err != nil {
					b.Fatal(err)
				}
				defer r.Stop()
			}
			b.ReportAllocs()
			for i := 0; i < b.N; i++ {
				c.Get(always, "a")
			}
		})
	}
}
