//go:build sflight_schedules

package singleflight

import (
	"bytes"
	"context"
	"errors"
	"fmt"
	"math/rand"
	"strings"
	"testing"
	"time"
)

// A world whose workers call a cache.
type cacheWorld struct {
	*world
	cache   *Cache[string, *run]
	forgets [4][]interval // by key, also those by ForgetAll and Put
	tags    [2][]interval // by tag: the forgets of it
	tagged  map[*run]bool // the values that have the tag of their key
	open    [4][]*run     // loads that run
	told    map[*run]int  // how often a callback was called with it
	clocks  instant
	limit   int64 // or the largest of those to which it is being resized
	resizes int
	tokens  []tokenOf
	given   []stampGiven
	fails   bool // whether loads fail, and batches lack keys
	depth   int
}

type tokenOf struct {
	Token[string]
	key, drawn int
}

type stampGiven struct {
	ValueStamp
	key int
}

// An error of a load, which knows its run.
type runError struct{ *run }

func (e runError) Error() string { return "the load failed" }

// The latest beginning of a Forget of the key that had ended before, or of the tag of a value that has it.
func (w *cacheWorld) forgotten(key, before int, isTagged bool) (latest int) {
	k := keyState{forgets: w.forgets[key]}
	latest = k.forgotten(before)
	if k.forgets = w.tags[key%2]; isTagged && k.forgotten(before) > latest {
		latest = k.forgotten(before)
	}
	return latest
}

func (w *cacheWorld) value(key int) *run {
	return &run{key: key, from: w.now, by: w.running}
}

type askedKey struct{}

// asks is a context that tells the load when it was asked for.
func (w *cacheWorld) asks(ctx context.Context) context.Context {
	return context.WithValue(ctx, askedKey{}, w.now)
}

func (w *cacheWorld) begins(ctx context.Context, key int) *run {
	me := w.value(key)
	me.asked = ctx.Value(askedKey{}).(int)
	w.log("loads key %d", key)
	for _, other := range w.open[key] {
		k := keyState{forgets: w.forgets[key]}
		if !k.ended(other, me.asked) {
			w.problem("two loads of key %d at one time, begun at %d and %d", key, other.from, me.from)
		}
	}
	w.open[key] = append(w.open[key], me)
	return me
}

func (w *cacheWorld) ends(me *run) {
	w.log("has loaded key %d from %d", me.key, me.from)
	for i, other := range w.open[me.key] {
		if other == me {
			w.open[me.key] = append(w.open[me.key][:i:i], w.open[me.key][i+1:]...)
		}
	}
}

func (w *cacheWorld) pause() {
	for n := w.random.Intn(6); n > 0; n-- {
		point(afterAsk)
	}
}

const toldPanic = "as it was told"

func (w *cacheWorld) load(ctx context.Context, name string) (loaded Loaded[*run], err error) {
	me := w.begins(ctx, int(name[4]-'0'))
	defer w.ends(me)
	w.pause()
	if w.fails {
		switch w.random.Intn(8) {
		case 0:
			panic(toldPanic)
		case 1, 2:
			return loaded, runError{me}
		}
	}
	return w.loaded(me), nil
}

// loaded is what a load returns: perhaps with a TTL and a tag.
func (w *cacheWorld) loaded(me *run) Loaded[*run] {
	it := Loaded[*run]{Value: me}
	if w.random.Intn(2) == 0 {
		it.Tags = []string{fmt.Sprint("tag ", me.key%2)}
		w.tagged[me] = true
	}
	if w.random.Intn(4) == 0 {
		it.TTL = time.Duration(w.random.Intn(4) - 1)
	}
	return it
}

func (w *cacheWorld) loadMany(ctx context.Context, names []string) (map[string]Loaded[*run], error) {
	var all []*run
	for _, name := range names {
		all = append(all, w.begins(ctx, int(name[4]-'0')))
	}
	defer func() {
		for _, me := range all {
			w.ends(me)
		}
	}()
	w.pause()
	values := map[string]Loaded[*run]{}
	for _, me := range all {
		if !w.fails || w.random.Intn(4) > 0 {
			values[w.name(me.key)] = w.loaded(me)
		}
	}
	if w.fails {
		switch w.random.Intn(8) {
		case 0:
			panic(toldPanic)
		case 1:
			return nil, runError{all[0]}
		}
	}
	return values, nil
}

// got looks at what a call returned that was asked for then.
func (w *cacheWorld) got(key, asked int, it *run, err error) {
	isTagged := w.tagged[it]
	var failed runError
	switch {
	case err == context.Canceled:
		w.log("has left")
		return
	case err == ErrNotFound:
		return
	case errors.As(err, &failed):
		// An error of a batch is of all its keys.
		it, key = failed.run, failed.key
	case err != nil:
		w.problem("an error: %v", err)
		return
	case it == nil || it.key != key:
		w.problem("key %d has a value of another: %v", key, it)
		return
	}
	w.log("has key %d from %d, asked at %d", key, it.from, asked)
	if forgotten := w.forgotten(key, asked, isTagged); err == nil && it.from < forgotten {
		w.problem("key %d asked for at %d has a value from %d, and was forgotten at %d",
			key, asked, it.from, forgotten)
	}
}

// gotError looks at an error of one key.
func (w *cacheWorld) gotError(key, asked int, err error) {
	var failed runError
	if errors.As(err, &failed) && failed.from < w.forgotten(key, asked, false) {
		w.problem("key %d asked for at %d has an error from %d, and was forgotten", key, asked, failed.from)
	}
}

// Runs what is a Forget of these keys, if it returns true.
func (w *cacheWorld) forget(from, to int, do func() bool) {
	var at [4]int
	for key := from; key < to; key++ {
		at[key] = len(w.forgets[key])
		w.forgets[key] = append(w.forgets[key], interval{from: w.now})
	}
	forgot := do()
	w.now++
	for key := from; key < to; key++ {
		it := &w.forgets[key][at[key]]
		if it.to = w.now; !forgot {
			it.from = 0
		}
	}
	w.log("has forgotten keys %d to %d", from, to-1)
}

func always2(do func()) func() bool { return func() bool { do(); return true } }

func (w *cacheWorld) act() {
	defer func() {
		if v := recover(); v != nil && !strings.Contains(fmt.Sprint(v), toldPanic) {
			panic(v)
		}
	}()
	key := w.random.Intn(len(w.forgets))
	if w.few {
		key %= 2
	}
	switch what := w.random.Intn(34); {
	case what < 20:
		w.get(key, what)
	case what < 30:
		w.write(key, what)
	default:
		w.change(what)
	}
}

// get does what returns values.
func (w *cacheWorld) get(key, what int) {
	name, asked := w.name(key), w.now
	ctx := w.asks(always)
	if what%4 == 0 {
		var cancel context.CancelFunc
		ctx, cancel = context.WithCancel(ctx)
		w.cancels = append(w.cancels, cancel)
	}
	switch {
	case what < 8:
		w.log("gets key %d", key)
		it, err := w.cache.Get(ctx, name)
		w.got(key, asked, it, err)
		w.gotError(key, asked, err)
	case what < 10:
		w.log("gets key %d by another function", key)
		it, err := w.cache.GetWith(ctx, name, w.load)
		w.got(key, asked, it, err)
	case what < 12:
		it, stamp, err := w.cache.GetStamped(ctx, name)
		w.got(key, asked, it, err)
		w.given = append(w.given, stampGiven{stamp, key})
	case what < 14:
		if it, ok := w.cache.GetIfPresent(name); ok {
			w.got(key, asked, it, nil)
		}
	case what < 18:
		keys := w.random.Perm(4)[:1+w.random.Intn(3)]
		var names []string
		for _, key := range keys {
			names = append(names, w.name(key))
		}
		names = append(names, names[0])
		w.log("gets keys %v", keys)
		got := w.cache.GetMany(ctx, names)
		for i, key := range keys {
			w.got(key, asked, got[i].Value, got[i].Err)
		}
		if got[len(keys)] != got[0] {
			w.problem("the same key has %v and %v", got[0], got[len(keys)])
		}
	default:
		w.cache.All(func(name string, it *run) bool {
			w.got(int(name[4]-'0'), asked, it, nil)
			return w.random.Intn(4) > 0
		})
	}
}

// write does what forgets.
func (w *cacheWorld) write(key, what int) {
	name := w.name(key)
	switch {
	case what < 22:
		w.forget(key, key+1, always2(func() { w.cache.Forget(name) }))
	case what < 23:
		w.log("puts key %d", key)
		w.forget(key, key+1, always2(func() { w.cache.Put(name, w.value(key)) }))
	case what < 24:
		w.tokens = append(w.tokens, tokenOf{w.cache.Token(name), key, w.now})
	case what < 26 && len(w.tokens) > 0:
		i := w.random.Intn(len(w.tokens))
		token := w.tokens[i]
		w.tokens = append(w.tokens[:i:i], w.tokens[i+1:]...)
		w.putWith(token)
	case what < 28:
		tag := key % 2
		w.tags[tag] = append(w.tags[tag], interval{from: w.now})
		mine := len(w.tags[tag]) - 1
		w.cache.ForgetTag(fmt.Sprint("tag ", tag))
		w.now++
		w.tags[tag][mine].to = w.now
		w.log("has forgotten tag %d", tag)
	case what < 29 && len(w.given) > 0:
		it := w.given[w.random.Intn(len(w.given))]
		w.forget(it.key, it.key+1, func() bool { return w.cache.ForgetIf(w.name(it.key), it.ValueStamp) })
	case what < 30:
		w.log("forgets all")
		w.forget(0, 4, always2(w.cache.ForgetAll))
	}
}

func (w *cacheWorld) putWith(token tokenOf) {
	key, began := token.key, w.now
	w.forget(key, key+1, always2(func() {
		it := w.loaded(w.value(key))
		kept := w.cache.PutWith(token.Token, it)
		w.log("puts key %d with a token from %d: %v", key, token.drawn, kept)
		all := append(w.forgets[key][:0:0], w.forgets[key]...)
		if len(it.Tags) > 0 {
			all = append(all, w.tags[key%2]...)
		}
		for _, f := range all {
			if kept && f.from > token.drawn && f.to != 0 && f.to <= began {
				w.problem("a Put of key %d is kept, whose token is older than a Forget at %d", key, f.from)
			}
		}
	}))
}

// change does what is about the cache as a whole.
func (w *cacheWorld) change(what int) {
	switch what {
	case 30:
		if len(w.cancels) > 0 {
			w.cancels[w.random.Intn(len(w.cancels))]()
		}
	case 31:
		w.clocks.steady++
		w.clocks.wall += int64(w.random.Intn(5) - 2)
	case 32:
		limit := int64(1 + w.random.Intn(4))
		w.log("resizes the cache to %d", limit)
		if w.resizes++; limit > w.limit {
			w.limit = limit
		}
		w.cache.Resize(limit)
		if w.resizes--; w.resizes == 0 {
			w.limit = w.cache.Limit()
		}
	default:
		if w.random.Intn(10) == 0 {
			w.log("closes the cache")
			w.cache.Close()
		}
	}
}

func (w *cacheWorld) options() []Option {
	options := []Option{
		WithCost(func(string, *run) int64 { return int64(w.random.Intn(3)) }),
		WithOnPanic(func(any, []byte) {}),
		WithBatchLoader(w.loadMany),
		WithOnEvict(func(key string, it *run, why Reason) {
			w.told[it]++
			if w.name(it.key) != key || why >= reasons {
				w.problem("another's value leaves: %s, %v", key, it)
			}
			if w.depth < 2 && w.random.Intn(3) == 0 {
				w.depth++
				defer func() { w.depth-- }()
				w.act()
			}
		}),
		func(s *sizes) {
			s.loads = uint32(1 + w.random.Intn(3))
			s.cache.lives.clock = func() instant { return w.clocks }
		},
	}
	for _, option := range []Option{
		WithTTL(3), WithIdle(2), WithRefreshAfter(1), WithStaleIfError(3),
		WithErrorTTL(func(error) time.Duration { return 2 }),
	} {
		if w.random.Intn(2) == 0 {
			options = append(options, option)
		}
	}
	return options
}

func playCacheWorld(t *testing.T, seed int64) { playRecordedCache(t, seed, nil) }

// Plays a world, whose cache is recorded to the log, if there is one.
func playRecordedCache(t *testing.T, seed int64, log *bytes.Buffer) {
	w := &cacheWorld{told: map[*run]int{}, tagged: map[*run]bool{}, world: &world{
		t: t, seed: seed, random: rand.New(rand.NewSource(seed)), back: make(chan struct{}), now: 1,
	}}
	w.stalls = w.random.Intn(2) == 0
	w.few = w.random.Intn(2) == 0
	w.fails = w.random.Intn(2) == 0
	w.limit = int64(1 + w.random.Intn(4))
	schedule, schedulesHash = nil, uint64(seed)*0x9e3779b97f4a7c15
	cache, err := NewCacheOf(w.limit, w.load, w.options()...)
	if err != nil {
		t.Fatal(err)
	}
	if w.random.Intn(2) == 0 {
		// More shards than so few values would have.
		cache.now.Load().values.open(cache.now.Load().p, &cache.room, 2)
	}
	w.cache = cache
	var recording *Recording
	if log != nil {
		if recording, err = cache.Record(log); err != nil {
			t.Fatal(err)
		}
	}
	schedule = w
	for i := 2 + w.random.Intn(4); i > 0; i-- {
		w.spawn(func() {
			for n := 1 + w.random.Intn(6); n > 0; n-- {
				w.act()
				if weight := cache.Weight(); weight > w.limit && w.resizes == 0 || weight < 0 {
					w.problem("the values cost %d", weight)
				}
				point(afterAsk)
			}
		})
	}
	w.running = w.workers[0]
	ended := w.play()
	schedule = nil
	if recording != nil {
		w.judges(recording, log)
	}
	if !ended {
		w.problem("nobody can go on")
	} else {
		w.rests()
	}
	if len(w.problems) > 0 {
		for _, line := range w.trace {
			t.Log(line)
		}
		t.Fatalf("seed %d: %v", seed, w.problems)
	}
}

// judges looks at what was recorded.
func (w *cacheWorld) judges(recording *Recording, log *bytes.Buffer) {
	if n, err := recording.Stop(); err != nil || n.Lost != 0 {
		w.problem("the recording: %v %v", n, err)
	}
	all, _, err := readRecords(log.Bytes())
	if err == nil {
		err = judge(all)
	}
	if err != nil {
		w.problem("what was recorded is not legal in time: %v\n%s", err, log)
	}
}

// rests looks at the cache when all have ended.
func (w *cacheWorld) rests() {
	cache := w.cache
	if st := cache.Stats(); st.InUse != 0 || len(cache.olds) != 0 {
		w.problem("something is left: %+v, %d fills", st, len(cache.olds))
	}
	cost := int64(0)
	for _, n := range cache.now.Load().values.all() {
		if cost += n.cost(); n.isError() {
			continue
		}
		if n := w.told[n.value]; n != 0 {
			w.problem("a value that stays is told of %d times", n)
		}
		if n.flags&flagRefresh != 0 {
			w.problem("a value is refreshed for good")
		}
		if n.value.from < w.forgotten(n.value.key, w.now, false) {
			w.problem("a value of key %d stays that was forgotten", n.value.key)
		}
	}
	if weight := cache.Weight(); weight != cost || weight > cache.Limit() {
		w.problem("the values cost %d, and not %d", cost, weight)
	}
	w.depth = 2
	cache.Close()
	sum := 0
	for it, n := range w.told {
		if sum += n; n != 1 {
			w.problem("a value from %d is told of %d times", it.from, n)
		}
	}
	if st := cache.Stats(); st.Weight != 0 || st.Values != 0 || st.Kept != uint64(sum) {
		w.problem("%d have left: %+v", sum, st)
	}
}

// Random schedules of random calls of a cache keep the promises; see TestSchedules.
func TestCacheSchedules(t *testing.T) {
	eachSchedule(t, playCacheWorld)
}

// Random schedules of random calls of a cache are recorded as histories that are legal in time.
func TestRecordedCacheSchedules(t *testing.T) {
	eachSchedule(t, func(t *testing.T, seed int64) { playRecordedCache(t, seed, new(bytes.Buffer)) })
}

// A scheduler that calls look where a node moves, and for which nobody else runs: what would block panics.
type growing struct {
	look      func()
	isLooking bool
}

func (g *growing) at(at where) {
	if at == beforeLook && !g.isLooking {
		g.isLooking = true
		g.look()
		g.isLooking = false
	}
}
func (g *growing) blocked()     { panic(errStuck) }
func (g *growing) spawn(func()) { panic("nobody is to run") }
func (g *growing) index() uint  { return 0 }

// While the nodes of a shard move, a look finds each, or waits for the lock.
func TestSchedulesOfLooksWhileItGrows(t *testing.T) {
	c := newCache(t, 100, number)
	table := &c.now.Load().values
	kept, looks, waits := 0, 0, 0
	look := func(key string) {
		defer func() {
			if it := recover(); it == errStuck {
				waits++
			} else if it != nil {
				panic(it)
			}
		}()
		looks++
		if _, is := table.hit(key, c.printOf(key), &c.tally); is == isNothing {
			t.Error("a Get loads it again", key)
		}
		if n := table.find(key, c.printOf(key)); n == nil || n.key != key {
			t.Error("it is not found", key)
		}
	}
	schedule = &growing{look: func() {
		for i := 0; i < kept; i++ {
			look(keyNumber(i))
		}
	}}
	defer func() { schedule = nil }()
	for ; kept < 64; kept++ {
		mustGet(t, c, keyNumber(kept), kept)
	}
	if looks == 0 || waits == 0 {
		t.Error("nothing was tested", looks, waits)
	}
}
