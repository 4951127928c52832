package singleflight

import (
	"context"
	"errors"
	"fmt"
	"sync"
	"sync/atomic"
	"time"
)

// Cache keeps the values that a load function returns, each under its key, as long as there is
// room. The values cost no more than a limit together. NewCache makes it. It may not be copied. All
// methods may be called by any number of goroutines at one time, also within a load function and
// the function of WithOnEvict.
//
// The cache promises:
//
//   - A Get of a key returns a value that a load of this very key returned, or that a Put gave it.
//   - After a Forget, ForgetTag, ForgetAll or Put has returned, no Get that begins later returns a
//     value, or a kept error, whose load began before that was called: not a stale one, not a
//     refreshed one, not one from a batch, and not from a load that was under way.
//   - Of the goroutines that miss one key at one time, one runs the load, and the others share its
//     result. A refresh is such a load, and so is a batch's load of a key.
//   - The costs of the values that are kept are never more than the limit together.
//   - Each value that leaves is told once to the function of WithOnEvict.
//
// Each hit asks the library whether the value may still be used, as IsStill does. So a value may be
// lost early, if another key of its hash slot is forgotten. It is loaded again then.
//
// Where the package runs the proved library, that answer is the library's and proved. What values
// there are, which of them makes room, and how long they live, is Go's and tested.
type Cache[K comparable, V any] struct {
	now      fillPointer[K, V]
	kind     keyKind[K]
	load     LoadFunc[K, V]
	tally    tally
	gettings *sync.Pool // of *getting[K, V] that are in no use; apart, since the runtime holds pools
	room     room
	cost     func(K, V) int64
	onEvict  func(K, V, Reason)
	batch    BatchLoad[K, V]
	size     sizes
	filling  sync.Mutex // taken to change the fill, the limit, or who records
	records  *cacheRecording
	mu       sync.Mutex // protects the rest
	olds     []*core    // of earlier fills, whose loads may still run
	past     Stats      // of those that have none
}

// A fill is what a cache has between two ForgetAlls: its calls and its values.
type fill[K comparable, V any] struct {
	p      *core
	values values[K, V]
}

type fillPointer[K comparable, V any] struct{ at pointer }

func (p *fillPointer[K, V]) Load() *fill[K, V]    { return (*fill[K, V])(atomic.LoadPointer(&p.at)) }
func (p *fillPointer[K, V]) Store(to *fill[K, V]) { atomic.StorePointer(&p.at, pointer(to)) }

var (
	// ErrNotFound tells that a key does not exist. GetMany returns it for a key that a batch loader
	// has no value for, and a load function may return it. It is no failure: it is not counted in
	// Errors, and no stale value stands in for it.
	ErrNotFound = errors.New("singleflight: the key does not exist")
	// ErrNoLoader is the error of a Get that has to load, of a cache without a load function.
	ErrNoLoader = errors.New("singleflight: the cache has no load function")

	// The result of a Put's call that is not to be used: whoever has joined asks again.
	errAgain = errors.New("singleflight: a Put that came late")
)

// Loaded is a value with what its load function knows of it.
type Loaded[V any] struct {
	Value V
	// TTL tells how long the value lives, counted from when its load began. 0 means as long as
	// WithTTL has said. A value with a TTL below 0 is returned to all who wait for it, and not kept.
	TTL time.Duration
	// Tags are the names by which ForgetTag forgets the value. They are not kept themselves.
	Tags []string
}

// LoadFunc loads the value of a key, with how long it lives and its tags.
type LoadFunc[K comparable, V any] func(ctx context.Context, key K) (Loaded[V], error)

// NewCache makes a cache whose values cost at most limit together, 1 or more. By default each costs
// 1; see WithCost. The load function loads the value of a key. It runs as the function of Do does:
// with the values of its leader's context, and in a goroutine of its own if that context can end.
//
// Keys are strings, whole numbers or arrays of whole numbers, or of any comparable type with WithKey.
// All options of New may be given too.
//
// NewCache fails with ErrSize if the limit or a number of an option is out of range; with ErrOption
// if there is no load function, if a function of an option has other types than the cache, or if its
// keys need WithKey; with ErrMemory if there is no memory; and with ErrProcessor as New does.
func NewCache[K comparable, V any](
	limit int64, load func(context.Context, K) (V, error), options ...Option,
) (*Cache[K, V], error) {
	if load == nil {
		return nil, fmt.Errorf("%w: no load function", ErrOption)
	}
	return NewCacheOf(limit, func(ctx context.Context, key K) (Loaded[V], error) {
		v, err := load(ctx, key)
		return Loaded[V]{Value: v}, err
	}, options...)
}

// NewCacheOf is NewCache with a load function that may return a TTL and tags with the value. It may
// be nil, if each Get has its own: see GetWith. A Get that has to load then fails with ErrNoLoader.
func NewCacheOf[K comparable, V any](
	limit int64, load LoadFunc[K, V], options ...Option,
) (*Cache[K, V], error) {
	if limit < 1 {
		return nil, fmt.Errorf("%w: a limit of %d", ErrSize, limit)
	}
	size := defaultSizes()
	for _, option := range options {
		option(&size)
	}
	c := &Cache[K, V]{load: load, gettings: new(sync.Pool)}
	if err := c.take(&size.cache); err != nil {
		return nil, err
	}
	c.open(limit, &size)
	// What the core has of the options is not to keep the cache, which its functions may call.
	size.cache = cacheSizes{}
	c.size = size
	p, err := size.core()
	if err != nil {
		return nil, err
	}
	c.begin(p)
	return c, nil
}

// take takes what the options say.
func (c *Cache[K, V]) take(given *cacheSizes) (err error) {
	var toBytes func(K) []byte
	var onEvict func(K, V)
	if do, isShort := given.onEvict.(func(K, V)); isShort {
		if onEvict, given.onEvict = do, nil; do != nil {
			c.onEvict = func(key K, value V, _ Reason) { onEvict(key, value) }
		}
	}
	for _, failed := range []error{
		given.err,
		function(&c.cost, given.cost, "WithCost"),
		function(&c.onEvict, given.onEvict, "WithOnEvict"),
		function(&c.batch, given.batch, "WithBatchLoader"),
		function(&toBytes, given.toBytes, "WithKey"),
	} {
		if failed != nil {
			return failed
		}
	}
	c.room.lives = given.lives
	c.room.tells = c.onEvict != nil
	c.kind, err = keyKindOf(toBytes)
	return err
}

// A cache of so few values takes little memory, and has few loads at one time.
const (
	smallCache = 1024
	fewLoads   = 16
)

// open makes what all fills of the cache share.
func (c *Cache[K, V]) open(limit int64, size *sizes) {
	hasCosts := c.cost != nil
	entries := valuesFor(limit, hasCosts)
	c.room.limit.Store(limit)
	c.room.tags.open(entries)
	c.room.begun = make([]atomic.Uint64, powerFor(entries, fewestClasses, mostClasses))
	c.room.counts = make([]counts, powerFor(entries/leastOfShard, 1, mostCounts))
	c.tally.open(powerFor(entries, 1, mostLooks))
	if n := slotsFor(limit, hasCosts); size.slots < n {
		size.slots = n
	}
	size.isSmall = entries <= smallCache
	if size.isSmall && size.loads == defaultLoads {
		size.loads = fewLoads
	}
}

// begin begins a fill.
func (c *Cache[K, V]) begin(p *core) {
	f := &fill[K, V]{p: p}
	entries := valuesFor(c.room.limit.Load(), c.cost != nil)
	f.values.open(p, &c.room, powerFor(entries/leastOfShard, 1, mostCacheShards))
	c.now.Store(f)
}

func (c *Cache[K, V]) printOf(key K) uint32 { return uint32(c.kind.hash(key)) }

// Get returns the key's value: the one that is kept, or what the load returns. A load's error is
// returned with its value, to all who share the load. Neither is kept, but see WithErrorTTL.
//
// A hit does not look at the context. Otherwise Get waits no longer than that: it then returns its
// error at once, and the load goes on, as in Do. Where the load function panics or ends its
// goroutine, so do all who share it.
func (c *Cache[K, V]) Get(ctx context.Context, key K) (V, error) {
	return c.get(ctx, key, c.load)
}

// GetWith is Get with a load function of its own. It joins a load of the key that runs already,
// whatever its function. A refresh that it starts runs this function too.
func (c *Cache[K, V]) GetWith(ctx context.Context, key K, load LoadFunc[K, V]) (V, error) {
	return c.get(ctx, key, load)
}

func (c *Cache[K, V]) get(ctx context.Context, key K, load LoadFunc[K, V]) (V, error) {
	f, print := c.now.Load(), c.printOf(key)
	if f.p.recorder.Load() == nil {
		n, is := f.values.hit(key, print, &c.tally)
		if is >= isFresh {
			if is == isDue {
				c.refresh(ctx, f, n, load)
			}
			return n.result()
		}
		if is == isNothing {
			return c.missed(ctx, f, key, print, load, nil, 0)
		}
	}
	w := f.p.watch()
	n, isDue, gone := f.values.look(key, print, w, &c.tally)
	if n == nil {
		return c.missed(ctx, f, key, print, load, gone, w.from)
	}
	w.hit(n.record())
	if isDue {
		c.refresh(ctx, f, n, load)
	}
	return n.result()
}

// missed is the rest of a Get that has found nothing.
func (c *Cache[K, V]) missed(
	ctx context.Context, f *fill[K, V], key K, print uint32, load LoadFunc[K, V], gone *node[K, V], from int64,
) (V, error) {
	c.tally.missed()
	n, err := c.miss(ctx, f, key, print, load, gone, from)
	return valueOf(n), err
}

// valueOf returns the value of a node, or none of none.
func valueOf[K comparable, V any](n *node[K, V]) (v V) {
	if n != nil {
		v = n.value
	}
	return v
}

// GetIfPresent returns the key's value if one is kept, also one that is to be refreshed. It loads
// nothing and waits for nothing. A kept error is no value.
func (c *Cache[K, V]) GetIfPresent(key K) (v V, ok bool) {
	f := c.now.Load()
	w := f.p.watch()
	n, _, gone := f.values.look(key, c.printOf(key), w, nil)
	ok = n != nil && !n.isError()
	c.tally.looked(ok)
	if ok {
		w.hit(n.record())
		return n.value, true
	}
	if n != nil {
		w.drops(n.record())
	}
	c.tell(gone)
	return v, false
}

// ValueStamp names one value that a cache returned, for ForgetIf. It keeps the value in memory. The
// zero ValueStamp names none.
type ValueStamp struct{ of pointer }

// GetStamped is Get, and returns the stamp of the value too, for ForgetIf.
func (c *Cache[K, V]) GetStamped(ctx context.Context, key K) (v V, stamp ValueStamp, err error) {
	f, print := c.now.Load(), c.printOf(key)
	w := f.p.watch()
	n, isDue, gone := f.values.look(key, print, w, &c.tally)
	if n == nil {
		c.tally.missed()
		n, err = c.miss(ctx, f, key, print, c.load, gone, w.from)
		return valueOf(n), ValueStamp{pointer(n)}, err
	}
	w.hit(n.record())
	if isDue {
		c.refresh(ctx, f, n, c.load)
	}
	v, err = n.result()
	return v, ValueStamp{pointer(n)}, err
}

// Forget makes the cache forget the key's value, and closes its open load: a Get that begins from
// now on loads anew. Those that wait for the open load still get its result. Write to the origin
// first, and call Forget then.
func (c *Cache[K, V]) Forget(key K) {
	f, print := c.now.Load(), c.printOf(key)
	c.forgets(f, c.kind.name(key), print)
	c.tell(f.values.takeOut(key, print))
}

// forgets forgets the key of this name in the library. It returns the number of this Forget in its class.
func (c *Cache[K, V]) forgets(f *fill[K, V], name string, print uint32) (number uint64) {
	number = c.room.begunOf(print).Add(1)
	f.p.forgets(name)
	return number
}

// ForgetIf is Forget if this value is still the key's, and does nothing if a newer one is loaded or
// was put. So of two callers that find one value to be old, the later one does not throw away what
// the first one has loaded. It returns whether it has forgotten.
func (c *Cache[K, V]) ForgetIf(key K, stamp ValueStamp) bool {
	was := (*node[K, V])(stamp.of)
	if was == nil || was.key != key {
		return false
	}
	// The function of WithKey is called here, where no lock is held.
	gone, forgets := c.takeIf(c.now.Load(), was, c.kind.name(key))
	c.tell(gone)
	return forgets
}

// takeIf forgets the node's key if the node is there, all under the lock of its shard: so that a newer
// value is not kept meanwhile. Where it has left for another reason, its call may still be open, which
// others can join: the value is kept before its call is settled.
func (c *Cache[K, V]) takeIf(f *fill[K, V], was *node[K, V], name string) (gone *node[K, V], forgets bool) {
	t := &f.values
	s := t.lock(was.print)
	defer s.mu.Unlock()
	n := s.find(was.key, was.print)
	isThere := n == was
	if reason, hasLeft := was.left(); !isThere && (n != nil || !hasLeft || reason > ReasonExpired) {
		return nil, false
	}
	c.forgets(f, name, was.print)
	if isThere {
		t.remove(s, was, ReasonForgotten)
		c.room.weight.Add(-was.cost())
		gone = was
	}
	return gone, true
}

// ForgetTag forgets every value that has the tag, whatever its key, in a time that does not grow with
// their number. A load that is under way loses its value too, if it comes with the tag: a Get that
// begins from now on does not get it. A value can be lost early where the tag shares its hash with
// another one. Values that were forgotten so take their room until a Get meets them, or they make
// room.
func (c *Cache[K, V]) ForgetTag(tag string) {
	c.room.counts[0].forgets.Add(1)
	w := c.now.Load().p.watch()
	place, number := c.room.tags.forget(tag)
	if w.by != nil {
		w.by.tags.forgot(place, number, forgetRecord{w.by.caller(), w.from, now(), false})
	}
}

// ForgetAll is Forget of all keys. It takes the time and memory of a new cache, and calls what
// WithOnEvict has set with each value. The old memory is freed when the loads have ended that run.
func (c *Cache[K, V]) ForgetAll() {
	c.room.counts[0].forgets.Add(1)
	out, f := c.refill()
	f.ends()
	c.left(out)
}

// refill begins a new fill, and returns the values of the old one, with what is recorded of this.
func (c *Cache[K, V]) refill() (out []*node[K, V], f forgetOf) {
	acquire(&c.filling)
	defer c.filling.Unlock()
	acquire(&c.mu)
	old := c.now.Load()
	p := newCore(&c.size)
	p.isEnded.Store(old.p.isEnded.Load())
	if w := old.p.watch(); w.by != nil {
		f = old.p.ledger.Load().forgetsAll(w)
		p.records(w.by)
	}
	c.begin(p)
	c.olds = append(c.olds, old.p)
	c.fold()
	c.mu.Unlock()
	// Its calls are not joined any more, and their stamps are no later fill's. A Put that began before keeps its value in the
	// old fill, if at all.
	defer old.p.isEnded.Store(true)
	return old.values.close(ReasonForgotten), f
}

// Token is what a writer of a key draws before it writes to the origin: see PutWith.
type Token[K comparable] struct {
	key   K
	print uint32
	fill  pointer
	begun uint64 // how many Forgets of its class
	tags  uint64 // their clock
	born  instant
}

// Token returns a token of the key for PutWith, to be drawn before the write.
func (c *Cache[K, V]) Token(key K) Token[K] {
	t := Token[K]{key: key, print: c.printOf(key), tags: c.room.tags.clock.Load(), born: c.room.lives.now()}
	t.fill = pointer(c.now.Load())
	t.begun = c.room.begunOf(t.print).Load()
	return t
}

// Put is a Forget of the key, and then keeps this value, which the caller has just written to the
// origin. It waits for nobody. It returns whether the value is kept: not if it costs too much, or
// if a load, a Forget or another Put of the key has begun since Put was called. Another key may
// also be the cause. The next Get then loads the value.
//
// Two writers of one key have to make their writes and their Puts in one order, by a lock of their
// own say. Writers that cannot are to call PutWith, or Forget.
func (c *Cache[K, V]) Put(key K, value V) (kept bool) {
	return c.PutWith(c.Token(key), Loaded[V]{Value: value})
}

// PutWith is Put with a token that was drawn before the write, a TTL and tags. The value is not kept
// if a Forget or Put of the key, a ForgetAll, or a ForgetTag of one of its tags has begun since the
// token was drawn: another writer may have written a newer one. So writers need no order. The age of
// the value is counted from when the token was drawn. Each token is to be used once.
func (c *Cache[K, V]) PutWith(token Token[K], loaded Loaded[V]) (kept bool) {
	f, name := c.now.Load(), c.kind.name(token.key)
	it := known[K, V]{
		key: token.key, print: token.print, value: loaded.Value, cost: 1, from: birth{token.born, token.tags},
		ttl: c.room.lives.live(loaded.TTL), tags: loaded.Tags,
	}
	var out []*node[K, V]
	defer func() {
		if !kept {
			if gone := f.values.takeOut(it.key, it.print); gone != nil {
				out = append(out, gone)
			}
		}
		c.left(out)
	}()
	// The function of WithCost may panic. The older value is not current then.
	number := c.forgets(f, name, it.print)
	if number != token.begun+1 || token.fill != pointer(f) || it.ttl < 0 || !isFindable(it.key) {
		return false
	}
	if c.cost != nil {
		it.cost = c.cost(it.key, it.value)
	}
	kept, out = f.put(name, nodeOf(&c.room, &it), c.room.begunOf(it.print), number)
	return kept
}

// put settles a call of the node's key with the node, which is kept then. It returns what has left
// for that. Nothing is kept if another call of the key is open, which is newer than the Forget
// before this; or if last counts more than this number, since a Forget or Put has begun meanwhile.
//
// Without that count a Forget could come to its end before this leads, and nothing would tell of
// it: the node, which is older, would be the value of a newer call. One that has not counted yet
// when this looks forgets the call that this leads. Those who have joined the call ask again.
func (f *fill[K, V]) put(
	name string, n *node[K, V], last *atomic.Uint64, number uint64,
) (kept bool, out []*node[K, V]) {
	a := asking{key: name, stop: ended}
	f.p.asks(&a)
	if !a.leads {
		if f.p.parts(&a) {
			f.values.countsOf(n.print).repeats.Add(1)
		}
		return false, nil
	}
	return f.settle(&a, n, last, number)
}

func (f *fill[K, V]) settle(
	a *asking, n *node[K, V], last *atomic.Uint64, number uint64,
) (kept bool, out []*node[K, V]) {
	a.got = ending{Val: n, Err: errAgain}
	if last.Load() == number {
		if rec := a.record(); rec != nil {
			rec.begins()
			n.isRecorded(rec)
		}
		kept, out = f.values.keep(n, a.stamp.packed())
		a.got.Err = nil
	}
	f.p.ends(a)
	return kept, out
}

// Len returns how many values are kept, also those that are too old or were forgotten by a tag, and
// that no Get has met since.
func (c *Cache[K, V]) Len() int { return int(c.Stats().Values) }

// Weight returns what the values cost together that are kept, and the kept errors.
func (c *Cache[K, V]) Weight() int64 { return c.room.weight.Load() }

// Limit returns the most that they may cost.
func (c *Cache[K, V]) Limit() int64 { return c.room.limit.Load() }

// Resize changes the limit, to 1 or more. If that is less than the values cost, some leave before
// Resize returns. It fails with ErrSize if the limit is out of range. A cache is made for its first
// limit: one that is made much larger has fewer locks, and loses more values to others' Forgets,
// than one of that size.
func (c *Cache[K, V]) Resize(limit int64) error {
	if limit < 1 {
		return fmt.Errorf("%w: a limit of %d", ErrSize, limit)
	}
	// No earlier fill has values any more, or gets some, when this has the lock.
	acquire(&c.filling)
	c.room.limit.Store(limit)
	out := c.now.Load().values.shrink()
	c.filling.Unlock()
	c.left(out)
	return nil
}

// All calls do with each value that is kept and may be returned, until do returns false. Values that
// come or leave meanwhile may be left out; none is told twice unless it left and came again. It is no
// look: it changes nothing of what makes room. No lock is held, so do may call the cache.
func (c *Cache[K, V]) All(do func(key K, value V) bool) {
	t := &c.now.Load().values
	for i := range t.shards {
		for _, n := range t.nodesOf(&t.shards[i]) {
			if !n.isError() && t.isAtLeast(n, isFresh) && !do(n.key, n.value) {
				return
			}
		}
	}
}

// Close makes all values leave. It waits for no load. After it each Get loads, as for a group that
// is closed, and nothing is kept. It may be called at any time, and again. The garbage collector
// frees the memory of a cache, closed or not, when nothing refers to it.
func (c *Cache[K, V]) Close() {
	acquire(&c.filling)
	f := c.now.Load()
	f.p.isEnded.Store(true)
	out := f.values.close(ReasonClosed)
	c.filling.Unlock()
	c.left(out)
}

// Name returns the name that WithName has given.
func (c *Cache[K, V]) Name() string { return c.size.label }

// Err tells why nothing is kept, which is ErrClosed after Close; or why plain Go says what is
// current, and not the library: ErrMemory if there was no memory for its group, and ErrProcessor on
// an x86-64 processor below v2. It is nil otherwise.
func (c *Cache[K, V]) Err() error { return c.now.Load().p.err() }

// left tells of what has left. Nothing is locked, and the goroutine leads no call.
func (c *Cache[K, V]) left(out []*node[K, V]) {
	if c.onEvict != nil {
		tellAll(out, c.tell)
	}
}

// tellAll calls tell with each of them. If it panics or ends the goroutine, it is called with the others all the same, before that
// goes on. What it panics with once more is lost: as many panics as there are values would need a stack that has no room.
func tellAll[T any](all []T, tell func(T)) {
	told := 0
	defer func() {
		for told < len(all) {
			told += tellSome(all[told:], tell)
		}
	}()
	for told < len(all) {
		told++
		tell(all[told-1])
	}
}

// tellSome calls tell with each of them until it panics. It returns how often.
func tellSome[T any](all []T, tell func(T)) (told int) {
	defer func() {
		if recover() == nil && told < len(all) {
			// It has ended the goroutine, so this does not return.
			tellAll(all[told:], tell)
		}
	}()
	for told < len(all) {
		told++
		tell(all[told-1])
	}
	return told
}

// tell tells of a value that has left, if there is one.
func (c *Cache[K, V]) tell(n *node[K, V]) {
	if n != nil && c.onEvict != nil && !n.isError() {
		reason, _ := n.left()
		c.onEvict(n.key, n.value, reason)
	}
}
