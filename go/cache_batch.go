package singleflight

import (
	"context"
	"errors"
	"sync"
	"time"
)

// Got is what GetMany returns of a key.
type Got[V any] struct {
	Value V
	Err   error
}

// GetMany returns what Get would return of each key, in the order of the keys. It loads all keys that
// it misses by one call of the function of WithBatchLoader; without one it loads one after the other.
// A key whose load is under way is not loaded: GetMany waits for that load once its own has ended. So
// batches that overlap do not wait for each other in a circle. Gets of a key that a batch loads join
// that, as other loads. A key that does not exist ends with ErrNotFound.
//
// If its context ends, GetMany returns at once. The keys that it has not got end with the context's
// error. Its load goes on, and its values are kept. The context of the batch's load has the values of
// GetMany's context, and never ends.
func (c *Cache[K, V]) GetMany(ctx context.Context, keys []K) []Got[V] {
	return c.GetManyWith(ctx, keys, c.batch)
}

// GetManyWith is GetMany with a batch loader of its own.
func (c *Cache[K, V]) GetManyWith(ctx context.Context, keys []K, load BatchLoad[K, V]) []Got[V] {
	got := make([]Got[V], len(keys))
	if load == nil {
		for i, key := range keys {
			got[i].Value, got[i].Err = c.Get(ctx, key)
		}
		return got
	}
	f := c.now.Load()
	b := &batch[K, V]{c: c, f: f, load: load, noted: c.room.tags.clock.Load(), watch: f.p.watch(), over: make(chan struct{})}
	first := b.looks(ctx, keys, got)
	b.get(ctx)
	for i, key := range keys {
		// A key that does not equal itself is in no map.
		if at, isThere := first[key]; isThere {
			got[i] = got[at]
		}
	}
	return got
}

// A batch is what one GetMany asks for.
type batch[K comparable, V any] struct {
	c      *Cache[K, V]
	f      *fill[K, V]
	load   BatchLoad[K, V]
	noted  uint64 // the clock of the tags
	watch  watch
	all    []*batchKey[K, V]
	led    []*batchKey[K, V]
	gone   []*node[K, V] // that the looks have met
	out    []*node[K, V] // and that left for what was loaded
	waits  int           // how many wait for calls that were led and settled
	took   time.Duration // by the batch loader
	over   chan struct{} // closed when the led ones are settled
	mu     sync.Mutex    // protects the next
	isLeft bool          // whether the GetMany has left
	failed error         // of a batch loader that panicked or ended its goroutine
}

// One key of a batch that was missed, and its call.
type batchKey[K comparable, V any] struct {
	loading[K, V]
	asking
	to     *Got[V]
	isOver bool // whether the call was settled, or its result taken
}

// looks looks for each key, and tells of the values that it has met and that have left. It returns where each key is first.
func (b *batch[K, V]) looks(ctx context.Context, keys []K, got []Got[V]) map[K]int {
	// Also where the function of WithKey panics, or the clock.
	defer func() { b.c.left(b.gone) }()
	first := make(map[K]int, len(keys))
	for i, key := range keys {
		if _, isAgain := first[key]; !isAgain {
			first[key] = i
			b.look(ctx, key, &got[i])
		}
	}
	return first
}

// look gives a key what is there, or has it be asked for.
func (b *batch[K, V]) look(ctx context.Context, key K, to *Got[V]) {
	c, print := b.c, b.c.printOf(key)
	n, isDue, gone := b.f.values.look(key, print, b.watch, &c.tally)
	if n == nil {
		c.tally.missed()
		if gone != nil {
			b.gone = append(b.gone, gone)
		}
		k := &batchKey[K, V]{to: to}
		k.loading = loading[K, V]{c: c, f: b.f, key: key, print: print, load: b.loadOne, from: b.watch.from}
		k.asking.key, k.asking.from = c.kind.name(key), b.watch.from
		b.all = append(b.all, k)
		return
	}
	b.watch.hit(n.record())
	to.Value, to.Err = n.result()
	if isDue {
		load := c.load
		if load == nil {
			load = b.loadOne
		}
		c.refresh(ctx, b.f, n, load)
	}
}

// loadOne loads one key as a batch.
func (b *batch[K, V]) loadOne(ctx context.Context, key K) (Loaded[V], error) {
	values, err := b.load(ctx, []K{key})
	loaded, ok := values[key]
	if err == nil && !ok {
		err = ErrNotFound
	}
	return loaded, err
}

// get asks for the keys that were missed, loads those that it leads, and then waits for the others.
func (b *batch[K, V]) get(ctx context.Context) {
	if err := ctx.Err(); err != nil {
		for _, k := range b.all {
			k.to.Err = err
		}
		return
	}
	// Whatever ends this, no call is left open, and none is held.
	defer b.parts()
	for _, k := range b.all {
		// A call that is crowded is not waited for before the keys that are led are loaded. Else two batches could wait
		// for each other for good, each of which leads the call that the other one finds crowded.
		k.asking.stop = ended
		b.f.p.asks(&k.asking)
		if k.leads {
			b.led = append(b.led, k)
		}
	}
	if len(b.led) > 0 {
		b.lead(ctx)
	}
	for _, k := range b.all {
		if !k.leads {
			b.join(ctx, k)
		}
	}
}

// lead loads the keys that are led: in this goroutine if the context can never end. Otherwise it waits
// no longer than the context.
func (b *batch[K, V]) lead(ctx context.Context) {
	if ctx.Done() == nil {
		b.run(ctx)
		end(b.failed)
		return
	}
	// What is given while nobody waits is not for the GetMany's caller.
	led, to := b.led, make([]*Got[V], len(b.led))
	for i, k := range led {
		to[i], k.to = k.to, new(Got[V])
	}
	spawn(func() { b.run(detached{ctx}) })
	if !await(b.over, ctx.Done()) && b.leaves() {
		for _, it := range to {
			it.Err = ctx.Err()
		}
		return
	}
	await(b.over, nil)
	end(b.failed)
	for i, k := range led {
		*to[i] = *k.to
	}
}

// leaves leaves the batch's load alone, unless it has ended.
func (b *batch[K, V]) leaves() bool {
	acquire(&b.mu)
	defer b.mu.Unlock()
	select {
	case <-b.over:
		return false
	default:
		b.isLeft = true
		return true
	}
}

// run loads the keys that are led, and settles each. What the batch loader returns for a key is kept
// before that key's call is settled.
func (b *batch[K, V]) run(ctx context.Context) {
	var r ending
	defer func() {
		if r.Err == nil {
			r.Err = errGoexit
		}
		for _, k := range b.led {
			if !k.isOver {
				// The batch loader, or the function of WithCost, has panicked or ended its goroutine.
				b.failed = r.Err
				b.settle(k, nil, r.Err)
			}
		}
		b.ends()
	}()
	calls(&r, func() (any, error) {
		if keys := b.missing(); len(keys) > 0 {
			b.loads(ctx, keys)
		}
		return nil, nil
	})
}

// ends tells that all keys that are led are settled.
func (b *batch[K, V]) ends() {
	acquire(&b.mu)
	isLost := b.isLeft && b.waits == 0
	close(b.over)
	b.mu.Unlock()
	// Also where the recorder panics.
	defer func() { b.c.left(b.out) }()
	if isLost {
		b.f.p.lost(b.failed)
	}
	if record := b.f.p.record; record != nil {
		tellAll(b.led, func(k *batchKey[K, V]) { record(Load{b.f.p.label, k.asking.key, b.took, k.got.Joiners, k.got.Err}) })
	}
}

// missing returns the keys that are led and not there by now: see loading.run.
func (b *batch[K, V]) missing() (keys []K) {
	for _, k := range b.led {
		if n := k.found(&k.asking); n != nil {
			b.c.room.countsOf(k.print).found.Add(1)
			b.settle(k, n, nil)
		} else {
			keys = append(keys, k.loading.key)
		}
	}
	return keys
}

func (b *batch[K, V]) loads(ctx context.Context, keys []K) {
	for _, k := range b.led {
		if k.isOver {
			continue
		}
		b.c.room.countsOf(k.print).loads.Add(1)
		if rec := k.record(); rec != nil {
			rec.begins()
		}
	}
	born, began := b.c.room.lives.now(), b.c.room.tags.clock.Load()
	values, err := b.call(ctx, keys, born)
	for _, k := range b.led {
		if k.isOver {
			continue
		}
		loaded, ok := values[k.loading.key]
		failed := err
		if err == nil && !ok {
			failed = ErrNotFound
		}
		it := k.knows(birth{born, began}, loaded, failed)
		n, left := k.keep(ctx, &it, &k.asking)
		b.out = append(b.out, left...)
		b.settle(k, n, nil)
	}
}

// call calls the batch loader. Its time is counted once.
func (b *batch[K, V]) call(ctx context.Context, keys []K, born instant) (map[K]Loaded[V], error) {
	counts := b.c.room.countsOf(b.led[0].print)
	if b.c.cost != nil {
		for _, k := range b.led {
			b.c.room.begunOf(k.print).Add(1)
		}
	}
	failed := true
	defer func() {
		b.took = b.c.room.lives.since(born.steady)
		counts.timed(b.took)
		for _, k := range b.led {
			if failed && !k.isOver {
				b.c.room.countsOf(k.print).errors.Add(1)
			}
		}
	}()
	values, err := b.load(ctx, keys)
	failed = err != nil && !errors.Is(err, ErrNotFound)
	return values, err
}

// settle settles a call that is led.
func (b *batch[K, V]) settle(k *batchKey[K, V], n *node[K, V], err error) {
	k.isOver = true
	if n != nil {
		k.got.Val = n
		k.to.Value, err = n.result()
	}
	k.got.Err, k.to.Err = err, err
	b.f.p.ends(&k.asking)
	b.waits += k.got.Joiners
}

// join waits for a call that is not led, and asks again where its result is not for this key.
func (b *batch[K, V]) join(ctx context.Context, k *batchKey[K, V]) {
	how := again
	if !k.isCrowded {
		how = b.f.p.joins(&k.asking, ctx.Done())
	}
	k.isOver = true
	if how == left {
		k.to.Err = ctx.Err()
		return
	}
	if how == settled {
		end(k.got.Err)
		n, _ := k.got.Val.(*node[K, V])
		isFor := n == nil || k.isFor(n, b.noted)
		k.asking.enters(isFor)
		if isFor {
			k.to.Value, k.to.Err = valueOf(n), k.got.Err
			return
		}
	}
	if !k.isCrowded {
		b.c.room.countsOf(k.print).repeats.Add(1)
	}
	n, err := k.loading.get(ctx, b.noted)
	k.to.Value, k.to.Err = valueOf(n), err
}

// parts lets go of the calls that it has joined and not waited for.
func (b *batch[K, V]) parts() {
	for _, k := range b.all {
		// What is led may be settled in another goroutine now.
		if !k.leads && !k.isOver {
			b.f.p.parts(&k.asking)
		}
	}
}
