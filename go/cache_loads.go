package singleflight

import (
	"context"
	"errors"
)

// A loading is one load of a key: for a Get that missed it, or to replace an old value.
type loading[K comparable, V any] struct {
	c     *Cache[K, V]
	f     *fill[K, V]
	key   K
	print uint32
	load  LoadFunc[K, V]
	old   *node[K, V] // the value that it is to replace; none of a Get's
	from  int64       // when the Get began, where it is recorded
}

// A getting is a loading for a Get, with what its call takes. So a miss takes no memory but a node's, where the context never ends.
type getting[K comparable, V any] struct {
	loading[K, V]
	asking asking
	runs   loadFunc // run, which is bound once
}

// miss loads the key's value, or joins its load. A joiner asks again if the value that it gets is not
// its key's, or may have lost a tag before it began: see tags.
func (c *Cache[K, V]) miss(
	ctx context.Context, f *fill[K, V], key K, print uint32, load LoadFunc[K, V], gone *node[K, V], from int64,
) (*node[K, V], error) {
	noted := c.room.tags.clock.Load()
	c.tell(gone)
	if load == nil {
		return nil, ErrNoLoader
	}
	return loading[K, V]{c: c, f: f, key: key, print: print, load: load, from: from}.get(ctx, noted)
}

// get loads the key's value, or joins its load, for a Get that noted the clock of the tags when it began.
func (l loading[K, V]) get(ctx context.Context, noted uint64) (n *node[K, V], err error) {
	g, _ := l.c.gettings.Get().(*getting[K, V])
	if g == nil {
		g = new(getting[K, V])
		g.runs = g.run
	}
	g.loading = l
	for name := l.c.kind.name(l.key); ; {
		g.asking = asking{key: name, from: l.from}
		var a *asking
		a, err = l.f.p.doContext(ctx, &g.asking, g.runs)
		n, _ = a.got.Val.(*node[K, V])
		// A leader has its own key's, which need not equal itself: see isFindable.
		isFor := n == nil || g.asking.leads || l.isFor(n, noted)
		g.asking.enters(isFor)
		if isFor {
			break
		}
		l.c.room.countsOf(l.print).repeats.Add(1)
	}
	if ctx.Done() == nil {
		// No other goroutine has it. It keeps nothing alive while nobody uses it.
		*g = getting[K, V]{runs: g.runs}
		l.c.gettings.Put(g)
	}
	return n, err
}

// isFor tells whether a joiner that noted the clock of the tags when it began may have the value.
func (l *loading[K, V]) isFor(n *node[K, V], noted uint64) bool {
	return n.key == l.key && !l.c.room.tags.mayHaveEnded(n.extras, noted)
}

// run loads the key's value, and keeps it: before the call is settled, see keep.
func (l *loading[K, V]) run(ctx context.Context, a *asking) (any, error) {
	c, counts := l.c, l.c.room.countsOf(l.print)
	// The call before may have ended since this Get missed: its value was kept by then. A refresh does
	// not stop at the value that it is to replace.
	if n := l.found(a); n != nil {
		if l.old == nil {
			counts.found.Add(1)
		}
		return answer(n)
	}
	if l.old != nil {
		counts.refreshes.Add(1)
	}
	counts.loads.Add(1)
	born := c.room.lives.now()
	if c.cost != nil {
		// A Put may ask for its cost meanwhile, until this load has ended.
		c.room.begunOf(l.print).Add(1)
	}
	failed := true
	defer func() {
		counts.timed(c.room.lives.since(born.steady))
		if failed {
			counts.errors.Add(1)
		}
	}()
	if rec := a.record(); rec != nil {
		rec.begins()
	}
	began := c.room.tags.clock.Load()
	loaded, err := l.load(ctx, l.key)
	it := l.knows(birth{born, began}, loaded, err)
	failed = err != nil && !errors.Is(err, ErrNotFound)
	n, out := l.keep(ctx, &it, a)
	if len(out) > 0 {
		a.after = func() { c.left(out) }
	}
	return answer(n)
}

// found returns the key's value that is there by now, and is not to be replaced.
func (l *loading[K, V]) found(a *asking) *node[K, V] {
	for {
		n := l.f.values.current(l.key, l.print)
		if n == nil || n == l.old {
			return nil
		}
		if a.returns(n.record(), l.old == nil) {
			return n
		}
	}
}

// standIn returns the key's value that is to be returned in place of the load's error, if there is one: of a load that was told to
// end, since nobody waits for it any more, there is none. Whoever has joined that load asks again.
func (l *loading[K, V]) standIn(ctx context.Context, a *asking) *node[K, V] {
	if ctx.Err() != nil {
		return nil
	}
	for {
		n := l.f.values.standIn(l.key, l.print)
		if n == nil || a.returns(n.record(), l.old == nil) {
			return n
		}
	}
}

// answer is a node as the result of a call.
func answer[K comparable, V any](n *node[K, V]) (any, error) {
	_, err := n.result()
	return n, err
}

// When a load began: by the clocks, and by the clock of the tags.
type birth struct {
	born  instant
	began uint64
}

// knows returns what is known of a value, or an error, that a load function has returned. It calls the
// function of WithCost.
func (l *loading[K, V]) knows(from birth, loaded Loaded[V], err error) known[K, V] {
	it := known[K, V]{
		key: l.key, print: l.print, value: loaded.Value, cost: 1, from: from,
		ttl: l.c.room.lives.live(loaded.TTL), tags: loaded.Tags, err: err,
	}
	switch {
	case err != nil:
		// See keepsError.
		it.ttl = 0
	case l.c.cost != nil:
		it.cost = l.c.cost(l.key, loaded.Value)
	}
	if it.ttl < 0 || !isFindable(l.key) {
		it.cost = -1
	}
	return it
}

// keep keeps what a load function has returned. It returns the node that the load's callers get:
// another one if a value stands in for an error.
func (l *loading[K, V]) keep(ctx context.Context, it *known[K, V], a *asking) (*node[K, V], []*node[K, V]) {
	c := l.c
	n := nodeOf(&c.room, it)
	n.isRecorded(a.record())
	isMissing := it.err != nil && errors.Is(it.err, ErrNotFound)
	if it.err != nil && !isMissing {
		// It is looked at after the load has failed: a Forget since then closes the call, and a
		// ForgetTag is seen by those who join the call after it.
		if old := l.standIn(ctx, a); old != nil {
			c.room.countsOf(l.print).stale.Add(1)
			return old, nil
		}
		if !l.keepsError(ctx, n, it.err) {
			return n, nil
		}
	} else if isMissing && !l.keepsError(ctx, n, it.err) {
		// The older value leaves.
		n.price = -1
	}
	_, out := l.f.values.keep(n, a.stamp.packed())
	return n, out
}

// keepsError sets how long the error is kept, and tells whether it is. One of a load that was told to
// end, since nobody waits for it any more, is not the origin's.
func (l *loading[K, V]) keepsError(ctx context.Context, n *node[K, V], err error) bool {
	if ttl := l.c.room.lives.errorTTL; ttl != nil && ctx.Err() == nil {
		n.mortal().ttl = ttl(err)
	}
	return n.mortal().ttl > 0
}

// refresh loads the node's key in the background, unless a load does so already for the node. It
// blocks nobody.
func (c *Cache[K, V]) refresh(ctx context.Context, f *fill[K, V], n *node[K, V], load LoadFunc[K, V]) {
	if load == nil || n.isClaimed() {
		return
	}
	// A panic of the function of WithKey is the Get's.
	name := c.kind.name(n.key)
	if !n.claim() {
		return
	}
	l := &loading[K, V]{c: c, f: f, key: n.key, print: n.print, load: load, old: n}
	spawn(func() {
		// Where the value is replaced, nobody looks at it any more.
		defer n.release()
		if f.p.doBehind(detached{ctx}, name, l.run) {
			c.room.countsOf(n.print).repeats.Add(1)
		}
	})
}
