package singleflight

import (
	"hash/maphash"
	"io"
	"runtime"
	"sync"
	"sync/atomic"
)

// Record begins to write to w what the cache does, until Stop: records in format 4, by which "sfctl
// check --timed" judges that no Get returned a value or an error from before a Forget that had
// returned when the Get began, and that one load of a key ran at a time. It fails with ErrRecording if
// the cache is recorded already. Stop has to be called.
//
// A load is a call of the history, which stays open as long as its value is kept. Each Get that
// returned the value, or the load's error, is an Enter of it; but not the Get that ran the load. The
// Settle comes when the value has left. A Put is a Forget, and then a call that is loaded at once. A
// ForgetAll or ForgetTag is a Forget of each call that it has closed. What was loaded before Record is
// not in the recording, nor is a Get of it.
//
// A load that failed, or whose value was not kept, while an older value was still returned is left out.
// A Get that is left without a value, since its context ended or the load panicked, is left out too.
//
// Values that make room are no events: Recorded.Evictions counts them. All else is as in the Record of
// Of. The writer may call the cache.
func (c *Cache[K, V]) Record(w io.Writer) (*Recording, error) {
	acquire(&c.filling)
	defer c.filling.Unlock()
	if it := c.records; it != nil && !it.r.done.Load() {
		return nil, ErrRecording
	}
	r := newRecorder(w)
	r.isOfCache = true
	// What a cache records that nobody can call any more ends. The writer does not keep this.
	it := &cacheRecording{r}
	runtime.SetFinalizer(it, func(it *cacheRecording) { it.r.end() })
	c.records = it
	c.now.Load().p.records(r)
	go r.run()
	return &Recording{c, r}, nil
}

// A cacheRecording is what a cache has of its recorder.
type cacheRecording struct{ r *recorder }

func (c *Cache[K, V]) endRecording(r *recorder) {
	acquire(&c.filling)
	if p := c.now.Load().p; p.recorder.Load() == r {
		p.recorder.Store(nil)
	}
	c.filling.Unlock()
	r.end()
}

// records begins to record a cache's core.
func (p *core) records(r *recorder) {
	p.ledger.Store(&ledger{by: r, seed: maphash.MakeSeed()})
	p.recorder.Store(r)
}

// How the recorder sees a cache.
//
// A load or a Put has a record, as a call of a group has. It hangs at the node too, and so it has more parts: its node, as long as
// that is kept, and each Get that looks at the node or takes it from the load. So it is complete when nobody can get the value any
// more. A Get finds no record that is complete, but for one whose node has left since: it looks again.
//
// Hits are many, and a record lives long. So each hit goes to a lane by itself, also that of a Get which has joined a load. The
// record is live as long as its value is kept, and from its first hit on: it is written at the end of the recording if it is not
// complete by then, and it is not dropped if a hit of it is in a lane.
//
// A Forget has to learn which calls it closes. So an asking and a Forget of one key take the lock of the ledger around what the
// table does, and the ledger has the records that a Forget of the key would close: that of the value, and that of a load. There are
// both where a load is to replace the value. The history has one open call of a key at a time: there the load's call begins when
// the value has left, which is not later than the load's end. If the value stays, that load is left out.

// A ledger has the records of one fill that a Forget can close.
type ledger struct {
	by     *recorder
	seed   maphash.Seed
	shards [lanes]ledgerShard
}

type ledgerShard struct {
	mu      sync.Mutex // protects the rest, and the records
	keys    map[string]*ledgerKey
	isEnded bool // whether a ForgetAll has begun that ends the fill
	_       [cacheLine - 24]byte
}

type ledgerKey struct{ value, load *callRecord }

// What a record of a cache has beside that of a group.
type valueRecord struct {
	of         *ledgerShard
	instead    *callRecord                // of the value that the call's callers get in place of a loaded one; it is held
	hits       atomic.Uint64              // those that are in lanes
	lane       atomic.Pointer[recordLane] // where it is live, once its value is kept, or a hit of it is in a lane
	isWide     bool                       // whether there was a value when it was led
	isKept     bool
	isLeftOut  bool // whether it is not written, and none of its Enters
	isFinished bool
	kept       int64 // when
	ended      int64 // when its value left, or was not kept
	closed     int64 // when a Forget had the lock that closed it
	tags       []uint32
	began      uint64 // the clock of the tags
	isAny      bool   // whether each ForgetTag ends it
}

func (l *ledger) shard(key string) *ledgerShard {
	return &l.shards[hash(l.seed, key)%uint64(len(l.shards))]
}

func (s *ledgerShard) key(key string) *ledgerKey {
	k := s.keys[key]
	if k == nil {
		if s.keys == nil {
			s.keys = map[string]*ledgerKey{}
		}
		k = &ledgerKey{}
		s.keys[key] = k
	}
	return k
}

// takes takes the record out, if it is there.
func (s *ledgerShard) takes(rec *callRecord) (k *ledgerKey) {
	k = s.keys[rec.key]
	switch {
	case k == nil:
		return nil
	case k.load == rec:
		k.load = nil
	case k.value == rec:
		k.value = nil
	default:
		return nil
	}
	if k.load == nil && k.value == nil {
		delete(s.keys, rec.key)
	}
	return k
}

// asks is the core's, for one that is recorded. One that began before the recording tells nothing of what it joins: nobody knows
// when it began.
func (l *ledger) asks(p *core, a *asking) {
	a.by = l.by
	isLate := a.from == 0
	if isLate {
		a.from = now()
	}
	s := l.shard(a.key)
	acquire(&s.mu)
	defer s.mu.Unlock()
	point(beforeAsk)
	p.table.ask(a)
	point(afterAsk)
	if !a.leads {
		if isLate {
			a.by = nil
		}
		if isLate && a.isCrowded {
			// It asks again, and has begun before the recording then too.
			a.from = 0
		}
		return
	}
	p.table.share(a)
	rec := l.by.record(a.key, a.from)
	rec.value = &valueRecord{of: s}
	if rec.value.isLeftOut = s.isEnded; !s.isEnded {
		k := s.key(a.key)
		rec.value.isWide = k.value != nil
		k.load = rec
	}
	a.call.rec.Store(rec)
}

// A forgetOf is a Forget that has begun, and the records of the calls that it closes.
type forgetOf struct {
	watch
	closed []*callRecord
}

// closes closes a call. The lock of its shard is held.
func (f *forgetOf) closes(rec *callRecord) {
	if rec != nil && rec.closing == nil {
		rec.closing = &forgetRecord{f.by.caller(), f.from, forever, false}
		rec.value.closed = now()
		rec.parts.Add(1)
		f.closed = append(f.closed, rec)
	}
}

// ends tells that the Forget has ended.
func (f *forgetOf) ends() {
	to := now()
	for _, rec := range f.closed {
		acquire(&rec.value.of.mu)
		rec.closing.to = to
		rec.value.of.mu.Unlock()
		rec.part()
	}
}

// forgets is the core's, for one that is recorded.
func (l *ledger) forgets(p *core, key string) {
	f := forgetOf{watch: watch{l.by, now()}}
	s := l.shard(key)
	acquire(&s.mu)
	point(beforeForget)
	p.table.forget(key)
	point(afterForget)
	isIdle := !s.isEnded
	if k := s.keys[key]; k != nil {
		f.closes(k.value)
		f.closes(k.load)
		delete(s.keys, key)
		isIdle = false
	}
	s.mu.Unlock()
	if isIdle {
		l.by.push(entry{events: 1, key: key, name: uint64(l.by.caller()) << 32, from: f.from, to: now()})
	}
	f.ends()
}

// forgetsAll closes all calls. What is led or forgotten in this fill from here on is left out: the next fill may have begun by then,
// so that the key has a newer call.
func (l *ledger) forgetsAll(w watch) forgetOf {
	f := forgetOf{watch: watch{l.by, w.from}}
	for i := range l.shards {
		s := &l.shards[i]
		acquire(&s.mu)
		for _, k := range s.keys {
			f.closes(k.value)
			if k.load != nil && k.load.value.isWide {
				// The older value is returned until the next fill begins, which may be after this load.
				k.load.value.isLeftOut = true
			} else {
				f.closes(k.load)
			}
		}
		s.keys, s.isEnded = nil, true
		s.mu.Unlock()
	}
	return f
}

// isRecorded gives the node the record of its call. The node is not in a table yet.
func (n *node[K, V]) isRecorded(rec *callRecord) {
	if rec == nil {
		return
	}
	// The extras may be other nodes' too.
	var e extras
	var of rare
	if n.extras != nil {
		e = *n.extras
	}
	if e.rare != nil {
		of = *e.rare
	}
	of.rec, e.rare, n.extras = rec, &of, &e
	rec.value.tags, rec.value.began, rec.value.isAny = e.tags, e.began, of.err != nil && len(e.tags) == 0
}

// kept is told when the record's node is about to be found. No other of its key is there.
func (rec *callRecord) kept() {
	v := rec.value
	acquire(&v.of.mu)
	defer v.of.mu.Unlock()
	rec.parts.Add(1)
	v.isKept, v.kept = true, now()
	rec.settles = v.kept
	if rec.closing == nil && !v.isLeftOut {
		k := v.of.key(rec.key)
		if k.load == rec {
			k.load = nil
		}
		// Keys that have the same bytes have one name.
		if v.isLeftOut = k.value != nil; !v.isLeftOut {
			k.value = rec
		}
	}
	if !v.isLeftOut {
		rec.by.lives(rec)
	}
}

// left is told when the record's node has left.
func (rec *callRecord) left(reason Reason) {
	v := rec.value
	acquire(&v.of.mu)
	v.ended = now()
	v.of.takes(rec)
	v.of.mu.Unlock()
	if reason == ReasonRoom && !rec.by.done.Load() {
		rec.by.evictions.Add(1)
	}
	rec.part()
}

// loaded is told when the call is about to be settled: the key may have a newer one from then on.
func (rec *callRecord) loaded(err error) {
	v := rec.value
	acquire(&v.of.mu)
	defer v.of.mu.Unlock()
	rec.err = err
	if v.isKept {
		return
	}
	rec.settles = now()
	v.ended = rec.settles
	if k := v.of.takes(rec); k != nil && k.value != nil {
		v.isLeftOut = true
	}
}

// wasForgotten is told whether a Forget had closed the call when it was settled. It may be one that began before the recording.
func (rec *callRecord) wasForgotten(is bool) {
	v := rec.value
	acquire(&v.of.mu)
	defer v.of.mu.Unlock()
	if is && rec.closing == nil {
		v.of.takes(rec)
		rec.closing, v.closed = &forgetRecord{rec.by.caller(), rec.asked, forever, false}, now()
	}
}

// hold adds a part, unless the record is complete.
func (rec *callRecord) hold() bool {
	for {
		n := rec.parts.Load()
		if n == 0 || rec.parts.CompareAndSwap(n, n+1) {
			return n > 0
		}
	}
}

// enter tells of a Get that began then and returns the value. It holds the record.
func (rec *callRecord) enter(from int64) {
	v := rec.value
	if v.isLeftOut {
		return
	}
	if !rec.isLive() {
		// Its value is not kept, and those who have joined its load have that too.
		acquire(&v.of.mu)
		if !rec.isLive() {
			rec.by.lives(rec)
		}
		v.of.mu.Unlock()
	}
	rec.by.push(entry{events: 1, call: rec, isHit: true, name: rec.by.name(), from: from, to: now()})
}

// A watch is when a Get began that is recorded, and by whom.
type watch struct {
	by   *recorder
	from int64
}

func (p *core) watch() watch {
	if by := p.recorder.Load(); by != nil {
		return by.watch()
	}
	return watch{}
}

func (r *recorder) watch() watch { return watch{r, now()} }

func (w *watch) isOf(rec *callRecord) bool { return w.by != nil && rec != nil && rec.by == w.by }

// holds holds the record, if it is of this recording. It fails where that is complete: its node has left.
func (w *watch) holds(rec *callRecord) bool { return !w.isOf(rec) || rec.hold() }

// drops lets go of a record that was held.
func (w *watch) drops(rec *callRecord) {
	if w.isOf(rec) {
		rec.part()
	}
}

// hit tells of a Get that has found the node of a record which it holds.
func (w *watch) hit(rec *callRecord) {
	if w.isOf(rec) {
		rec.enter(w.from)
		rec.part()
	}
}

// returns tells that the call which is led is to have the value of another one. It fails where that has left since.
func (a *asking) returns(other *callRecord, isGet bool) bool {
	rec := a.record()
	if rec == nil || other == nil || other.by != rec.by {
		return true
	}
	if !other.hold() {
		return false
	}
	if isGet {
		other.enter(a.from)
	}
	rec.value.instead = other
	return true
}

// holds holds the record of the value that a joiner takes, before it leaves the call.
func (a *asking) holds() {
	if a.by == nil || !a.by.isOfCache || a.call.got.Val == nil {
		return
	}
	rec := a.call.rec.Load()
	if rec == nil || rec.by != a.by {
		return
	}
	if rec.value.instead != nil {
		rec = rec.value.instead
	}
	rec.parts.Add(1)
	a.held = rec
}

// enters tells whether the joiner has the value for good, or asks again.
func (a *asking) enters(has bool) {
	if rec := a.held; rec != nil {
		a.held = nil
		if has {
			rec.enter(a.from)
		}
		rec.part()
	}
}

// complete is called when nobody can add to the record any more.
func (rec *callRecord) complete() {
	v := rec.value
	if v.instead != nil {
		v.instead.part()
	}
	if !rec.ran || v.isLeftOut {
		return
	}
	acquire(&v.of.mu)
	events := rec.finish()
	v.of.mu.Unlock()
	rec.by.push(entry{events: events, call: rec})
}

// finish sets what is known at the end, and returns how many events the record has. The lock of its shard is held.
func (rec *callRecord) finish() (events int) {
	if v := rec.value; !v.isFinished {
		v.isFinished = true
		rec.settled = now()
		if v.ended == 0 {
			v.ended = rec.settled
		}
		if f := rec.by.tags.first(rec); f != nil {
			rec.closing = f
		}
		f := rec.closing
		if v.isWide {
			to := rec.settles
			if f != nil && f.to < to {
				to = f.to
			}
			if to > rec.led {
				rec.led = to
			}
		}
		if f != nil && f.to < rec.led {
			// It closed the call before that began: then it took effect when that did.
			f.to = rec.led
		}
	}
	if rec.closing != nil {
		return 4
	}
	return 3
}

// lives makes a record live, in a lane. The lock of its shard is held.
func (r *recorder) lives(rec *callRecord) {
	l := &r.lanes[here()]
	l.mu.Lock()
	defer l.mu.Unlock()
	if r.done.Load() {
		return
	}
	if l.live == nil {
		l.live = map[*callRecord]struct{}{}
	}
	l.live[rec] = struct{}{}
	rec.value.lane.Store(l)
}

// isLive tells whether the record is live in a lane.
func (rec *callRecord) isLive() bool { return rec.value != nil && rec.value.lane.Load() != nil }

// pushLive puts a call into the lane where it is live, also if that is full and there are hits of it: without the call nobody could
// tell what was hit. If the recording is over, it stays live.
func (r *recorder) pushLive(it entry) {
	v := it.call.value
	l := v.lane.Load()
	l.mu.Lock()
	defer l.mu.Unlock()
	switch {
	case r.done.Load():
		return
	case v.hits.Load() == 0 && l.isFull(it.events):
		r.missed.Add(uint64(it.events))
	default:
		l.entries = append(l.entries, it)
		l.events += it.events
	}
	delete(l.live, it.call)
}

// isFull tells whether the lane, whose lock is held, has no room for so many events.
func (l *recordLane) isFull(events int) bool { return l.events > 0 && l.events+events > eventsOfLane }

// takeLive takes the records that are live in the lane, after the recording is over.
func (l *recordLane) takeLive() map[*callRecord]struct{} {
	l.mu.Lock()
	defer l.mu.Unlock()
	all := l.live
	l.live = nil
	return all
}

// copyLive writes the calls whose values are kept still. All lanes are empty, and stay so.
func (r *recorder) copyLive() error {
	for i := range r.lanes {
		for rec := range r.lanes[i].takeLive() {
			if len(r.text) >= recordBytes {
				if err := r.flush(); err != nil {
					return err
				}
			}
			// A Forget may end meanwhile.
			rec.value.of.mu.Lock()
			r.pushed += uint64(rec.finish())
			r.text = rec.append(r.text)
			rec.value.of.mu.Unlock()
		}
	}
	return nil
}

// The ForgetTags of a recording that have ended, the last ones of each place of an age. A value that has such a tag was closed by
// one of them, if it began after the value's load.
type tagRecords struct {
	mu  sync.Mutex
	of  map[uint32][]tagRecord
	any []tagRecord
}

type tagRecord struct {
	number uint64 // which ForgetTag
	f      forgetRecord
}

const mostTagRecords = 256

func (t *tagRecords) forgot(place uint32, number uint64, f forgetRecord) {
	t.mu.Lock()
	defer t.mu.Unlock()
	if t.of == nil {
		t.of = map[uint32][]tagRecord{}
	}
	it := tagRecord{number, f}
	t.of[place] = appendTag(t.of[place], it)
	t.any = appendTag(t.any, it)
}

// appendTag appends to the list, of which an older half goes where it is full.
func appendTag(all []tagRecord, it tagRecord) []tagRecord {
	if len(all) == mostTagRecords {
		all = all[:copy(all, all[mostTagRecords/2:])]
	}
	return append(all, it)
}

// first returns the ForgetTag that closed the record's call, if one did before another Forget.
func (t *tagRecords) first(rec *callRecord) (found *forgetRecord) {
	v := rec.value
	if len(v.tags) == 0 && !v.isAny {
		return nil
	}
	t.mu.Lock()
	defer t.mu.Unlock()
	look := func(all []tagRecord) {
		for i := range all {
			f := all[i].f
			if all[i].number > v.began && v.mayBeClosedBy(&f, rec.closing) && (found == nil || f.to < found.to) {
				found = &f
			}
		}
	}
	if v.isAny {
		look(t.any)
	}
	for _, place := range v.tags {
		look(t.of[place])
	}
	return found
}

// mayBeClosedBy tells whether a ForgetTag came before the Forget that closed the call, and while its value was there. Where there was
// an older value, that may have been returned until then.
func (v *valueRecord) mayBeClosedBy(f *forgetRecord, closing *forgetRecord) bool {
	if f.from > v.ended || closing != nil && f.to >= v.closed {
		return false
	}
	return !v.isWide || v.isKept && f.to >= v.kept
}
