package singleflight

import (
	"context"
	"sync"
	"sync/atomic"
	"time"
)

// A core is what an Of and a Cache do their calls by. The table says which caller leads a call, which ones
// join it, what a Forget ends and what is current: it is the proved library, or plain Go. The rest is here, for both.
type core struct {
	table
	label    string
	record   func(Load)
	onPanic  func(value any, stack []byte)
	recorder recorderPointer
	isEnded  atomic.Bool // whether Close was called: no stamp is current any more
	why      error       // there is no library
	// Of recordings.
	recording sync.Mutex
	ledger    atomic.Pointer[ledger] // of a cache's core that is recorded
}

// A place in the code where tests stop a goroutine.
type where uint8

const (
	beforeAsk where = iota
	afterAsk
	beforeSettle
	beforeWake
	beforeSleep
	beforeLeave
	beforeForget
	afterForget
	beforeLook
	beforeKeep
	afterKeep
	beforeLock
)

// A call is one run of a load function, with what its leader and those who joined share.
//
// A leader that nobody joined has told nobody of the call, and a table uses that again. Others are left to the collector.
type call struct {
	asked // as got
	// In plain Go, protected by the lock of the shard, as is the id then.
	key    string
	slot   uint64
	shared bool // whether somebody has joined it
	closed bool // whether a Forget has closed it

	holders atomic.Int64  // its run, and those who have joined and not left
	done    chan struct{} // closed when got is there; made by the first who joins
	rec     atomic.Pointer[callRecord]

	mu      sync.Mutex         // protects the rest
	ready   bool               // whether got is there; nothing changes then
	isApart bool               // whether its leader may leave, or there is none that waits: see apart
	waits   bool               // whether that waits
	cancel  context.CancelFunc // tells the load to end; of such a leader, also when it has left
	ended   bool               // whether that was called, since nobody waited
	told    []func()           // to be called when got is there
	got     ending
}

// Which call of the group: see sflight_id in sflight.h. None has the generation 0.
type callID struct {
	table, cell uint32
	generation  uint64
}

// What a Stamp says: see sflight_stamp in sflight.h.
type words struct{ table, slot, age uint64 }

// The words of the zero Stamp, which is never current.
var noStamp = Stamp{}.words()

// A stamp of all zeros is none, so a table is packed as one more.
func (w *words) packed() Stamp { return Stamp{(w.table+1)<<56 | w.slot, w.age} }

func (s Stamp) words() words { return words{s.Place>>56 - 1, s.Place << 8 >> 8, s.Age} }

// What a table tells of a call: the library writes it.
type asked struct {
	id    callID
	stamp words // of a call that is led
}

// An ending is what a call has come to. A Result has its names too: those of asked.
type ending struct {
	Val     any
	Err     error
	Joiners int  // how many have joined, and waited
	Shared  bool // whether somebody has joined it, also one that has left
}

// An asking is what one caller knows of the call that it leads or holds.
type asking struct {
	key string
	asked
	own   flight // what the table knows of it
	call  *call  // in the library's table none of a leader, unless it has to share something
	got   ending // of a leader, once it has called its function; of others, once the call has ended
	leads bool
	// Whether it does neither, since the key's call has as many holders as can be counted.
	isCrowded bool
	isClosed  bool            // of a leader that has settled: whether a Forget had closed the call, so that the result has no stamp
	stop      <-chan struct{} // closed when it is not to wait any more until one of them leaves
	by        *recorder       // none where it is not recorded
	from      int64           // when it began, where it is recorded
	took      int64           // of a leader whose load is told of: when that began, and then how long it took
	held      *callRecord     // of a cache's joiner: that of the value which it got
	over      chan struct{}   // of a leader that waits for a run in another goroutine; closed when that has ended
	after     func()          // to be called when all have the result
}

// How joining has ended.
type outcome uint8

const (
	settled outcome = iota // with the call's result
	again                  // with nothing: one asks again
	left                   // by leaving
)

// asks begins an asking: it leads the key's new call, or has joined its open one. Where that is crowded, it waits until it is
// not, or until the caller's end.
func (p *core) asks(a *asking) {
	for {
		by := p.recorder.Load()
		if a.by = by; by != nil && by.isOfCache {
			p.ledger.Load().asks(p, a)
		} else {
			a.from = by.now()
			point(beforeAsk)
			p.table.ask(a)
			point(afterAsk)
			if by != nil && a.leads {
				p.table.share(a)
				a.call.rec.Store(by.record(a.key, a.from))
			}
		}
		if !a.isCrowded || !nap(a.stop) {
			return
		}
	}
}

// Where an asking has this to stop it, it does not wait for a call that is crowded.
var ended = func() <-chan struct{} {
	c := make(chan struct{})
	close(c)
	return c
}()

// nap waits a while, but not after stop is closed. It tells whether it is open still.
func nap(stop <-chan struct{}) bool {
	timer := time.NewTimer(time.Millisecond)
	defer timer.Stop()
	select {
	case <-stop:
		return false
	case <-timer.C:
		return true
	}
}

// record returns the record of the call that is led, if that is recorded.
func (a *asking) record() *callRecord {
	if a.by == nil {
		return nil
	}
	return a.call.rec.Load()
}

// ends settles the call that was led, tells those who have joined, and completes the result.
func (p *core) ends(a *asking) {
	rec := a.record()
	if rec != nil && rec.value != nil {
		rec.loaded(a.got.Err)
	} else if rec != nil {
		rec.settles, rec.err = now(), a.got.Err
	}
	point(beforeSettle)
	isTold := p.table.settle(a, rec != nil || a.over != nil)
	if a.isClosed || p.isEnded.Load() {
		a.stamp = noStamp
	}
	if !isTold {
		return
	}
	if rec != nil && rec.value != nil {
		rec.wasForgotten(a.isClosed)
	} else if rec != nil {
		rec.settled = now()
		if a.isClosed {
			rec.by.awaits(rec, a.id)
		}
	}
	point(beforeWake)
	p.tell(a)
}

// tell gives the result to those who have joined, and wakes them.
func (p *core) tell(a *asking) {
	c := a.call
	acquire(&c.mu)
	c.asked, c.got, c.ready = a.asked, a.got, true
	isLost := c.isApart && !c.waits && c.holders.Load() == 1
	done, told := c.done, c.told
	c.told = nil
	c.mu.Unlock()
	if done != nil {
		close(done)
	}
	for _, tell := range told {
		tell()
	}
	p.leaves(a, true)
	if isLost {
		p.lost(a.got.Err)
	}
}

// leaves lets go of a call.
func (p *core) leaves(a *asking, hasEnded bool) {
	point(beforeLeave)
	if !p.table.leave(a, hasEnded) {
		return
	}
	// The last reads the record: when a joiner gives up, the leader may not have attached it yet.
	if rec := a.call.rec.Load(); rec != nil {
		rec.part()
	}
}

// joins waits for the call that was joined, or until stop is closed.
func (p *core) joins(a *asking, stop <-chan struct{}) outcome {
	c := a.call
	point(beforeSleep)
	if !await(c.done, stop) && p.gives(a) {
		return left
	}
	await(c.done, nil)
	return p.takes(a)
}

// takes takes the result of a call that has ended.
func (p *core) takes(a *asking) outcome {
	c := a.call
	how := again
	if err := c.got.Err; err != errAgain && (err == nil || !c.ended) {
		a.asked, a.got, how = c.asked, c.got, settled
		a.holds()
	}
	a.enter()
	p.leaves(a, true)
	a.call = nil
	return how
}

// gives gives up waiting for the call, unless its result is there. Where nobody waits any more, the load is told to end. The
// call stays the key's: a load that takes its time to end is still the one of its key.
func (p *core) gives(a *asking) bool {
	c := a.call
	acquire(&c.mu)
	if c.ready {
		c.mu.Unlock()
		return false
	}
	if a.leads {
		c.waits = false
	} else {
		a.enter()
		c.holders.Add(-1)
	}
	if c.holders.Load() == 1 && !c.waits && c.cancel != nil && !c.ended {
		c.ended = true
		c.cancel()
	}
	c.mu.Unlock()
	if !a.leads {
		p.leaves(a, false)
	}
	return true
}

// whenTold calls tell when the result is there, at once where it is.
func (c *call) whenTold(tell func()) {
	acquire(&c.mu)
	isReady := c.ready
	if !isReady {
		c.told = append(c.told, tell)
	}
	c.mu.Unlock()
	if isReady {
		tell()
	}
}

func (p *core) forgets(key string) {
	by := p.recorder.Load()
	if by != nil && by.isOfCache {
		p.ledger.Load().forgets(p, key)
		return
	}
	from := by.now()
	point(beforeForget)
	id, closed := p.table.forget(key)
	point(afterForget)
	if r := p.recorder.Load(); r != nil {
		r.forgot(forgetting{by, from, false}, key, id, closed)
	}
}

func (p *core) forgetsCall(key string, c Call) Hit {
	if c.id.generation == 0 {
		return Missed
	}
	by := p.recorder.Load()
	from := by.now()
	point(beforeForget)
	hit := p.table.forgetCall(key, c, p.isEnded.Load())
	point(afterForget)
	if r := p.recorder.Load(); r != nil && hit == Closed {
		r.forgot(forgetting{by, from, true}, key, c.id, true)
	}
	return hit
}

// isStill tells whether the stamp is current. It counts a true answer as a hit in by, unless that is nil.
func (p *core) isStill(stamp Stamp, by *tally) bool {
	return !p.isEnded.Load() && p.table.isStill(stamp, by)
}

func (p *core) err() error {
	if p.isEnded.Load() {
		return ErrClosed
	}
	return p.why
}

// A lazyCore is made when it is first asked for, if it was not before.
type lazyCore struct {
	corePointer
	mu sync.Mutex // taken to make it
}

func (l *lazyCore) core() *core {
	if p := atomic.LoadPointer(&l.at); p != nil {
		return (*core)(p)
	}
	return l.make()
}

func (l *lazyCore) make() *core {
	l.mu.Lock()
	defer l.mu.Unlock()
	if p := l.Load(); p != nil {
		return p
	}
	size := defaultSizes()
	p := newCore(&size)
	l.Store(p)
	return p
}

// These are atomic.Pointer for what each call reads: Go 1.19 does not inline that one's methods.

type corePointer struct{ at pointer }

func (p *corePointer) Load() *core    { return (*core)(atomic.LoadPointer(&p.at)) }
func (p *corePointer) Store(to *core) { atomic.StorePointer(&p.at, pointer(to)) }

type recorderPointer struct{ at pointer }

func (p *recorderPointer) Load() *recorder    { return (*recorder)(atomic.LoadPointer(&p.at)) }
func (p *recorderPointer) Store(to *recorder) { atomic.StorePointer(&p.at, pointer(to)) }
