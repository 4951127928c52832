//go:build linux && (amd64 || arm64) && gc && !purego

package singleflight

import (
	"runtime"
	"sync"
	"sync/atomic"
	"time"
	_ "unsafe" // for linkname
)

// The proved library says which caller leads, which ones join, what a Forget ends and what is current: see sflight.h. A call of it is a call
// of C on a stack that its handle has, without cgo: see calls_amd64.s. None waits for another, and none keeps the address of
// what it is given.
type table = nativeTable

const isProved = true

// Whether the processor lacks what the library's code may use, so that it would end the program by a signal.
var isOld = !isRecent()

// So many bytes of stack has a call of the library: native/depths tells that none needs more. 16 divides where it ends.
const stackSize = 1024

// How the library's calls end: see sflight.h.
const (
	codeDone    = 0
	codeLed     = 1
	codeJoined  = 2
	codeTold    = 4
	codeLast    = 5
	codeCleared = 8
	codeFull    = 9
	codeCrowded = 10
	codeBusy    = 11
)

// So often a call tries before the goroutine may be stopped.
const tries = 64

const (
	mostIdle     = 16  // idle calls that a handle keeps, so that most askings need not make one
	sharingParts = 8   // parts of the calls that are shared, each with a lock
	newPerLook   = 8   // calls new to a handle, of which one looks whether the group has to grow: see make
	mostYields   = 100 // tries after which an asking sleeps between them
)

// The structs of sflight.h.
type cCall struct {
	at   uintptr
	live bool
}

type cAudience struct {
	holders           uint64
	joined, forgotten bool
}

type cSize struct{ tables, passed, cells uint64 }

// A handle is the library's handle, with what is near it. One goroutine has it at a time, for one call of the library: not
// while a load runs, and not while one sleeps.
//
// Each processor has one in each group that it calls, and a goroutine that has it is not stopped: so it is taken and given back
// without a locked instruction. It is called on the processor's stack, which all groups share. The root is for those whose processor
// has none: it has a stack of its own, and is taken by the table's lock.
type handle struct {
	at                          uintptr
	live                        bool
	made                        int // how many calls it has made, less those it has freed
	frees                       int
	free                        [mostIdle]cCall
	loads, ends, joins, forgets uint64 // which others read meanwhile
	id                          callID // what the library writes in a call
	told                        cAudience
	value                       uint64
	stack                       *[stackSize]byte
	put                         func() // gives back what take has taken; a processor's handle has procUnpin
}

const mostProcessors = 256

var stacks [mostProcessors][stackSize]byte

func newHandle() *handle { return &handle{stack: new([stackSize]byte)} }

// flight is what the table knows of an asking beside its call: the library's call. None is there where the asking loads alone, since
// there is no memory, and once the call is idle again.
type flight = cCall

// A nativeTable has the handles of a group, and the calls that are shared.
type nativeTable struct {
	plain  *plainTable // where there is no library
	hot    []pointer   // handles, by processor
	root   *handle
	grower *handle // which whoever grows has; made by the first who does
	size   atomic.Uint64
	_      [cacheLine]byte // each call reads what is above, and not all read what is below

	sharing [sharingParts]sharing
	growing sync.Mutex
	calling sync.Mutex  // of ForgetCalls
	mu      *sync.Mutex // protects the root, and the list of handles; apart, since the root refers to it
	*handles
}

// The handles of a group, which ends with them when the collector has found that nobody can call it. They are no part of the table: that
// may be in a cycle, by a function that calls the group, and the collector finalizes nothing that is in one.
type handles struct{ all []*handle }

// Some of the calls that their leader and those who joined share, from the first of them until the last has left.
type sharing struct {
	mu    sync.Mutex
	calls map[callID]*call
	_     [cacheLine - 16]byte
}

const (
	mostCells    = 1 << 20 // of a table
	slotsOfCell  = 4       // slots of stamps that the library has for each, of 34 bytes
	valuesOfSlot = 2       // values of a cache for which there is one slot of the library
)

// cells returns how many calls can be open at one time at first.
func (s *sizes) cells() uint64 {
	n := s.slots / (slotsOfCell * valuesOfSlot)
	if n < uint64(s.loads) {
		n = uint64(s.loads)
	}
	if n > mostCells {
		n = mostCells
	}
	return n
}

// open makes the group. It returns why there is no library, if plain Go takes its place.
func (t *nativeTable) open(size *sizes) (why error) {
	t.root, t.mu = newHandle(), new(sync.Mutex)
	t.root.put = t.mu.Unlock
	t.handles = &handles{[]*handle{t.root}}
	runtime.SetFinalizer(t.handles, (*handles).close)
	switch {
	case isOld:
		why = ErrProcessor
	case size.refused != nil && size.refused(),
		cOpen(t.root, size.cells(), random(), random()) != codeDone:
		why = ErrMemory
	default:
		t.hot = make([]pointer, processors())
		t.measure(t.root)
		return nil
	}
	t.plain = new(plainTable)
	t.plain.open(size)
	return why
}

// close gives the memory of the group back.
func (all *handles) close() {
	for _, h := range all.all {
		h.stack = all.all[0].stack
		for h.frees > 0 {
			h.release()
		}
		cClose(h)
	}
}

// processors returns how many processors have something of their own. The race detector sees locks alone.
func processors() int {
	n := runtime.GOMAXPROCS(0)
	switch {
	case isRaceDetected:
		return 0
	case n > mostProcessors:
		return mostProcessors
	}
	return n
}

// procPin returns the number of the processor, on which the goroutine stays until procUnpin, and is not stopped. It may not wait
// for a lock meanwhile.
//
//go:linkname procPin runtime.procPin
func procPin() int

//go:linkname procUnpin runtime.procUnpin
func procUnpin()

// pin pins the goroutine to its processor, and returns the handle of that, if it has one. Go 1.19 inlines this, and not take.
func (t *nativeTable) pin() *handle {
	if p := procPin(); p < len(t.hot) {
		return (*handle)(atomic.LoadPointer(&t.hot[p]))
	}
	return nil
}

// take takes a handle, until its put is called.
func (t *nativeTable) take() *handle {
	if h := t.pin(); h != nil {
		return h
	}
	return t.takeSlowly()
}

// takeSlowly goes on where the pinned goroutine's processor has no handle: it takes a new one for a processor, or the root.
func (t *nativeTable) takeSlowly() *handle {
	procUnpin()
	t.mu.Lock()
	h := &handle{stack: t.root.stack, put: procUnpin}
	if isRaceDetected || cSplit(t.root, h) != codeDone {
		return t.root
	}
	all := append(t.all, h)
	if p := procPin(); p < len(t.hot) && t.hot[p] == nil {
		t.all, h.stack = all, &stacks[p]
		atomic.StorePointer(&t.hot[p], pointer(h))
		t.mu.Unlock()
		return h
	}
	procUnpin()
	// There are more processors than there were; or the goroutine has come to another.
	cClose(h)
	return t.root
}

// increment adds one. One goroutine at a time does, and others read meanwhile: one that reads the later of two numbers, and then the
// earlier, is to see both. On x86-64 plain stores come in their order, and an atomic one would be a locked instruction.
func increment(at *uint64) {
	if runtime.GOARCH == "amd64" {
		*at++
		return
	}
	atomic.StoreUint64(at, *at+1)
}

// make makes idle calls, or none where there is no memory. It tells whether the group may have to grow. Looking takes the lock of all
// handles, so one of newPerLook calls that are new to its handle looks: a group whose calls are used again never does.
//
// The library's calls lie next to each other in memory, and each use of a call writes to it. Two processors that write to one cache line
// slow each other down. So this makes three calls, of which the one in the middle is used first.
func (h *handle) make() (isDue bool) {
	var made [3]cCall
	for i := range made {
		if cMake(h, &made[i]) == codeDone {
			h.made++
			isDue = isDue || h.made%newPerLook == 0
		}
	}
	for _, i := range [...]int{0, 2, 1} {
		h.idle(&made[i])
	}
	return isDue
}

// idle gives a call back, if there is one.
func (h *handle) idle(c *cCall) {
	if !c.live {
		return
	}
	if h.frees == len(h.free) {
		h.release()
	}
	h.free[h.frees] = *c
	h.frees++
	*c = cCall{}
}

// release frees the last idle call.
func (h *handle) release() {
	h.frees--
	h.made--
	cFree(h, &h.free[h.frees])
}

func (t *nativeTable) ask(a *asking) {
	if t.plain != nil {
		t.plain.ask(a)
		return
	}
	a.isCrowded = false
	for try := 1; ; try++ {
		h := t.pin()
		isPinned := h != nil
		if !isPinned {
			h = t.takeSlowly()
		}
		seen, code, isDue := t.size.Load(), uint32(codeFull), false
		if h.frees == 0 {
			isDue = h.make()
		}
		if h.frees > 0 {
			h.frees--
			a.own = h.free[h.frees]
			code = cAsk(h, a)
		}
		switch code {
		case codeLed:
			increment(&h.loads)
		case codeJoined:
			increment(&h.joins)
		default:
			h.idle(&a.own)
		}
		if isPinned {
			procUnpin()
		} else {
			h.put()
		}
		if isDue && a.own.live {
			// If only leaders looked, none would where each call that is due is a joiner's.
			t.look()
		}
		switch {
		case code == codeLed:
			a.leads = true
			return
		case code == codeJoined:
			t.share(a)
			a.call.holders.Add(1)
			return
		case code == codeCrowded:
			a.isCrowded = true
			return
		case code == codeFull && !t.grow(seen):
			// There is no memory. It loads alone, and nobody can join it.
			a.leads, a.asked = true, asked{stamp: noStamp}
			return
		case try > mostYields:
			// Another makes room.
			time.Sleep(time.Millisecond)
		default:
			runtime.Gosched()
		}
	}
}

// look lets the group grow when half of the cells of the last table are in use, or about so many, so that nobody finds it full.
func (t *nativeTable) look() {
	var st Stats
	t.count(&st)
	if seen := t.size.Load(); 2*st.InUse >= seen&(1<<32-1) {
		go t.grow(seen)
	}
}

func (t *nativeTable) measure(h *handle) {
	var size cSize
	if cMeasure(h, &size) == codeDone {
		t.size.Store(size.tables<<32 | size.cells)
	}
}

// grow makes room for more calls, unless that was done since the size was seen, or another does so now. It may take long, so it
// has a handle of its own. It fails where there is no memory, and no larger group.
func (t *nativeTable) grow(seen uint64) bool {
	if !t.growing.TryLock() {
		return true
	}
	defer t.growing.Unlock()
	if t.size.Load() != seen {
		return true
	}
	if t.grower == nil {
		h := newHandle()
		t.mu.Lock()
		code := cSplit(t.root, h)
		if code == codeDone {
			t.grower, t.all = h, append(t.all, h)
		}
		t.mu.Unlock()
		if code != codeDone {
			return false
		}
	}
	code := cGrow(t.grower)
	t.measure(t.grower)
	return code == codeDone
}

func (t *nativeTable) sharingOf(id callID) *sharing {
	return &t.sharing[id.cell%uint32(len(t.sharing))]
}

// share lets the asking share its call: the first who does makes that.
func (t *nativeTable) share(a *asking) {
	if t.plain != nil || a.call != nil {
		return
	}
	s := t.sharingOf(a.id)
	s.mu.Lock()
	defer s.mu.Unlock()
	if a.call = s.calls[a.id]; a.call != nil {
		return
	}
	a.call = &call{done: make(chan struct{})}
	a.call.holders.Store(1)
	if !a.own.live {
		// It loads alone.
		return
	}
	if s.calls == nil {
		s.calls = map[callID]*call{}
	}
	s.calls[a.id] = a.call
}

// drop is share's end, where nobody holds the call any more.
func (t *nativeTable) drop(a *asking) {
	s := t.sharingOf(a.id)
	s.mu.Lock()
	delete(s.calls, a.id)
	s.mu.Unlock()
}

// settle ends the call that was led. The leader leaves it too, unless it has to tell somebody: those who have joined; or itself,
// where it keeps the call.
func (t *nativeTable) settle(a *asking, keeps bool) (isTold bool) {
	if !a.own.live {
		if t.plain != nil {
			return t.plain.settle(a, keeps)
		}
		return keeps
	}
	h := t.pin()
	isPinned := h != nil
	if !isPinned {
		h = t.takeSlowly()
	}
	code := cSettle(h, a)
	increment(&h.ends)
	if code == codeTold {
		a.got.Joiners, a.got.Shared, a.isClosed = int(h.told.holders)-1, h.told.joined, h.told.forgotten
	} else if n := h.frees; n < len(h.free) {
		// idle, in line.
		h.free[n], h.frees, a.own = a.own, n+1, cCall{}
	} else {
		h.idle(&a.own)
	}
	if isPinned {
		procUnpin()
	} else {
		h.put()
	}
	if code == codeTold {
		if keeps || a.got.Shared {
			t.share(a)
			return true
		}
		// A Forget has closed it, and nobody has joined it.
		t.leave(a, true)
		return false
	}
	if a.call != nil {
		t.drop(a)
	}
	return keeps
}

// leave lets go of the call. Whether it has ended, and nobody holds it any more.
func (t *nativeTable) leave(a *asking, hasEnded bool) (last bool) {
	if t.plain != nil {
		return t.plain.leave(a, hasEnded)
	}
	if !a.own.live {
		return true
	}
	h := t.take()
	last = cLeave(h, &a.own) == codeLast
	h.idle(&a.own)
	h.put()
	if last && a.call != nil {
		t.drop(a)
	}
	return last
}

// forget closes the key's open call, which it names, if it has one, and ends the stamps of those before.
func (t *nativeTable) forget(key string) (id callID, closed bool) {
	if t.plain != nil {
		return t.plain.forget(key)
	}
	for {
		h := t.pin()
		isPinned := h != nil
		if !isPinned {
			h = t.takeSlowly()
		}
		code := cForget(h, key)
		if id = h.id; code != codeBusy {
			increment(&h.forgets)
		}
		if isPinned {
			procUnpin()
		} else {
			h.put()
		}
		if code != codeBusy {
			return id, code == codeDone
		}
		runtime.Gosched()
	}
}

// forgetCall asks first whether the result is current, so that of two who throw it away one has done so. Their lock is taken
// for that alone.
func (t *nativeTable) forgetCall(key string, it Call, isEnded bool) Hit {
	if t.plain != nil {
		return t.plain.forgetCall(key, it, isEnded)
	}
	if it.stamp.Place == 0 {
		// A Forget has closed it.
		return Missed
	}
	stamp := it.stamp.words()
	acquire(&t.calling)
	defer t.calling.Unlock()
	for {
		h := t.take()
		isStill := !isEnded && cIsStill(h, &stamp)
		code := cForgetCall(h, key, &it.id, &stamp)
		hit := Missed
		if code == codeDone {
			hit = Closed
		} else if code == codeCleared && isStill {
			hit = Cleared
		}
		if hit != Missed {
			increment(&h.forgets)
		}
		h.put()
		if code != codeBusy {
			return hit
		}
		runtime.Gosched()
	}
}

// isStill tells whether the stamp is current. It counts a true answer in by, unless that is nil, while it has the handle: the count of
// a processor needs no locked instruction then.
func (t *nativeTable) isStill(stamp Stamp, by *tally) (is bool) {
	words := stamp.words()
	if p := procPin(); p < len(t.hot) {
		if h := (*handle)(atomic.LoadPointer(&t.hot[p])); h != nil {
			if is = cIsStill(h, &words); is && by != nil {
				if p < len(by.byProcessor) {
					increment(&by.byProcessor[p].n)
				} else {
					by.looked(true)
				}
			}
			procUnpin()
			return is
		}
	}
	if t.plain != nil {
		procUnpin()
		return t.plain.isStill(stamp, by)
	}
	h := t.takeSlowly()
	if is = cIsStill(h, &words); is && by != nil {
		by.looked(true)
	}
	h.put()
	return is
}

// count counts the calls. An end is counted after its beginning, so it is read before that.
func (t *nativeTable) count(st *Stats) {
	if t.plain != nil {
		t.plain.count(st)
		return
	}
	t.mu.Lock()
	defer t.mu.Unlock()
	for _, h := range t.all {
		st.InUse -= atomic.LoadUint64(&h.ends)
		st.Joins += atomic.LoadUint64(&h.joins)
		st.Forgets += atomic.LoadUint64(&h.forgets)
	}
	for _, h := range t.all {
		st.Loads += atomic.LoadUint64(&h.loads)
	}
	st.InUse += st.Loads
}
