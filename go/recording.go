package singleflight

import (
	"crypto/sha256"
	"errors"
	"fmt"
	"io"
	"runtime"
	"strconv"
	"strings"
	"sync"
	"sync/atomic"
	"time"
	"unicode/utf8"
)

// ErrRecording is the error of Record for a group or a cache that is recorded already.
var ErrRecording = errors.New("singleflight: the group is recorded already")

// Recording is what Record has begun. Its method may be called by any number of goroutines.
type Recording struct {
	of interface{ endRecording(*recorder) }
	r  *recorder
}

// Recorded is what Stop returns.
type Recorded struct {
	Events    uint64 // lines that were written, beside those of the format
	Lost      uint64 // events that were dropped, since the writer was too slow or has failed
	Evictions uint64 // recorded values of a cache that made room for others, which is no event
}

// Record begins to write to w what the group's calls do, until Stop: records in format 4, by which
// "sfctl check --timed" judges whether the calls have kept the promises. It fails with ErrRecording
// if the group is recorded already. Stop has to be called.
//
// A call that ran a load function is recorded when it has ended and every joiner has the result:
// its Lead, an Enter of each that joined, the Forget or ForgetCall that closed it, its Settle and
// its Handed. A Forget that found no open call is recorded when it has ended. A ForgetCall that
// found its call ended is not recorded: it changes which stamps are current, and nothing that a
// recording tells. A call that began before Record is not in the recording, nor is one that had not
// ended at Stop; all that was done to it is left out too.
//
// The caller of a record is one of 64, by the goroutine's stack. The value of a call is its name,
// such as "3.17" of the call [3,17]; an error is its type, "panic" or "goexit". Nothing of the
// values and no method of an error is called. The key stands as it is, but for one of more than 250
// bytes, one that is no UTF-8, and one that begins with "sha256:": that stands as "sha256:" and its
// SHA-256. Times are nanoseconds since the program began, by the steady clock.
//
// No call waits for the writer. Where w is too slow, what it has not taken is dropped and counted:
// then a line {"format":4,"lost":n} stands between two calls, and "sfctl merge" makes one recording
// of that. Each Write gets whole lines, in a goroutine of the recording. It may call the group. It
// may not call Stop. The recording ends at the first Write that fails or panics.
//
// Close does not end a recording: the calls that run after it are recorded as well.
func (o *Of[K, V]) Record(w io.Writer) (*Recording, error) { return o.core().beginRecording(w) }

// Stop ends the recording, and returns when all that was recorded is written. It returns the error
// of the writer, if that has failed. It may be called again, and then returns the same.
func (r *Recording) Stop() (Recorded, error) {
	r.of.endRecording(r.r)
	<-r.r.over
	return Recorded{r.r.events, r.r.lost, r.r.evictions.Load()}, r.r.err
}

func (p *core) beginRecording(w io.Writer) (*Recording, error) {
	p.recording.Lock()
	defer p.recording.Unlock()
	if r := p.recorder.Load(); r != nil && !r.done.Load() {
		return nil, ErrRecording
	}
	r := newRecorder(w)
	p.recorder.Store(r)
	// What a group records that nobody can call any more ends.
	runtime.SetFinalizer(p, nil)
	runtime.SetFinalizer(p, func(p *core) { p.endRecording(r) })
	go r.run()
	return &Recording{p, r}, nil
}

func newRecorder(w io.Writer) *recorder {
	return &recorder{
		out: w, meets: map[callID]meeting{},
		wake: make(chan struct{}, 1), quit: make(chan struct{}), over: make(chan struct{}),
	}
}

// Nothing is recorded any more that has not ended.
func (p *core) endRecording(r *recorder) {
	p.recording.Lock()
	if p.recorder.Load() == r {
		p.recorder.Store(nil)
	}
	p.recording.Unlock()
	r.end()
}

// How the recorder sees calls.
//
// A call of a recording is a run of a load function, and has one record. The leader attaches it to the call before the load
// begins. Whoever joined adds a member before it leaves. The last who leaves completes the record, which then goes to a lane. So
// a recording has whole calls only. A legal history stays legal without all events of one call, so it does not matter which
// calls are left out at the beginning and at the end.
//
// A Forget learns the name of the call that it has closed, and nothing else of it; and the leader learns that a Forget has
// closed its call, and not which. Both meet in the recorder, by the call's name: so the record has a second part then.
//
// The times of an event are wide. A Forget's are those of the whole Forget. A Lead's begin with the asking and end where the
// load begins. An Enter's begin with the asking and end with the result.
type callRecord struct {
	by               *recorder
	name             uint64       // caller and number, by which it is told
	parts            atomic.Int32 // how many have still to come: the last who leaves, and a Forget
	ran              bool         // whether its load function was called
	key              string
	asked, led       int64
	settles, settled int64
	err              error
	members          atomic.Pointer[memberRecord]
	closing          *forgetRecord
	value            *valueRecord // of a cache's call: see ledger
}

type memberRecord struct {
	next     *memberRecord
	name     uint64
	from, to int64
}

type forgetRecord struct {
	caller   uint32
	from, to int64 // the first is unknown where it is negative
	one      bool  // whether it was a ForgetCall
}

// A meeting has the leader's record of a forgotten call, or what its Forget tells; whichever came first.
type meeting struct {
	rec *callRecord
	f   *forgetRecord
}

const forever = 1<<63 - 1

func now() int64 { return int64(time.Since(started)) }

// now returns when something begins that is recorded. Without a recorder nothing is.
func (r *recorder) now() int64 {
	if r == nil {
		return 0
	}
	return now()
}

// record makes the record of a call that is led, which was asked for then.
func (r *recorder) record(key string, from int64) *callRecord {
	rec := &callRecord{by: r, name: r.name(), key: key, asked: from}
	rec.parts.Store(1)
	return rec
}

// begins tells that the load function is about to be called.
func (rec *callRecord) begins() { rec.ran, rec.led = true, now() }

// part is called when one of the parts has come.
func (rec *callRecord) part() {
	if rec.parts.Add(-1) > 0 {
		return
	}
	if rec.value != nil {
		rec.complete()
	} else if rec.ran {
		rec.by.push(entry{events: rec.events(), call: rec})
	}
}

// events returns how many events it has. Those members go that had left before its load began. So does a Forget that began when
// the call was about to be settled: from then on the key may have a newer call.
func (rec *callRecord) events() int {
	n := 3
	var kept *memberRecord
	for it := rec.members.Load(); it != nil; {
		next := it.next
		if it.to >= rec.led {
			it.next, kept = kept, it
			n++
		}
		it = next
	}
	rec.members.Store(kept)
	if f := rec.closing; f != nil && f.from >= rec.settled {
		rec.closing = nil
	} else if f != nil {
		n++
		if f.from < 0 {
			f.from, f.to = rec.asked, forever
		}
		if f.to < rec.led {
			// It closed the call before that began: then it took effect when that did.
			f.to = rec.led
		}
	}
	return n
}

// enter adds a member that is about to leave the call, if both are of one recording. A cache's member says so later: see holds.
func (a *asking) enter() {
	if a.by == nil || a.by.isOfCache {
		return
	}
	rec := a.call.rec.Load()
	if rec == nil || rec.by != a.by {
		return
	}
	it := &memberRecord{name: a.by.name(), from: a.from, to: now()}
	for {
		it.next = rec.members.Load()
		if rec.members.CompareAndSwap(it.next, it) {
			return
		}
	}
}

// awaits lets the record of a call that a Forget has closed wait for that. The leader holds the call.
func (r *recorder) awaits(rec *callRecord, id callID) {
	r.meeting.Lock()
	defer r.meeting.Unlock()
	if m, ok := r.meets[id]; ok {
		delete(r.meets, id)
		rec.closing = m.f
		return
	}
	rec.parts.Add(1)
	r.meets[id] = meeting{rec: rec}
}

// closed is told by a Forget that has closed the call.
func (r *recorder) closed(id callID, f *forgetRecord) {
	r.meeting.Lock()
	m, ok := r.meets[id]
	if ok {
		delete(r.meets, id)
		m.rec.closing = f
	} else {
		r.meets[id] = meeting{f: f}
	}
	r.meeting.Unlock()
	if ok {
		m.rec.part()
	}
}

// A forgetting is a Forget that has begun.
type forgetting struct {
	by   *recorder // of then
	from int64
	one  bool // whether it forgets one call
}

// forgot records a Forget that has ended, in the recording of now. A call that it has closed is of that, if it is of one that is not over.
func (r *recorder) forgot(f forgetting, key string, id callID, closed bool) {
	switch {
	case closed && r == f.by:
		r.closed(id, &forgetRecord{r.caller(), f.from, now(), f.one})
	case closed:
		r.closed(id, &forgetRecord{r.caller(), -1, forever, f.one})
	case r == f.by:
		r.push(entry{events: 1, key: key, name: uint64(r.caller()) << 32, from: f.from, to: now()})
	}
}

// A recorder takes entries from lanes and writes them. A goroutine that records something takes the
// lock of a lane that is free, so it never waits. The writer's goroutine takes all entries of a lane
// at once.
type recorder struct {
	out io.Writer
	// By call, of forgotten ones.
	meeting sync.Mutex
	meets   map[callID]meeting
	lanes   [lanes]recordLane
	missed  atomic.Uint64 // events that were lost
	done    atomic.Bool   // whether nothing is recorded any more
	stop    sync.Once
	wake    chan struct{}
	quit    chan struct{}
	over    chan struct{} // closed when the rest is written, which is the writer's goroutine's until then
	batch   []entry       // what was taken from a lane, and is not in text yet
	text    []byte
	pushed  uint64 // events in text, which is not written yet
	events  uint64 // those that were written
	lost    uint64
	err     error

	// Of a cache alone.
	isOfCache bool
	evictions atomic.Uint64
	tags      tagRecords
}

// So many lanes there are, and so many events at most are kept in one, but for those of one call. The writer is woken early enough to
// take them before the lane is full.
const (
	lanes          = 64
	eventsOfLane   = 1 << 14
	eventsThatWake = eventsOfLane / 4
)

// broken is the error of a function that has not returned: it panicked with this, or ended its goroutine.
func broken(with any) error {
	if with != nil {
		return newPanicError(with)
	}
	return errGoexit
}

type recordLane struct {
	mu      sync.Mutex
	events  int
	entries []entry
	live    map[*callRecord]struct{} // a cache's calls whose values are kept, or are about to be
	names   atomic.Uint64            // how many it has given
	_       [cacheLine]byte
}

// A call; a Forget, which found no open call; or an Enter, which is the hit of a cache.
type entry struct {
	events   int
	call     *callRecord
	isHit    bool
	key      string
	name     uint64 // of the Enter; of a Forget its caller is known
	from, to int64
}

// A caller of the recording, from 1 on.
func (r *recorder) caller() uint32 { return uint32(here()) + 1 }

// The name of a call or member that no other has. Where a caller's are used up, another gives one; and
// where all are, the recording ends.
func (r *recorder) name() uint64 {
	at := here()
	for try := uint(0); try < lanes; try++ {
		lane := (at + try) % lanes
		if n := r.lanes[lane].names.Add(1); n < 1<<32 {
			return uint64(lane+1)<<32 | n
		}
	}
	r.end()
	return 0
}

// push puts the entry into a lane: a call that is live into the one where it is.
func (r *recorder) push(it entry) {
	at, events := here(), it.events
	if it.call != nil && !it.isHit && it.call.isLive() {
		r.pushLive(it)
		return
	}
	for try := uint(0); try < lanes; try++ {
		l := &r.lanes[(at+try)%lanes]
		if !l.mu.TryLock() {
			continue
		}
		before := l.events
		// Whoever ends the recording says so first, and then takes each lock.
		isOver := r.done.Load()
		isFull := l.isFull(events)
		if !isOver && !isFull {
			l.entries = append(l.entries, it)
			l.events += events
			if it.isHit {
				it.call.value.hits.Add(1)
			}
		}
		l.mu.Unlock()
		switch {
		case isOver:
		case isFull:
			r.missed.Add(uint64(events))
		case before < eventsThatWake && before+events >= eventsThatWake:
			select {
			case r.wake <- struct{}{}:
			default:
			}
		}
		return
	}
	r.missed.Add(uint64(events))
}

func (r *recorder) end() {
	r.stop.Do(func() {
		r.done.Store(true)
		close(r.quit)
	})
}

const (
	recordEvery = 10 * time.Millisecond
	recordBytes = 1 << 16 // so many are written at once
)

// The writer's goroutine.
func (r *recorder) run() {
	returned := false
	defer func() {
		if !returned {
			r.err = fmt.Errorf("singleflight: the writer of a recording: %w", broken(recover()))
		}
		// What the writer has not taken is lost.
		r.done.Store(true)
		for i := range r.lanes {
			r.lost += events(r.batch)
			r.batch = r.lanes[i].empty(nil)
			for rec := range r.lanes[i].takeLive() {
				rec.value.of.mu.Lock()
				r.lost += uint64(rec.finish())
				rec.value.of.mu.Unlock()
			}
		}
		r.lost += events(r.batch) + r.pushed + r.missed.Load()
		close(r.over)
	}()
	r.err = r.copy()
	returned = true
}

func events(batch []entry) (n uint64) {
	for i := range batch {
		n += uint64(batch[i].events)
	}
	return n
}

// Takes what the lane has, which gets this room.
func (l *recordLane) empty(room []entry) (all []entry) {
	l.mu.Lock()
	defer l.mu.Unlock()
	all, l.entries, l.events = l.entries, room, 0
	return all
}

// copy copies what is in the lanes to the writer, until the recording ends.
func (r *recorder) copy() error {
	ticker := time.NewTicker(recordEvery)
	defer ticker.Stop()
	r.text = r.appendFormat(r.text, 0)
	var room []entry
	for last := false; !last; {
		select {
		case <-r.quit:
			last = true
		case <-r.wake:
		case <-ticker.C:
		}
		for i := range r.lanes {
			all := r.lanes[i].empty(room)
			for r.batch = all; len(r.batch) > 0; r.batch = r.batch[1:] {
				if len(r.text) >= recordBytes {
					if err := r.flush(); err != nil {
						return err
					}
				}
				r.text = r.batch[0].append(r.text)
				r.pushed += uint64(r.batch[0].events)
				r.batch[0] = entry{}
			}
			room = all[:0]
		}
		if last {
			if err := r.copyLive(); err != nil {
				return err
			}
		}
		if n := r.missed.Swap(0); n > 0 {
			r.lost += n
			r.text = r.appendFormat(r.text, n)
		}
		if err := r.flush(); err != nil {
			return err
		}
	}
	return nil
}

func (r *recorder) flush() error {
	if len(r.text) == 0 {
		return nil
	}
	n, err := r.out.Write(r.text)
	if err == nil && n < len(r.text) {
		err = io.ErrShortWrite
	}
	if err != nil {
		return err
	}
	r.events += r.pushed
	r.text, r.pushed = r.text[:0], 0
	return nil
}

func (*recorder) appendFormat(text []byte, lost uint64) []byte {
	text = append(text, `{"format":4,"lost":`...)
	return append(strconv.AppendUint(text, lost, 10), "}\n"...)
}

// Appends the lines of the entry.
func (it *entry) append(text []byte) []byte {
	rec := it.call
	if rec == nil {
		return it.appendForget(text)
	}
	if it.isHit {
		return appendEnter(text, rec, it.name, it.from, it.to)
	}
	return rec.append(text)
}

// Appends the lines of the call.
func (rec *callRecord) append(text []byte) []byte {
	leader := uint32(rec.name >> 32)
	text = appendEvent(text, "lead", leader)
	text = appendKey(text, rec.key)
	text = appendName(text, `,"c":`, rec.name)
	text = append(text, `,"own":null`...)
	text = appendTimes(text, rec.asked, rec.led)
	joiners := uint64(0)
	for at := rec.members.Load(); at != nil; at = at.next {
		joiners++
		text = appendEnter(text, rec, at.name, at.from, at.to)
	}
	if rec.value != nil {
		joiners = rec.value.hits.Load()
	}
	if f := rec.closing; f != nil && f.one {
		text = appendEvent(text, "forgetcall", f.caller)
		text = appendKey(text, rec.key)
		text = appendName(text, `,"c":`, rec.name)
		text = append(text, `,"hit":"closed"`...)
		text = appendTimes(text, f.from, f.to)
	} else if f != nil {
		text = appendEvent(text, "forget", f.caller)
		text = appendKey(text, rec.key)
		text = appendName(text, `,"closed":`, rec.name)
		text = appendTimes(text, f.from, f.to)
	}
	text = appendEvent(text, "settle", leader)
	text = appendName(text, `,"c":`, rec.name)
	text = appendResult(text, rec)
	text = append(text, `,"joiners":`...)
	text = strconv.AppendUint(text, joiners, 10)
	text = appendTimes(text, rec.settles, rec.settled)
	text = appendEvent(text, "handed", leader)
	text = appendName(text, `,"c":`, rec.name)
	return appendTimes(text, rec.settles, rec.settled)
}

func appendEnter(text []byte, rec *callRecord, name uint64, from, to int64) []byte {
	text = appendEvent(text, "enter", uint32(name>>32))
	text = appendKey(text, rec.key)
	text = appendName(text, `,"c":`, rec.name)
	text = appendName(text, `,"m":`, name)
	return appendTimes(text, from, to)
}

func (it *entry) appendForget(text []byte) []byte {
	text = appendEvent(text, "forget", uint32(it.name>>32))
	text = appendKey(text, it.key)
	text = append(text, `,"closed":null`...)
	return appendTimes(text, it.from, it.to)
}

func appendEvent(text []byte, event string, caller uint32) []byte {
	text = append(text, `{"e":"`...)
	text = append(text, event...)
	text = append(text, `","by":`...)
	return strconv.AppendUint(text, uint64(caller), 10)
}

func appendName(text []byte, what string, name uint64) []byte {
	text = append(text, what...)
	text = append(text, '[')
	text = strconv.AppendUint(text, name>>32, 10)
	text = append(text, ',')
	text = strconv.AppendUint(text, name&(1<<32-1), 10)
	return append(text, ']')
}

func appendTimes(text []byte, from, to int64) []byte {
	text = append(text, `,"at":[`...)
	text = strconv.AppendInt(text, from, 10)
	text = append(text, ',')
	text = strconv.AppendInt(text, to, 10)
	return append(text, "]}\n"...)
}

func appendResult(text []byte, rec *callRecord) []byte {
	switch rec.err.(type) {
	case nil:
		text = append(text, `,"ok":"`...)
		text = strconv.AppendUint(text, rec.name>>32, 10)
		text = append(text, '.')
		text = strconv.AppendUint(text, rec.name&(1<<32-1), 10)
		return append(text, '"')
	case *panicError:
		return append(text, `,"err":"panic"`...)
	}
	if rec.err == errGoexit {
		return append(text, `,"err":"goexit"`...)
	}
	return appendText(append(text, `,"err":`...), fmt.Sprintf("%T", rec.err))
}

const (
	longestRecordedKey = 250
	digestOfKey        = "sha256:"
)

// A key as a record has it: the format has texts of at most so many bytes.
func appendKey(text []byte, key string) []byte {
	text = append(text, `,"k":`...)
	if len(key) > longestRecordedKey || !utf8.ValidString(key) || strings.HasPrefix(key, digestOfKey) {
		key = fmt.Sprintf("%s%x", digestOfKey, sha256.Sum256([]byte(key)))
	}
	return appendText(text, key)
}

// Appends the text, which is UTF-8, as JSON has it.
func appendText(text []byte, it string) []byte {
	text = append(text, '"')
	for i := 0; i < len(it); i++ {
		switch c := it[i]; {
		case c == '"' || c == '\\':
			text = append(text, '\\', c)
		case c < ' ':
			text = append(text, fmt.Sprintf(`\u%04x`, c)...)
		default:
			text = append(text, c)
		}
	}
	return append(text, '"')
}
