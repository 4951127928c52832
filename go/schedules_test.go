//go:build sflight_schedules

package singleflight

import (
	"bytes"
	"context"
	"errors"
	"fmt"
	"math/rand"
	"os"
	"strconv"
	"testing"
)

// A world of goroutines of which one runs at a time. The one that goes on at each yield is drawn at random.
type world struct {
	t       *testing.T
	seed    int64
	random  *rand.Rand
	workers []*worker
	running *worker
	back    chan struct{}
	now     int  // a step each yield
	stuck   int  // yields in a row that were of workers who could not go on
	stalls  bool // whether priorities say which worker goes on, so that some are stopped for long
	lowest  int
	few     bool // whether there are two keys, which are asked for and nothing else
	closed  bool
	one     bool // whether there is one key, which is asked for by those who may leave, and forgotten
	trace   []string

	group    *Group
	keys     [4]keyState
	stamps   []stampOf
	cached   [4]*stampOf // what the workers keep, each in its function
	cancels  []context.CancelFunc
	forgets  uint64 // how many there were
	problems []string
}

type worker struct {
	number   int
	goOn     chan struct{}
	ended    bool
	blocked  bool
	priority int
	last     [4]*run // whose result it had last, by key
}

// What the test knows of a key.
type keyState struct {
	forgets []interval
	runs    []*run
}

type interval struct{ from, to int } // to is 0 until it has ended

type run struct {
	key, asked, from, to int
	by                   *worker
	unshared             bool // whether its leader was told that nobody has joined
	others               int  // how many others have its result
	given                int  // when somebody first had its result; 0 before
}

type stampOf struct {
	stamp Stamp
	call  Call
	run   *run
}

func (w *world) at(where) { w.yield(false) }
func (w *world) blocked() { w.yield(true) }

func (w *world) yield(blocked bool) {
	me := w.running
	w.now++
	me.blocked = blocked
	if blocked {
		w.stuck++
	} else if w.stuck > 0 {
		w.stuck = 0
		for _, it := range w.workers {
			it.blocked = false
		}
	}
	if w.stalls && w.random.Intn(30) == 0 {
		w.lowest--
		me.priority = w.lowest
	}
	w.back <- struct{}{}
	<-me.goOn
}

func (w *world) index() uint { return uint(w.running.number) }

func (w *world) spawn(do func()) {
	me := &worker{number: len(w.workers), goOn: make(chan struct{}), priority: w.random.Intn(1000)}
	w.workers = append(w.workers, me)
	go func() {
		<-me.goOn
		defer func() {
			me.ended = true
			w.stuck = 0
			w.back <- struct{}{}
		}()
		do()
	}()
}

func (w *world) problem(format string, args ...any) {
	w.problems = append(w.problems, fmt.Sprintf(format, args...))
}

func (w *world) log(format string, args ...any) {
	if verbose {
		w.trace = append(w.trace, fmt.Sprintf("%d: worker %d: ", w.now, w.running.number)+fmt.Sprintf(format, args...))
	}
}

var verbose = os.Getenv("SFLIGHT_VERBOSE") != ""

// Runs until all have ended. False where nobody can go on.
func (w *world) play() bool {
	for turn := 0; ; {
		var live []*worker
		for _, it := range w.workers {
			if !it.ended {
				live = append(live, it)
			}
		}
		if len(live) == 0 {
			return true
		}
		if w.stuck > 12*len(live)+100 {
			return false
		}
		next := live[w.random.Intn(len(live))]
		if w.stuck > 6*len(live) {
			// Each in turn.
			next = live[turn%len(live)]
			turn++
		} else if w.stalls {
			for _, it := range live {
				if next.blocked || !it.blocked && it.priority > next.priority {
					next = it
				}
			}
		} else if w.random.Intn(3) > 0 && !w.running.ended && !w.running.blocked {
			next = w.running
		}
		w.running = next
		next.goOn <- struct{}{}
		<-w.back
	}
}

// The latest beginning of a Forget of the key that had ended before.
func (k *keyState) forgotten(before int) (latest int) {
	for _, f := range k.forgets {
		if f.to != 0 && f.to < before && f.from > latest {
			latest = f.from
		}
	}
	return latest
}

// Whether a Forget may have ended the call of the run, or the other that was asked for at this moment: a call begins
// before its function does.
func (k *keyState) ended(it *run, asked int) bool {
	for _, f := range k.forgets {
		if f.to == 0 || f.to > it.asked || f.to > asked {
			return true
		}
	}
	return false
}

// A function of a key that somebody asked for at this moment.
func (w *world) load(key, asked int, body func()) (any, error) {
	me := &run{key: key, asked: asked, from: w.now, by: w.running}
	state := &w.keys[key]
	for _, other := range state.runs {
		if other.to != 0 {
			continue
		}
		if !state.ended(other, asked) {
			w.problem("two runs of key %d at one time, begun at %d and %d", key, other.from, me.from)
		}
	}
	state.runs = append(state.runs, me)
	w.log("runs key %d", key)
	for n := w.random.Intn(6); n > 0; n-- {
		point(afterAsk)
	}
	defer func() { me.to = w.now; w.log("its run of key %d, begun at %d, ends", key, me.from); point(afterAsk) }()
	body()
	return me, nil
}

func (w *world) name(key int) string {
	name := fmt.Sprint("key-", key)
	if key == 3 {
		name += " of many bytes"
	}
	return name
}

// A function keeps its result for the workers, before its call is settled. One that is not current takes the place of an older one
// too: that one's stamp may be of an older table, where no Forget of another key has ended it.
func (w *world) keeps(stamp Stamp, it *run) {
	isStill := w.group.IsStill(stamp)
	point(afterAsk)
	w.cached[it.key] = nil
	if isStill {
		w.cached[it.key] = &stampOf{stamp, Call{}, it}
	}
}

// One has found a run's result in the cache of the workers.
func (w *world) found(key, asked int, it *run) {
	if forgotten := w.keys[key].forgotten(asked); it.from < forgotten {
		w.problem("key %d looked for at %d has a result of a run begun at %d, and was forgotten at %d", key, asked, it.from, forgotten)
	}
	if last := w.running.last[key]; last != nil && last.from > it.from && !w.keys[key].ended(last, it.asked) {
		w.problem("key %d: what is found went back, from %d to %d", key, last.from, it.from)
	}
	w.running.last[key] = it
}

func (w *world) got(key, asked int, v any, shared bool) {
	it, ok := v.(*run)
	if !ok || it.key != key {
		w.problem("key %d has a result of another: %v", key, v)
		return
	}
	w.log("has key %d of the run begun at %d", key, it.from)
	if it.given == 0 {
		w.now++
		it.given = w.now
	} else if asked >= it.given {
		w.problem("key %d asked for at %d has a result of the run begun at %d, which somebody had at %d", key, asked, it.from, it.given)
	}
	if forgotten := w.keys[key].forgotten(asked); it.from < forgotten {
		w.problem("key %d asked for at %d has a result of a run begun at %d, and was forgotten at %d", key, asked, it.from, forgotten)
	}
	if it.by == w.running && it.asked == asked {
		it.unshared = !shared
	} else {
		it.others++
	}
	if it.unshared && it.others > 0 {
		w.problem("key %d: others have the result of the run begun at %d, and its leader was told of none", key, it.from)
	}
	if last := w.running.last[key]; last != nil && last.from > it.from && !w.keys[key].ended(last, it.asked) {
		w.problem("key %d: an answer went back, from %d to %d", key, last.from, it.from)
	}
	w.running.last[key] = it
}

var errEnded = errors.New("the load was told to end")

// Numbers of what a worker may do.
const (
	asksAndMayLeave = 12
	forgets         = 14
)

// One thing that a worker does.
func (w *world) act(depth, least int) {
	if least >= len(w.keys) {
		return
	}
	key := least + w.random.Intn(len(w.keys)-least)
	if w.few {
		key %= 2
	} else if w.one {
		key = 0
	}
	name := w.name(key)
	asked := w.now
	// A panic of a call that a DoChan has joined ends the program, as in x/sync: so none of the last key panics.
	mayPanic := w.random.Intn(12) == 0 && key < len(w.keys)-1
	body := func() {
		if depth < 2 && !w.few && !w.one && w.random.Intn(3) == 0 {
			w.act(depth+1, key+1)
		}
		if mayPanic {
			panic("as it was told")
		}
	}
	defer func() {
		if v := recover(); v != nil {
			if e, ok := v.(error); !ok || len(e.Error()) < 14 || e.Error()[:14] != "as it was told" {
				panic(v)
			}
		}
	}()
	what := w.random.Intn(21)
	if w.one {
		what = []int{asksAndMayLeave, forgets}[w.random.Intn(2)]
	}
	switch {
	case what < 8 || w.few:
		if it := w.cached[key]; it != nil && w.random.Intn(2) == 0 && w.group.IsStill(it.stamp) {
			w.log("finds key %d", key)
			w.found(key, asked, it.run)
			return
		}
		w.log("asks for key %d", key)
		r, err := w.group.DoStamped(always, name, func(_ context.Context, stamp Stamp) (any, error) {
			v, err := w.load(key, asked, body)
			w.keeps(stamp, v.(*run))
			return v, err
		})
		if err != nil {
			w.problem("an error of a Do: %v", err)
			return
		}
		w.got(key, asked, r.Val, r.Shared)
		if it, ok := r.Val.(*run); ok {
			w.stamps = append(w.stamps, stampOf{r.Stamp, r.Call, it})
		}
	case what <= asksAndMayLeave:
		ctx, cancel := context.WithCancel(context.Background())
		w.cancels = append(w.cancels, cancel)
		w.log("asks for key %d, and may leave", key)
		me := w.running
		r, err := w.group.DoStamped(ctx, name, func(own context.Context, stamp Stamp) (any, error) {
			v, err := w.load(key, asked, func() {
				for n := w.random.Intn(8); n > 0 && own.Err() == nil; n-- {
					point(afterAsk)
				}
				body()
			})
			v.(*run).by = me
			if own.Err() != nil && w.random.Intn(2) == 0 {
				return nil, errEnded
			}
			w.keeps(stamp, v.(*run))
			return v, err
		})
		if err == context.Canceled {
			w.log("has left")
		} else if err != nil {
			w.problem("an error of a DoContext: %v", err)
		} else {
			w.got(key, asked, r.Val, r.Shared)
		}
	case what <= forgets:
		w.keys[key].forgets = append(w.keys[key].forgets, interval{from: w.now})
		mine := len(w.keys[key].forgets) - 1
		w.log("forgets key %d", key)
		w.group.Forget(name)
		w.forgets++
		w.now++
		w.keys[key].forgets[mine].to = w.now
		w.log("has forgotten key %d", key)
	case what < 17:
		if len(w.stamps) > 0 {
			it := w.stamps[w.random.Intn(len(w.stamps))]
			before := w.now
			if w.group.IsStill(it.stamp) {
				if forgotten := w.keys[it.run.key].forgotten(before); it.run.from < forgotten {
					w.problem("a result of a run begun at %d is current, and was forgotten at %d", it.run.from, forgotten)
				}
			}
		}
	case what < 18:
		if len(w.cancels) > 0 {
			w.cancels[w.random.Intn(len(w.cancels))]()
		}
	case what < 19:
		key = len(w.keys) - 1
		name = w.name(key)
		w.log("asks for key %d by a channel", key)
		ctx, cancel := context.WithCancel(always)
		w.cancels = append(w.cancels, cancel)
		if w.random.Intn(2) == 0 {
			ctx = always
		}
		me := w.running
		ch := make(chan Result, 1)
		w.group.core().doChan(ctx, name, func(_ context.Context, a *asking) (any, error) {
			v, err := w.load(key, asked, func() {})
			v.(*run).by = me
			w.keeps(a.stamp.packed(), v.(*run))
			return v, err
		}, func(a *asking, err error) {
			got, _ := resultOf[any](a, err)
			ch <- got
		})
		for {
			select {
			case r := <-ch:
				if r.Err == nil {
					w.got(key, asked, r.Val, r.Shared)
				} else if r.Err != context.Canceled {
					w.problem("an error of a DoChan: %v", r.Err)
				}
				return
			default:
				w.yield(true)
			}
		}
	case what < 20 || w.random.Intn(10) > 0:
		if len(w.stamps) > 0 {
			it := w.stamps[w.random.Intn(len(w.stamps))]
			hit := w.group.ForgetCall(w.name(it.run.key), it.call)
			w.log("forgets the call of the run of key %d begun at %d: %v", it.run.key, it.run.from, hit)
			if hit == Closed {
				w.problem("a call was open that had ended")
			}
			if hit == Cleared {
				w.forgets++
			}
			if w.group.IsStill(it.stamp) {
				w.problem("a result is current, whose call was forgotten")
			}
		}
	default:
		w.log("closes the group")
		w.closed = true
		w.group.Close()
	}
}

func playWorld(t *testing.T, seed int64) { playRecorded(t, seed, nil) }

// Plays a world, whose group is recorded to the log, if there is one.
func playRecorded(t *testing.T, seed int64, log *bytes.Buffer) {
	w := &world{t: t, seed: seed, random: rand.New(rand.NewSource(seed)), back: make(chan struct{}), now: 1}
	s := sizes{loads: uint32(1 + w.random.Intn(3)), isSmall: true, onPanic: func(any, []byte) {}}
	w.stalls = w.random.Intn(2) == 0
	w.few = w.random.Intn(4) == 0
	w.one = !w.few && w.random.Intn(4) == 0
	schedule, schedulesHash = nil, uint64(seed)*0x9e3779b97f4a7c15
	p := newCore(&s)
	w.group = &Group{}
	w.group.made.Store(p)
	var recording *Recording
	if log != nil {
		var err error
		if recording, err = w.group.Record(log); err != nil {
			t.Fatal(err)
		}
	}
	schedule = w
	for i := 2 + w.random.Intn(5); i > 0; i-- {
		w.spawn(func() {
			for n := 1 + w.random.Intn(5); n > 0; n-- {
				w.act(0, 0)
				point(afterAsk)
			}
		})
	}
	w.running = w.workers[0]
	ended := w.play()
	schedule = nil
	leads := uint64(0)
	if recording != nil {
		if n, err := recording.Stop(); err != nil || n.Lost != 0 {
			w.problem("the recording: %v %v", n, err)
		}
		all, _, err := readRecords(log.Bytes())
		if err == nil {
			err = judge(all)
		}
		leads = countOf(all, "lead")
		if err != nil {
			w.problem("what was recorded is not legal in time: %v", err)
		}
	}
	if !ended {
		w.problem("nobody can go on")
	} else {
		if recording != nil && len(recording.r.meets) > 0 && !w.closed {
			w.problem("%d Forgets and calls have not met", len(recording.r.meets))
		}
		if recording != nil && leads != p.stats().Loads {
			w.problem("%d loads are recorded, of %d", leads, p.stats().Loads)
		}
		if st := p.stats(); st.InUse != 0 || st.Forgets != w.forgets || waiting(w.group) != 0 {
			w.problem("something is left, or numbers: %v, %d Forgets", st, w.forgets)
		}
		p.isEnded.Store(true)
	}
	if len(w.problems) > 0 {
		for _, line := range w.trace {
			t.Log(line)
		}
		t.Fatalf("seed %d: %v", seed, w.problems)
	}
}

// Random schedules of random calls keep the promises. SFLIGHT_SCHEDULES says how many, and SFLIGHT_SEED with which one to begin.
func TestSchedules(t *testing.T) { eachSchedule(t, playWorld) }

// Random schedules of random calls are recorded as histories that are legal in time.
func TestRecordedSchedules(t *testing.T) {
	eachSchedule(t, func(t *testing.T, seed int64) { playRecorded(t, seed, new(bytes.Buffer)) })
}

func eachSchedule(t *testing.T, play func(t *testing.T, seed int64)) {
	count, from := 2000, int64(1)
	for name, set := range map[string]func(int){"SFLIGHT_SCHEDULES": func(n int) { count = n }, "SFLIGHT_SEED": func(n int) { from = int64(n) }} {
		if text := os.Getenv(name); text != "" {
			n, err := strconv.Atoi(text)
			if err != nil {
				t.Fatal(name, err)
			}
			set(n)
		}
	}
	for seed := from; seed < from+int64(count); seed++ {
		play(t, seed)
	}
}
