//go:build sflight_schedules

package singleflight

import (
	"bytes"
	"context"
	"errors"
	"fmt"
	"os"
	"path/filepath"
	"strconv"
	"strings"
	"testing"
	"time"
)

// The orders of examples/orders, whose README tells the format. Each step of an order moves one goroutine, until it
// returns, runs its load, sleeps or comes to the point where it is to stop. Then the next step is made: one goroutine runs
// at a time, and which one does is told by the text alone.

// The points of an order's text, by their places in the code. A Get that has found nothing asks next.
var orderPoints = map[string]where{
	"before ask": beforeAsk, "asked": afterAsk, "before settle": beforeSettle, "settled": beforeWake,
	"before sleep": beforeSleep, "before leave": beforeLeave, "before forget": beforeForget, "forgotten": afterForget,
	"looked": beforeAsk, "before keep": beforeKeep, "kept": afterKeep,
}

var errOrder = errors.New("the load fails, as the order says")

var errStuck = errors.New("a goroutine goes on and on for a minute")

type orderWorld struct {
	words   []string // of the step
	kind    string   // group or cache
	group   *Group
	cache   *Cache[string, int]
	actors  map[string]*actor
	workers []*orderWorker
	running *orderWorker
	back    chan struct{}
	loads   map[string]int
	fillers int
	caught  any // what the order's goroutines did wrong
	options []Option
	clock   time.Time
	log     *bytes.Buffer // of a group that is recorded
	records *Recording
}

// An actor is a caller of the order.
type actor struct {
	name     string
	stop     string // where it is to stop next
	asking   *actorAsking
	got      *actorGot // that no step has looked at
	last     Result    // of its last call
	forgot   string
	cancel   context.CancelFunc
	own      context.Context     // of the load that it began last
	hasBegun bool                // its load, since it asked
	many     map[string]Got[int] // what its GetMany returned, and no step has looked at
	batch    []string            // what the load of a batch loads that it began last
	behind   bool                // whether it has begun a load behind a get
}

// One call of an actor, which may be inside the load of another one.
type actorAsking struct {
	outer       *actorAsking
	ran, joined bool
}

type actorGot struct {
	Result
	panicked bool
	how      string
}

type orderState int

const (
	isRunning orderState = iota
	isIdle
	isLoading
	isBlocked
	isHeld
	isOver
)

// A worker is a goroutine of an actor: its own, or one in which its load runs.
type orderWorker struct {
	of    *actor
	goOn  chan struct{}
	state orderState
	at    where   // the point to which it came last
	do    command // of a worker that is idle, or loads
}

type command struct {
	what, key, how string
	number         int
	keys           []string
	words          []string // numbers, or nothing
	call           Call
}

// It is at a point of the code. What the test itself calls stops nowhere.
func (w *orderWorld) at(at where) {
	me := w.running
	if me == nil {
		return
	}
	me.at = at
	if stop := me.of.stop; stop != "" && orderPoints[stop] == at {
		me.of.stop = ""
		w.yield(isHeld)
	}
}

func (w *orderWorld) blocked() {
	if w.running == nil {
		panic("the order's own call waits")
	}
	if w.running.at == beforeSleep && w.running.of.asking != nil {
		w.running.of.asking.joined = true
	}
	w.yield(isBlocked)
}

func (w *orderWorld) yield(state orderState) {
	me := w.running
	me.state = state
	w.back <- struct{}{}
	<-me.goOn
	me.state = isRunning
}

func (w *orderWorld) index() uint {
	for i, it := range w.workers {
		if it == w.running {
			return uint(i)
		}
	}
	return 0
}

func (w *orderWorld) spawn(do func()) { w.begin(w.running.of, do) }

func (w *orderWorld) begin(of *actor, do func()) *orderWorker {
	me := &orderWorker{of: of, goOn: make(chan struct{})}
	w.workers = append(w.workers, me)
	go func() {
		<-me.goOn
		defer func() {
			if it := recover(); it != nil {
				w.caught = it
			}
			me.state = isOver
			w.back <- struct{}{}
		}()
		do()
	}()
	return me
}

func (w *orderWorld) run(me *orderWorker) {
	w.running = me
	me.goOn <- struct{}{}
	late := time.NewTimer(time.Minute)
	defer late.Stop()
	select {
	case <-w.back:
	case <-late.C:
		panic(errStuck)
	}
	w.running = nil
}

// settleDown runs whoever can go on, until nobody can.
func (w *orderWorld) settleDown() {
	for again := true; again; {
		again = false
		for i := 0; i < len(w.workers); i++ {
			me := w.workers[i]
			if me.state == isRunning || me.state == isBlocked {
				w.run(me)
				again = again || me.state != isBlocked
			}
		}
	}
}

func (w *orderWorld) actor(name string) *actor {
	a := w.actors[name]
	if a == nil {
		a = &actor{name: name}
		w.actors[name] = a
		w.run(w.begin(a, func() { w.serve(isIdle) }))
	}
	return a
}

// serve obeys the order's steps, until one ends the load which this is.
func (w *orderWorld) serve(state orderState) command {
	for me := w.running; ; {
		w.yield(state)
		it := me.do
		me.do = command{}
		a := me.of
		switch it.what {
		case "asks":
			w.ask(me, it)
		case "forgets":
			a.forgot = ""
			if it.key == "" {
				w.cache.ForgetAll()
			} else if w.cache != nil {
				w.cache.Forget(it.key)
			} else {
				w.group.Forget(it.key)
			}
			a.forgot = "forgotten"
		case "forgets call":
			a.forgot = ""
			a.forgot = map[Hit]string{Closed: "closed it", Cleared: "cleared it", Missed: "missed it"}[w.group.ForgetCall(it.key, it.call)]
		case "forgets tag":
			w.cache.ForgetTag(it.key)
		case "asks many":
			w.askMany(a, it.keys)
		case "puts":
			a.forgot = ""
			a.forgot = map[bool]string{true: "kept it", false: "not kept it"}[w.cache.Put(it.key, it.number)]
		case "ends":
			return command{}
		default:
			return it
		}
	}
}

func (w *orderWorld) ask(me *orderWorker, it command) {
	a := me.of
	ctx := context.Context(always)
	if it.how == "deadline" {
		ctx, a.cancel = context.WithCancel(always)
	}
	asking := &actorAsking{outer: a.asking}
	got := &actorGot{}
	a.asking, a.hasBegun = asking, false
	load := func(own context.Context) (any, error) {
		v, err := w.load(own, a, asking, it.key)
		return v, err
	}
	defer func() {
		if v := recover(); v != nil {
			e, ok := v.(error)
			if !ok || !strings.Contains(e.Error(), "the load panics, as the order says") {
				panic(v)
			}
			got.panicked = true
		}
		if a.got != nil {
			panic("two results of " + a.name)
		}
		a.asking, a.got, a.last = asking.outer, got, got.Result
		got.how = "found"
		if asking.ran {
			got.how = "loaded"
		} else if asking.joined {
			got.how = "joined"
		}
	}()
	switch {
	case w.cache != nil:
		v, err := w.cache.Get(ctx, it.key)
		got.Result = Result{Val: v, Err: err}
	case it.how == "channel":
		ch := w.group.DoChan(it.key, func() (any, error) { return load(always) })
		for done := false; !done; {
			select {
			case got.Result = <-ch:
				done = true
			default:
				me.at = beforeSleep
				w.blocked()
			}
		}
	default:
		got.Result, _ = w.group.Of.Do(ctx, it.key, load)
		if err := ctx.Err(); err != nil && got.Err == nil && got.Val == nil {
			got.Err = err
		}
	}
}

// What the keys of a batch come to.
func (w *orderWorld) askMany(a *actor, keys []string) {
	asking := &actorAsking{outer: a.asking}
	a.asking, a.hasBegun = asking, false
	got := w.cache.GetMany(always, keys)
	a.asking, a.many = asking.outer, map[string]Got[int]{}
	for i, key := range keys {
		a.many[key] = got[i]
	}
}

// The load function of a cache, whose value may have a tag.
func (w *orderWorld) loadTagged(own context.Context, key string) (it Loaded[int], err error) {
	a := w.running.of
	it.Value, err = w.load(own, a, a.asking, key)
	if tag := w.running.do.how; err == nil && tag != "" {
		it.Tags = []string{tag}
	}
	w.running.do = command{}
	return it, err
}

// The load function of a batch.
func (w *orderWorld) loadMany(own context.Context, keys []string) (map[string]Loaded[int], error) {
	a := w.running.of
	a.own, a.hasBegun, a.batch = own, true, keys
	for _, key := range keys {
		w.loads[key]++
	}
	values := map[string]Loaded[int]{}
	switch it := w.serve(isLoading); it.what {
	case "returns":
		for i, word := range it.words {
			if n, err := strconv.Atoi(word); err == nil && i < len(keys) {
				values[keys[i]] = Loaded[int]{Value: n}
			}
		}
		return values, nil
	case "panics":
		panic("the load panics, as the order says")
	}
	return nil, errOrder
}

// The load function, which ends as the order says.
func (w *orderWorld) load(own context.Context, a *actor, asking *actorAsking, key string) (int, error) {
	w.loads[key]++
	if asking == nil {
		a.behind = true
	} else {
		a.own, a.hasBegun, a.batch, asking.ran = own, true, nil, true
	}
	it := w.serve(isLoading)
	w.running.do = it // for its tag
	switch it.what {
	case "returns":
		return it.number, nil
	case "panics":
		panic("the load panics, as the order says")
	default:
		return 0, errOrder
	}
}

// tell lets an actor do this: in the load that it began last, if it runs one.
func (w *orderWorld) tell(a *actor, it command) error {
	for i := len(w.workers) - 1; i >= 0; i-- {
		me := w.workers[i]
		isEnd := it.what == "returns" || it.what == "fails" || it.what == "panics"
		if me.of == a && (me.state == isLoading || me.state == isIdle && !isEnd) {
			me.do = it
			w.run(me)
			return nil
		}
	}
	return fmt.Errorf("%s cannot do that now: it %s", a.name, w.what(a))
}

// what tells what an actor does.
func (w *orderWorld) what(a *actor) string {
	if a.got != nil {
		return fmt.Sprintf("has %v, error %v, panic %v, shared %v with %d, %s", a.got.Val, a.got.Err, a.got.panicked, a.got.Shared, a.got.Joiners, a.got.how)
	}
	for i := len(w.workers) - 1; i >= 0; i-- {
		if me := w.workers[i]; me.of == a && me.state != isOver {
			return [...]string{"runs", "is idle", "runs a load", "waits", "is stopped", "is over"}[me.state]
		}
	}
	return "is over"
}

func (w *orderWorld) find(a *actor, state orderState) *orderWorker {
	for _, me := range w.workers {
		if me.of == a && me.state == state {
			return me
		}
	}
	return nil
}

// is matches the step's words with a form, in which A and B are callers, K is a key and N is a number. The number comes back
// in n, and the rest in to.
func (w *orderWorld) is(form string, to ...*string) bool {
	parts := strings.Fields(form)
	if len(parts) != len(w.words) {
		return false
	}
	var found []string
	for i, part := range parts {
		word := w.words[i]
		isActor := len(strings.TrimSuffix(word, "'s")) == 1 && word[0] >= 'a' && word[0] <= 'h'
		switch {
		case part == "A" && isActor && !strings.HasSuffix(word, "'s"), part == "K" && word[0] >= 'k' && word[0] <= 'z', part == "W":
			found = append(found, word)
		case part == "A's" && isActor && strings.HasSuffix(word, "'s"):
			found = append(found, word[:1])
		case part == "N":
			if _, err := strconv.Atoi(word); err != nil {
				return false
			}
			found = append(found, word)
		case part != word:
			return false
		}
	}
	for i := range to {
		*to[i] = found[i]
	}
	return true
}

// isList tells whether the step is one of a caller, this word, and a list of so many words at least, less two.
func (w *orderWorld) isList(least int, what string) bool {
	if len(w.words) <= least || w.words[1] != what || len(w.words[0]) != 1 || w.words[0][0] < 'a' || w.words[0][0] > 'h' {
		return false
	}
	for _, word := range w.words[2:] {
		_, err := strconv.Atoi(word)
		isKey := word[0] >= 'k' && word[0] <= 'z' && word != "nothing"
		if isKey == (what == "returns") || what == "returns" && err != nil && word != "nothing" {
			return false
		}
	}
	return true
}

func orderNumber(text string) int {
	n, err := strconv.Atoi(text)
	if err != nil {
		panic(err)
	}
	return n
}

// acts makes a step in which somebody does something. It tells whether it was one.
func (w *orderWorld) acts() (isStep bool, err error) {
	var a, b, key, n, point string
	switch {
	case w.is("A asks K", &a, &key):
		err = w.tell(w.actor(a), command{what: "asks", key: key})
	case w.is("A asks K with a deadline", &a, &key):
		err = w.tell(w.actor(a), command{what: "asks", key: key, how: "deadline"})
	case w.is("A asks K by a channel", &a, &key):
		err = w.tell(w.actor(a), command{what: "asks", key: key, how: "channel"})
	case w.is("A returns N with tag W", &a, &n, &key):
		err = w.tell(w.actor(a), command{what: "returns", number: orderNumber(n), how: key})
	case w.isList(2, "returns"):
		number, _ := strconv.Atoi(w.words[2])
		err = w.tell(w.actor(w.words[0]), command{what: "returns", number: number, words: w.words[2:]})
	case w.cache != nil && w.isList(3, "asks"):
		err = w.tell(w.actor(w.words[0]), command{what: "asks many", keys: w.words[2:]})
	case w.cache != nil && w.is("A forgets tag W", &a, &key):
		err = w.tell(w.actor(a), command{what: "forgets tag", key: key})
	case w.cache != nil && w.is("the clock goes on by N", &n):
		w.clock = w.clock.Add(time.Duration(orderNumber(n)) * time.Second)
	case w.is("A fails", &a):
		err = w.tell(w.actor(a), command{what: "fails"})
	case w.is("A panics", &a):
		err = w.tell(w.actor(a), command{what: "panics"})
	case w.is("A leaves", &a):
		if w.actor(a).cancel == nil {
			return true, errors.New("it asked without a deadline")
		}
		w.actor(a).cancel()
	case w.is("A forgets K", &a, &key):
		err = w.tell(w.actor(a), command{what: "forgets", key: key})
	case w.cache != nil && w.is("A forgets all", &a):
		err = w.tell(w.actor(a), command{what: "forgets"})
	case w.is("A forgets A's call", &a, &b):
		// Each order has one key of which it forgets calls.
		err = w.tell(w.actor(a), command{what: "forgets call", key: "k", call: w.actor(b).last.Call})
	case w.is("A puts N at K", &a, &n, &key):
		err = w.tell(w.actor(a), command{what: "puts", key: key, number: orderNumber(n)})
	case w.is("A will stop before W", &a, &point), w.is("A will stop once W", &a, &point):
		if w.words[3] == "before" {
			point = "before " + point
		}
		if _, ok := orderPoints[point]; !ok {
			return true, errors.New("there is no such point")
		}
		w.actor(a).stop = point
	case w.is("A goes on", &a):
		me := w.find(w.actor(a), isHeld)
		if me == nil {
			return true, fmt.Errorf("%s is not stopped: it %s", a, w.what(w.actor(a)))
		}
		w.run(me)
	case w.is("the group grows"):
		w.grow(tablesOf(&w.core().table))
	default:
		return false, nil
	}
	w.settleDown()
	return true, err
}

func (w *orderWorld) core() *core {
	if w.cache != nil {
		return w.cache.now.Load().p
	}
	return w.group.core()
}

// grow runs loads, each inside the one before it, until the table has grown, or where plain Go has it, a hundred.
func (w *orderWorld) grow(before uint64) {
	var load func(depth int) (any, error)
	load = func(depth int) (any, error) {
		if depth < 100 && (!isProved || tablesOf(&w.core().table) == before) {
			w.fillers++
			w.group.Do(fmt.Sprint("filler-", w.fillers), func() (any, error) { return load(depth + 1) })
		}
		return depth, nil
	}
	load(0)
	if isProved && tablesOf(&w.core().table) == before {
		panic("it does not grow")
	}
}

// says makes a step that says what has come of those before. It tells whether it was one.
func (w *orderWorld) says() (isStep bool, err error) {
	var a, n, key string
	holds := func(is bool) error {
		if !is {
			if a != "" {
				return fmt.Errorf("%s %s", a, w.what(w.actor(a)))
			}
			return errors.New("it is not so")
		}
		return nil
	}
	switch {
	case w.is("A leads", &a):
		it := w.actor(a)
		err = holds(it.hasBegun && it.got == nil && w.find(it, isLoading) != nil)
		it.hasBegun = false
	case w.isList(2, "leads"):
		it := w.actor(w.words[0])
		if !it.hasBegun || strings.Join(it.batch, " ") != strings.Join(w.words[2:], " ") {
			err = fmt.Errorf("it has begun to load %v: %v", it.batch, it.hasBegun)
		}
		it.hasBegun = false
	case w.is("A refreshes", &a):
		it := w.actor(a)
		err = holds(it.behind && w.find(it, isLoading) != nil)
		it.behind = false
	case w.is("A has W at K", &a, &n, &key), w.is("A has an error at K", &a, &key):
		it, ok := w.actor(a).many[key]
		number, isError := strconv.Atoi(n)
		if !ok || n == "nothing" && it.Err != ErrNotFound || n == "" && it.Err != errOrder ||
			isError == nil && (it.Err != nil || it.Value != number) {
			err = fmt.Errorf("%s has %v at %s: %v", a, it, key, ok)
		}
		delete(w.actor(a).many, key)
	case w.is("A joins", &a):
		me := w.find(w.actor(a), isBlocked)
		err = holds(me != nil && me.at == beforeSleep && !w.actor(a).hasBegun)
	case w.is("A waits", &a):
		err = holds(w.find(w.actor(a), isBlocked) != nil && w.actor(a).got == nil)
	case w.is("A has stopped", &a):
		err = holds(w.find(w.actor(a), isHeld) != nil)
	case w.is("A has left", &a):
		err = holds(w.actor(a).got != nil && w.actor(a).got.Err == context.Canceled)
		w.actor(a).got = nil
	case w.is("A has closed a load", &a), w.is("A has closed none", &a):
		// Go's Forget does not tell.
		err = holds(w.actor(a).forgot == "forgotten")
	case w.is("A has closed it", &a), w.is("A has cleared it", &a), w.is("A has missed it", &a), w.is("A has kept it", &a),
		w.is("A has not kept it", &a):
		if it := w.actor(a); it.forgot != strings.Join(w.words[2:], " ") {
			err = fmt.Errorf("%s has %s", a, it.forgot)
		}
	case len(w.words) > 2 && w.words[1] == "has":
		return w.saysResult()
	case w.is("A's result is current", &a):
		err = holds(w.group.IsStill(w.actor(a).last.Stamp))
	case w.is("A's result is not current", &a):
		err = holds(!w.group.IsStill(w.actor(a).last.Stamp))
	case w.is("A's load is told to end", &a):
		err = holds(w.actor(a).own.Err() != nil)
	case w.is("A's load is not told to end", &a):
		err = holds(w.actor(a).own.Err() == nil)
	case w.is("K was loaded once", &key), w.is("K was loaded twice", &key), w.is("K was loaded N times", &key, &n):
		times := map[string]int{"once": 1, "twice": 2}[w.words[3]]
		if n != "" {
			times = orderNumber(n)
		}
		if w.loads[key] != times {
			err = fmt.Errorf("it was loaded %d times", w.loads[key])
		}
	case w.is("N loads run", &n):
		if st := w.core().stats(); st.InUse != uint64(orderNumber(n)) {
			err = fmt.Errorf("%d run", st.InUse)
		}
	case w.is("K holds nothing", &key), w.is("K holds N", &key, &n):
		v, ok := w.cache.GetIfPresent(key)
		if ok != (n != "") || ok && v != orderNumber(n) {
			err = fmt.Errorf("it holds %v, %v", v, ok)
		}
	default:
		return false, nil
	}
	return true, err
}

// saysResult is says of what a call returned.
func (w *orderWorld) saysResult() (isStep bool, err error) {
	var name, n string
	all := w.words
	defer func() { w.words = all }()
	how := 3
	if w.words[2] == "a" || w.words[2] == "an" {
		how = 4
	}
	if len(all) < how {
		return false, nil
	}
	w.words = all[:how]
	isError, isPanic, isNothing := w.is("A has an error", &name), w.is("A has a panic", &name), w.is("A has nothing", &name)
	if !isError && !isPanic && !isNothing && !w.is("A has N", &name, &n) {
		return false, nil
	}
	a := w.actor(name)
	got := a.got
	if got == nil {
		return true, fmt.Errorf("%s %s", name, w.what(a))
	}
	is := isPanic && got.panicked || isNothing && got.Err == ErrNotFound || isError && got.Err == errOrder || n != "" && got.Err == nil && !got.panicked && got.Val == orderNumber(n)
	w.words = all[how:]
	switch {
	case len(w.words) == 0 && (w.cache != nil || isPanic):
	case w.cache != nil && (w.is("loaded") || w.is("joined") || w.is("found")):
		is = is && got.how == w.words[0]
	case w.cache == nil && w.is("alone"):
		is = is && !got.Shared && got.Joiners == 0
	case w.cache == nil && w.is("shared"):
		is = is && got.Shared
	case w.cache == nil && w.is("shared with N", &n):
		is = is && got.Shared && got.Joiners == orderNumber(n)
	default:
		return false, nil
	}
	if !is {
		return true, fmt.Errorf("%s %s", name, w.what(a))
	}
	a.got = nil
	return true, nil
}

// isOurs tells whether words name languages, of which Go is one.
func isOurs(languages []string) (is bool, err error) {
	for _, it := range languages {
		is = is || it == "Go"
		if it != "Go" && it != "Rust" && it != "C" {
			return false, fmt.Errorf("%s is no language", it)
		}
	}
	return is, nil
}

// playOrder plays an order, of this name. Its error names the line. The log gets the recording of a group, if there is one.
func playOrder(name, text string, log *bytes.Buffer) (err error) {
	w := &orderWorld{actors: map[string]*actor{}, back: make(chan struct{}), loads: map[string]int{}, log: log}
	defer func() { schedule = nil }()
	for i, line := range strings.Split(text, "\n") {
		line, _, _ = strings.Cut(line, "#")
		fail := func(err error) error { return fmt.Errorf("%s:%d: %s: %w", name, i+1, strings.TrimSpace(line), err) }
		words := strings.Fields(strings.ReplaceAll(line, ",", " "))
		if len(words) == 0 {
			continue
		}
		if w.kind == "" {
			if w.kind = words[0]; len(words) != 1 || w.kind != "group" && w.kind != "cache" {
				return fail(errors.New("an order begins with group or cache"))
			}
			continue
		}
		var languages []string
		isOnly := words[0] == "only"
		if before, _, ok := strings.Cut(line, ":"); ok {
			languages = strings.Fields(strings.ReplaceAll(before, ",", " "))
			words = words[len(languages):]
		} else if isOnly {
			languages = words[1:]
		}
		is, err := isOurs(languages)
		if err != nil {
			return fail(err)
		}
		if len(languages) > 0 && !is {
			if isOnly {
				return nil
			}
			continue
		}
		if isOnly {
			continue
		}
		w.words = words
		if schedule == nil {
			if w.isOption() {
				continue
			}
			if err := w.open(); err != nil {
				return fail(err)
			}
		}
		if err := w.step(); err != nil {
			return fail(err)
		}
	}
	if schedule == nil && w.kind != "" {
		if err := w.open(); err != nil {
			return err
		}
	}
	if err := w.end(); err != nil {
		return fmt.Errorf("%s: at its end: %w", name, err)
	}
	return nil
}

// isOption tells whether the line is one of the cache's options, which come first.
func (w *orderWorld) isOption() bool {
	var n string
	seconds := func() time.Duration { return time.Duration(orderNumber(n)) * time.Second }
	switch {
	case w.kind != "cache":
		return false
	case w.is("values live for N", &n):
		w.options = append(w.options, WithTTL(seconds()))
	case w.is("values are refreshed after N", &n):
		w.options = append(w.options, WithRefreshAfter(seconds()))
	case w.is("values are stale for N", &n):
		w.options = append(w.options, WithStaleIfError(seconds()))
	case w.is("errors are kept for N", &n):
		ttl := seconds()
		w.options = append(w.options, WithErrorTTL(func(error) time.Duration { return ttl }))
	default:
		return false
	}
	return true
}

func (w *orderWorld) open() (err error) {
	schedulesHash = 1
	if w.kind == "cache" {
		w.clock = time.Unix(1700000000, 0)
		// So many hash slots that no two keys of an order share one: a Forget of one key would end the other's value.
		w.cache, err = NewCacheOf(100, w.loadTagged, append(w.options, wide, WithBatchLoader(w.loadMany),
			WithClock(func() time.Time { return w.clock }))...)
	} else {
		w.group = &Group{}
		w.group.made.Store(newCore(&sizes{loads: 1, isSmall: true, onPanic: func(any, []byte) {}}))
		if w.log != nil {
			w.records, err = w.group.Record(w.log)
		}
	}
	schedule = w
	return err
}

func (w *orderWorld) step() (err error) {
	defer func() {
		if it := recover(); it == errStuck {
			err = errStuck
		} else if it != nil {
			err = fmt.Errorf("%v", it)
		}
	}()
	is, err := w.acts()
	if !is && err == nil {
		is, err = w.says()
	}
	if !is {
		return errors.New("this is no step")
	}
	if w.caught != nil && err == nil {
		err = fmt.Errorf("%v", w.caught)
	}
	return err
}

// end ends the goroutines of an order, in which nobody may be busy.
func (w *orderWorld) end() error {
	if w.group == nil && w.cache == nil {
		return errors.New("an order begins with group or cache")
	}
	for name, a := range w.actors {
		if me := w.find(a, isIdle); me == nil || a.got != nil || a.stop != "" || len(a.many) > 0 {
			return fmt.Errorf("%s %s, and is to stop at %q", name, w.what(a), a.stop)
		}
	}
	for _, me := range w.workers {
		if me.state == isIdle {
			me.do = command{what: "ends"}
			w.run(me)
		} else if me.state != isOver {
			return fmt.Errorf("a goroutine of %s has not ended", me.of.name)
		}
	}
	if st := w.core().stats(); st.InUse != 0 || waiting(w) != 0 {
		return fmt.Errorf("something is left: %+v, and %d wait", st, waiting(w))
	}
	if !hasNoCalls(&w.core().table) {
		return errors.New("a call of the table was not given back once")
	}
	w.core().isEnded.Store(true)
	return w.judged()
}

// judged tells whether the recording has each load of the group, and is legal in time.
func (w *orderWorld) judged() error {
	if w.records == nil {
		return nil
	}
	schedule = nil
	if n, err := w.records.Stop(); err != nil || n.Lost != 0 {
		return fmt.Errorf("the recording: %v %v", n, err)
	}
	all, _, err := readRecords(w.log.Bytes())
	if err != nil {
		return err
	}
	if err := judge(all); err != nil {
		return fmt.Errorf("what was recorded is not legal in time: %w", err)
	}
	if leads, st := countOf(all, "lead"), w.core().stats(); leads != st.Loads {
		return fmt.Errorf("%d loads are recorded, of %d", leads, st.Loads)
	}
	return nil
}

// The orders that Go, Rust and C run.
func TestSchedulesOfOrders(t *testing.T) {
	paths, _ := filepath.Glob("../examples/orders/*.order")
	if len(paths) == 0 {
		t.Skip("the orders are not here: ../examples/orders")
	}
	for _, path := range paths {
		text, err := os.ReadFile(path)
		if err == nil {
			err = playOrder(path, string(text), nil)
		}
		if err == nil {
			err = playOrder(path+", recorded", string(text), new(bytes.Buffer))
		}
		if errors.Is(err, errStuck) {
			t.Fatal(err)
		}
		if err != nil {
			t.Error(err)
		}
	}
	t.Log(len(paths), "orders")
}

// What is no order, and what does not come so, is an error that names the line.
func TestSchedulesOfWrongOrders(t *testing.T) {
	for text, want := range map[string]string{
		"":                               "it: at its end: an order begins with group or cache",
		"group\na asks":                  "it:2: a asks: this is no step",
		"groups":                         "it:1: groups: an order begins",
		"group\nonly Gone":               "it:2: only Gone: Gone is no language",
		"group\na will stop before noon": "it:2: a will stop before noon: there is no such point",
		"group\na goes on":               "it:2: a goes on: a is not stopped: it is idle",
		"group\na returns 1":             "it:2: a returns 1: a cannot do that now: it is idle",
		"group\na asks k\na leaves":      "it:3: a leaves: it asked without a deadline",
		"group\na asks k\na joins":       "it:3: a joins: a runs a load",
		"group\na asks k\na leads\n\nb asks k\nb leads":               "it:6: b leads: b waits",
		"group\na asks k\na leads\na returns 1\na has 2, alone":       "it:5: a has 2, alone: a has 1, ",
		"group\na asks k\na leads\na returns 1\na has 1, shared":      "it:5: a has 1, shared: a has 1, ",
		"group\na asks k\na leads\na returns 1\na has 1":              "it:5: a has 1: this is no step",
		"group\na asks k\na leads\na returns 1\nk was loaded twice":   "it:5: k was loaded twice: it was loaded 1 times",
		"group\na asks k\na leads\na returns 1":                       "it: at its end: a has 1, ",
		"group\na asks k":                                             "it: at its end: a runs a load",
		"group\na will stop once settled\nf forgets k":                "it: at its end: a is idle, and is to stop at \"settled\"",
		"cache\nvalues live for 1\nk holds 1":                         "it:3: k holds 1: it holds 0, false",
		"cache\na asks k\nvalues live for 1":                          "it:3: values live for 1: this is no step",
		"group\nvalues live for 1":                                    "it:2: values live for 1: this is no step",
		"cache\na asks k l\na leads k":                                "it:3: a leads k: it has begun to load [k l]: true",
		"cache\na asks k l\na leads k l\na returns 1 2\na has 1 at k": "it: at its end: a is idle",
		"cache\na asks k l\na leads k l\na returns 1 2\na has 1 at l": "it:5: a has 1 at l: a has {2 <nil>} at l",
		"cache\na asks k\na refreshes":                                "it:3: a refreshes: a runs a load",
		"cache\nk holds 1":                                            "it:2: k holds 1: it holds 0, false",
		"group\nC: a flies\nonly C\na flies":                          "",
		"group\n# a flies\nRust, C: a flies":                          "",
	} {
		err := playOrder("it", text, nil)
		if want == "" && err != nil || want != "" && (err == nil || !strings.HasPrefix(err.Error(), want)) {
			t.Errorf("%q: %v, and not %s", text, err, want)
		}
	}
}
