package singleflight

import (
	"bytes"
	"context"
	"crypto/sha256"
	"errors"
	"fmt"
	"math/rand"
	"regexp"
	"runtime"
	"sort"
	"strings"
	"sync"
	"testing"
	"time"
)

// recordedBy returns the log of what do makes the group do, of which nothing may be lost.
func recordedBy(t *testing.T, g *Group, do func()) []byte {
	t.Helper()
	var log bytes.Buffer
	r, err := g.Record(&log)
	if err != nil {
		t.Fatal(err)
	}
	do()
	n, err := r.Stop()
	if err != nil || n.Lost != 0 {
		t.Fatal("the recording has failed, or lost something", n, err)
	}
	if lines := bytes.Count(log.Bytes(), []byte("\n")); uint64(lines) != n.Events+1 {
		t.Error("lines and events", lines, n)
	}
	return log.Bytes()
}

// Calls, Forgets, contexts that end, channels, nested keys and failures at once.
func TestRecordingOfAStress(t *testing.T) {
	for name, options := range map[string][]Option{
		"wide":         nil,
		"few slots":    {fewSlots},
		"few at first": {WithLoads(1)},
	} {
		t.Run(name, func(t *testing.T) {
			g, err := NewGroup(options...)
			if err != nil {
				t.Fatal(err)
			}
			defer g.Close()
			rounds := 2000
			if testing.Short() {
				rounds = 300
			}
			var got results
			log := recordedBy(t, g, func() {
				stressed(g, 12, rounds, &got)
				// Loads that their callers have left end too. Their goroutines record them at the very end.
				until(t, "all have ended", func() bool { return g.Stats().InUse == 0 && !isLeading() })
			})
			all := isLegal(t, log)
			kinds := map[string]int{}
			for _, it := range all {
				kind := it.E
				if it.E == "forget" && it.Closed != nil {
					kind = "forget closed"
				}
				kinds[kind+it.Hit]++
			}
			for _, kind := range []string{"lead", "enter", "forget", "forget closed", "settle", "handed"} {
				if kinds[kind] == 0 {
					t.Error("no event is a", kind, kinds)
				}
			}
			st := g.Stats()
			if leads := uint64(kinds["lead"]); leads != st.Loads {
				t.Error("calls are left out, or told twice", kinds, st)
			}
			// Those are left out that left before the load began. However many these are, each that waited for a result is told.
			if enters := uint64(kinds["enter"]); enters < got.joiners() || name == "wide" && enters > st.Joins {
				t.Error("members are left out, or told twice", kinds, st, got.joiners())
			}
			t.Log(len(all), kinds, st)
		})
	}
}

// Whether a goroutine leads a call, or has not yet returned from there.
func isLeading() bool {
	all := make([]byte, 1<<20)
	all = all[:runtime.Stack(all, true)]
	return regexp.MustCompile(`singleflight\.\(\*core\)\.(lead|goOn|doChan|leadContext)[(.]`).Match(all)
}

// How many have joined each call of which somebody has the result, and waited for that.
type results struct {
	mu    sync.Mutex
	calls map[callID]int
}

func (r *results) add(got Result) {
	if got.Call == (Call{}) {
		return // its caller has left
	}
	r.mu.Lock()
	defer r.mu.Unlock()
	if r.calls == nil {
		r.calls = map[callID]int{}
	}
	r.calls[got.Call.id] = got.Joiners
}

func (r *results) joiners() (n uint64) {
	for _, joiners := range r.calls {
		n += uint64(joiners)
	}
	return n
}

func stressed(g *Group, goroutines, rounds int, got *results) {
	var all sync.WaitGroup
	for i := 0; i < goroutines; i++ {
		all.Add(1)
		go func(i int) {
			defer all.Done()
			recordedStress(g, rand.New(rand.NewSource(int64(i))), rounds, got)
		}(i)
	}
	all.Wait()
}

var errStress = errors.New("it fails")

func recordedStress(g *Group, r *rand.Rand, rounds int, all *results) {
	pause := func() {
		if r.Intn(4) == 0 {
			time.Sleep(time.Duration(r.Intn(50)) * time.Microsecond)
		} else {
			runtime.Gosched()
		}
	}
	load := func(context.Context) (any, error) {
		pause()
		if r.Intn(16) == 0 {
			return nil, errStress
		}
		return 1, nil
	}
	var calls []Call
	var pending []<-chan Result
	for n := 0; n < rounds; n++ {
		key := fmt.Sprint("key-", r.Intn(5))
		switch what := r.Intn(20); {
		case what < 6:
			got, _ := g.Of.Do(always, key, load)
			all.add(got)
			calls = []Call{got.Call}
		case what < 10:
			own := rand.New(rand.NewSource(r.Int63()))
			ctx, cancel := context.WithTimeout(always, time.Duration(r.Intn(60))*time.Microsecond)
			got, _ := g.Of.Do(ctx, key, func(context.Context) (any, error) {
				time.Sleep(time.Duration(own.Intn(100)) * time.Microsecond)
				return 1, nil
			})
			cancel()
			all.add(got)
			calls = append(calls, got.Call)[len(calls)/3:]
		case what < 12:
			own := rand.New(rand.NewSource(r.Int63()))
			pending = append(pending, g.DoChan(key, func() (any, error) {
				time.Sleep(time.Duration(own.Intn(100)) * time.Microsecond)
				return 1, nil
			}))
		case what < 13:
			g.Do(key, func() (any, error) { v, err, _ := g.Do(key+"'", value(1)); return v, err })
		case what < 14:
			func() {
				defer func() { recover() }()
				// A panic of a DoChan would end the program.
				g.Do(key+"!", func() (any, error) { pause(); panic("it panics") })
			}()
		case what < 17:
			g.Forget(key)
		default:
			if len(calls) > 0 {
				g.ForgetCall(key, calls[r.Intn(len(calls))])
			}
		}
		if len(pending) > 3 {
			all.add(<-pending[0])
			pending = pending[1:]
		}
	}
	for _, ch := range pending {
		all.add(<-ch)
	}
}

// An Enter of a call that a Forget closed before, and others that have no order.
func TestJudge(t *testing.T) {
	const lead = `{"e":"lead","by":1,"k":"k","c":[1,1],"own":null,"at":[1000,1180]}` + "\n"
	const settle = `{"e":"settle","by":1,"c":[1,1],"ok":"v","joiners":%d,"at":[9000,9090]}` + "\n" +
		`{"e":"handed","by":1,"c":[1,1],"at":[9000,9200]}` + "\n"
	const forget = `{"e":"forget","by":3,"k":"k","closed":[1,1],"at":[2000,2050]}` + "\n"
	const enter = `{"e":"enter","by":2,"k":"k","c":[1,1],"m":[2,1],"at":[%d,9300]}` + "\n"
	for _, it := range []struct{ log, says string }{
		{lead + fmt.Sprintf(settle, 0), ""},
		{lead + fmt.Sprintf(enter, 1450) + fmt.Sprintf(settle, 1), ""},
		{lead + forget + fmt.Sprintf(enter, 2050) + fmt.Sprintf(settle, 1), ""},
		{lead + forget + fmt.Sprintf(enter, 3000) + fmt.Sprintf(settle, 1), "has to follow"},
		{lead + fmt.Sprintf(enter, 1450) + fmt.Sprintf(settle, 0), "Enters"},
		{lead + `{"e":"forget","by":3,"k":"k","closed":null,"at":[2000,2050]}` + "\n" + fmt.Sprintf(settle, 0), "found no open call"},
		{lead + `{"e":"lead","by":3,"k":"k","c":[3,1],"own":null,"at":[3000,3050]}` + "\n" + fmt.Sprintf(settle, 0), "two calls"},
	} {
		all, _, err := readRecords([]byte("{\"format\":4,\"lost\":0}\n" + it.log))
		if err != nil {
			t.Fatal(err)
		}
		if err := judge(all); (err == nil) != (it.says == "") || err != nil && !strings.Contains(err.Error(), it.says) {
			t.Error(it.log, err, "and not", it.says)
		}
	}
}

var timesOf = regexp.MustCompile(`"at":\[[0-9]+,[0-9]+\]`)

// The lines of a log without times, callers and generations, which are told apart by letters.
func shape(log []byte) string {
	text := timesOf.ReplaceAllString(string(log), "")
	text = regexp.MustCompile(`"by":[0-9]+,`).ReplaceAllString(text, "")
	names := map[string]string{}
	name := func(at string) string {
		if names[at] == "" {
			names[at] = string(rune('A' + len(names)))
		}
		return names[at]
	}
	text = regexp.MustCompile(`\[[0-9]+,[0-9]+\]|"ok":"[0-9]+\.[0-9]+"`).ReplaceAllStringFunc(text, func(at string) string {
		if strings.HasPrefix(at, `"ok"`) {
			return `"ok":` + name("["+strings.ReplaceAll(at[6:len(at)-1], ".", ",")+"]")
		}
		return name(at)
	})
	return strings.ReplaceAll(text, ",}", "}")
}

// What calls and Forgets are recorded as: docs/RECORDS.md has the form of the lines.
func TestRecordingsLines(t *testing.T) {
	g := open(t, 8)
	long := strings.Repeat("k", 251)
	log := recordedBy(t, g, func() {
		g.Forget("a")
		started, release := make(chan struct{}), make(chan struct{})
		led := g.DoChan("a", heldAny(1, started, release))
		begun(t, started)
		joined := g.DoChan("a", value(2))
		g.Forget("a")
		close(release)
		came(t, led)
		came(t, joined)
		g.Do("a", func() (any, error) { return nil, errStress })
		_, _, _, call := doCall(g, "a", value(3))
		if hit := g.ForgetCall("a", call); hit != Cleared {
			t.Error(hit)
		}
		g.ForgetCall("a", call)
		for _, key := range []string{"q\"\\\n", long[1:], long, "\xff", "sha256:x"} {
			g.Do(key, value(4))
		}
		func() {
			defer func() { recover() }()
			g.Do("a", func() (any, error) { panic(5) })
		}()
		ended := make(chan struct{})
		go func() {
			defer close(ended)
			g.Do("a", func() (any, error) { runtime.Goexit(); return nil, nil })
		}()
		came(t, ended)
	})
	isLegal(t, log)
	calls := func(letter, key, result string) string {
		return strings.NewReplacer("?", letter, "KEY", key, "RESULT", result).Replace(
			`{"e":"lead","k":KEY,"c":?,"own":null}` + "\n" + `{"e":"settle","c":?,RESULT,"joiners":0}` + "\n" + `{"e":"handed","c":?}` + "\n")
	}
	digest := func(key string) string { return fmt.Sprintf(`"sha256:%x"`, sha256.Sum256([]byte(key))) }
	want := `{"format":4,"lost":0}` + "\n" +
		`{"e":"forget","k":"a","closed":null}` + "\n" +
		`{"e":"lead","k":"a","c":A,"own":null}` + "\n" +
		`{"e":"enter","k":"a","c":A,"m":B}` + "\n" +
		`{"e":"forget","k":"a","closed":A}` + "\n" +
		`{"e":"settle","c":A,"ok":A,"joiners":1}` + "\n" +
		`{"e":"handed","c":A}` + "\n" +
		calls("C", `"a"`, `"err":"*errors.errorString"`) +
		calls("D", `"a"`, `"ok":D`) +
		calls("E", `"q\"\\\u000a"`, `"ok":E`) +
		calls("F", `"`+long[1:]+`"`, `"ok":F`) +
		calls("G", digest(long), `"ok":G`) +
		calls("H", digest("\xff"), `"ok":H`) +
		calls("I", digest("sha256:x"), `"ok":I`) +
		calls("J", `"a"`, `"err":"panic"`) +
		calls("K", `"a"`, `"err":"goexit"`)
	if got := sorted(shape(log)); got != sorted(want) {
		t.Errorf("the lines\n%s\nand not\n%s", got, sorted(want))
	}
}

// Goroutines write to lanes of their own, so entries may come in another order.
func sorted(lines string) string {
	all := strings.Split(regexp.MustCompile(`[A-Z]([,}])`).ReplaceAllString(lines, "?$1"), "\n")
	sort.Strings(all)
	return strings.Join(all, "\n")
}

// A call that has joiners, a Forget of one call, and callers that leave: each is told once.
func TestRecordingOfCallersThatLeave(t *testing.T) {
	g := open(t, 8)
	log := recordedBy(t, g, func() {
		started, release := make(chan struct{}), make(chan struct{})
		led := g.Of.DoChan(always, "key", held[any](1, started, release))
		begun(t, started)
		ctx, cancel := context.WithCancel(always)
		follower := g.Of.DoChan(ctx, "key", nil)
		cancel()
		if r := came(t, follower); r.Err != context.Canceled {
			t.Error(r)
		}
		joiner := g.DoChan("key", value(2))
		close(release)
		if r := came(t, led); r.Joiners != 1 {
			t.Error(r)
		}
		came(t, joiner)
	})
	if all := isLegal(t, log); len(all) != 5 {
		t.Errorf("a Lead, two Enters, a Settle and a Handed: %s", log)
	}
}

// A ForgetCall that closes an open call.
func TestRecordingOfAForgottenCall(t *testing.T) {
	g := open(t, 4)
	log := recordedBy(t, g, func() {
		started, release := make(chan struct{}), make(chan struct{})
		ctx, cancel := context.WithCancel(always)
		defer cancel()
		first := g.Of.DoChan(ctx, "key", held[any](1, started, release))
		begun(t, started)
		var open Call
		g.core().eachOpen(func(_ *call, name Call) { open = name })
		if hit := g.ForgetCall("key", open); hit != Closed {
			t.Error(hit)
		}
		g.Do("key", value(2))
		close(release)
		came(t, first)
	})
	all := isLegal(t, log)
	if len(all) != 7 || !strings.Contains(shape(log), `"hit":"closed"`) {
		t.Errorf("two calls, one of which was closed: %s", shape(log))
	}
}

// A Forget has closed a call, and is stopped before it tells the recorder so. The call ends meanwhile. Its record waits.
func TestRecordingOfASlowForget(t *testing.T) {
	g := open(t, 4)
	log := recordedBy(t, g, func() {
		started, release := chans()
		led := g.DoChan("key", heldAny(1, started, release))
		begun(t, started)
		p := g.core()
		f := forgetting{by: p.recorder.Load(), from: now()}
		id, closed := p.table.forget("key")
		close(release)
		came(t, led)
		p.recorder.Load().forgot(f, "key", id, closed)
	})
	if all := isLegal(t, log); len(all) != 4 || all[1].E != "forget" || all[1].Closed == nil {
		t.Errorf("a Lead, the Forget that closed it, a Settle and a Handed: %s", log)
	}
}

// What began before a recording, and what has not ended, is not in it.
func TestRecordingOfAPart(t *testing.T) {
	g := open(t, 8)
	started, release := make(chan struct{}), make(chan struct{})
	before := g.DoChan("key", heldAny(1, started, release))
	begun(t, started)
	began, end := make(chan struct{}), make(chan struct{})
	var after <-chan Result
	log := recordedBy(t, g, func() {
		joined := g.DoChan("key", value(2))
		g.Forget("key")
		after = g.DoChan("key", heldAny(3, began, end))
		begun(t, began)
		g.Forget("key")
		close(release)
		came(t, before)
		came(t, joined)
		g.Forget("key")
	})
	close(end)
	came(t, after)
	if all := isLegal(t, log); len(all) != 1 || all[0].E != "forget" || all[0].Closed != nil {
		t.Errorf("one Forget that found nothing: %s", log)
	}
	g.Do("key", value(4))
}

// A call that was led in one recording is joined without one, and in another: it is in neither.
func TestTwoRecordingsOfACall(t *testing.T) {
	g := open(t, 8)
	started, release := chans()
	var all []<-chan Result
	first := recordedBy(t, g, func() {
		all = append(all, g.DoChan("key", heldAny(1, started, release)))
		begun(t, started)
	})
	all = append(all, g.DoChan("key", value(2)))
	second := recordedBy(t, g, func() {
		all = append(all, g.DoChan("key", value(3)))
		close(release)
		for _, ch := range all {
			if r := came(t, ch); r.Val != 1 || r.Joiners != 2 {
				t.Error("of one call", r)
			}
		}
	})
	if all := append(isLegal(t, first), isLegal(t, second)...); len(all) != 0 {
		t.Errorf("events of a call that neither has whole: %s%s", first, second)
	}
}

func TestTwoRecordings(t *testing.T) {
	g := open(t, 8)
	var first, second bytes.Buffer
	r, err := g.Record(&first)
	if err != nil {
		t.Fatal(err)
	}
	if _, err := g.Record(&second); !errors.Is(err, ErrRecording) {
		t.Error("two at a time", err)
	}
	g.Do("key", value(1))
	got, err := r.Stop()
	if again, err2 := r.Stop(); got != (Recorded{Events: 3}) || again != got || err != nil || err2 != nil {
		t.Error("stopped twice", got, again, err, err2)
	}
	log := recordedBy(t, g, func() { g.Do("key", value(1)) })
	if all := isLegal(t, log); len(all) != 3 || second.Len() != 0 {
		t.Errorf("the next: %s", log)
	}
}

type writer func([]byte) (int, error)

func (w writer) Write(text []byte) (int, error) { return w(text) }

var errWriter = errors.New("the writer fails")

// A writer that does not do what it should ends the recording, and nothing else.
func TestRecordingOfABadWriter(t *testing.T) {
	for name, it := range map[string]struct {
		writes writer
		says   string
	}{
		"fails":  {func([]byte) (int, error) { return 0, errWriter }, "the writer fails"},
		"panics": {func([]byte) (int, error) { panic("it panics") }, "the writer of a recording: it panics"},
		"ends":   {func([]byte) (int, error) { runtime.Goexit(); return 0, nil }, "runtime.Goexit was called"},
		"short":  {func(text []byte) (int, error) { return len(text) - 1, nil }, "short write"},
	} {
		t.Run(name, func(t *testing.T) {
			g := open(t, 8)
			r, err := g.Record(it.writes)
			if err != nil {
				t.Fatal(err)
			}
			for i := 0; i < 100; i++ {
				g.Do("key", value(i))
			}
			n, err := r.Stop()
			if err == nil || !strings.Contains(err.Error(), it.says) || n.Events != 0 {
				t.Error(n, err)
			}
			if name == "fails" && !errors.Is(err, errWriter) {
				t.Error("not the writer's error", err)
			}
			if v, _, _ := g.Do("key", value(7)); v != 7 {
				t.Error("the group goes on", v)
			}
			log := recordedBy(t, g, func() { g.Do("key", value(8)) })
			if all := isLegal(t, log); len(all) != 3 {
				t.Errorf("the next recording: %s", log)
			}
		})
	}
}

// Calls do not wait for a writer that is stopped. What it does not take is counted.
func TestRecordingOfASlowWriter(t *testing.T) {
	g := open(t, 8)
	release := make(chan struct{})
	var log bytes.Buffer
	r, err := g.Record(writer(func(text []byte) (int, error) { <-release; return log.Write(text) }))
	if err != nil {
		t.Fatal(err)
	}
	const calls = 3 * eventsOfLane
	within(t, 5*patience, "a call waits for the writer", func() {
		for i := 0; i < calls; i++ {
			g.Do("key", value(i))
		}
	})
	close(release)
	n, err := r.Stop()
	if err != nil || n.Lost == 0 || n.Events+n.Lost != 3*calls || n.Events > 64*eventsOfLane {
		t.Error("what is lost is counted", n, err)
	}
	all, lost, err := readRecords(log.Bytes())
	if err != nil || lost != n.Lost || uint64(len(all)) != n.Events {
		t.Error("it is written", len(all), lost, n, err)
	}
	if err := judge(all); err != nil {
		t.Error("whole calls are lost", err)
	}
}

// The writer may call the group.
func TestRecordingOfAWriterThatCalls(t *testing.T) {
	g := open(t, 8)
	var log bytes.Buffer
	writes := 0
	r, err := g.Record(writer(func(text []byte) (int, error) {
		if writes++; writes < 4 {
			g.Do("key", value(writes))
			g.Forget("key")
		}
		return log.Write(text)
	}))
	if err != nil {
		t.Fatal(err)
	}
	within(t, patience, "a writer that calls the group", func() {
		for i := 0; i < 10; i++ {
			g.Do("key", value(i))
			time.Sleep(recordEvery / 2)
		}
		if n, err := r.Stop(); err != nil || n.Lost != 0 {
			t.Error(n, err)
		}
	})
	isLegal(t, log.Bytes())
}

// A recording goes on when the group is closed.
func TestCloseInARecording(t *testing.T) {
	g := open(t, 8)
	log := recordedBy(t, g, func() {
		started, release := make(chan struct{}), make(chan struct{})
		before := g.DoChan("key", heldAny(1, started, release))
		begun(t, started)
		g.Close()
		joined := g.DoChan("key", value(2))
		g.Forget("key")
		g.Do("key", value(3))
		close(release)
		came(t, before)
		came(t, joined)
	})
	all := isLegal(t, log)
	if len(all) != 8 {
		t.Errorf("two calls, one with a joiner and a Forget: %s", log)
	}
}

// What a group that nobody has any more records ends.
func TestRecordingOfAForgottenGroup(t *testing.T) {
	over := func() <-chan struct{} {
		g := new(Group)
		r, err := g.Record(new(bytes.Buffer))
		if err != nil {
			t.Fatal(err)
		}
		g.Do("key", value(1))
		return r.r.over
	}()
	until(t, "its writer's goroutine goes on", func() bool {
		runtime.GC()
		select {
		case <-over:
			return true
		default:
			return false
		}
	})
}
