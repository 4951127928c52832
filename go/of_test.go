package singleflight

import (
	"bytes"
	"context"
	"errors"
	"fmt"
	"runtime"
	"strings"
	"sync"
	"sync/atomic"
	"testing"
	"time"
)

// Returns the value, whatever the context is.
func typed[V any](v V) func(context.Context) (V, error) {
	return func(context.Context) (V, error) { return v, nil }
}

func receiveGot[V any](t *testing.T, ch <-chan ResultOf[V]) (got ResultOf[V]) {
	t.Helper()
	select {
	case got = <-ch:
	case <-time.After(patience):
		t.Fatal("it hangs")
	}
	return got
}

// The goroutine that calls it.
func goroutine() string {
	var stack [64]byte
	return string(bytes.Fields(stack[:runtime.Stack(stack[:], false)])[1])
}

func TestOf(t *testing.T) {
	type name string
	var users Of[name, int]
	defer users.Close()
	got, err := users.Do(always, "ada", typed(7))
	alone := ResultOf[int]{Val: 7, Call: got.Call, Stamp: got.Stamp}
	if got != alone || err != nil || got.Call == (Call{}) || !users.IsStill(got.Stamp) {
		t.Error("one who asks alone", got, err)
	}
	if hit := users.ForgetCall("ada", got.Call); hit != Cleared || users.IsStill(got.Stamp) {
		t.Error("its call is forgotten", hit)
	}
	failed := errors.New("failed")
	got, err = users.Do(always, "ada", func(context.Context) (int, error) { return 3, failed })
	if got.Val != 3 || err != failed || got.Err != failed {
		t.Error("an error comes with the value", got, err)
	}
	if st := users.Stats(); st.Loads != 2 {
		t.Error("numbers", st)
	}

	// The bytes of a key may be changed once Do or DoChan has returned.
	var pages Of[[]byte, string]
	defer pages.Close()
	key := []byte(strings.Repeat("a long key ", 5))
	for _, key := range [][]byte{key[:3], key} {
		started, release := chans()
		first := pages.DoChan(always, key, held("page", started, release))
		begun(t, started)
		same := append([]byte{}, key...)
		key[0]++
		second := pages.DoChan(always, same, typed("other"))
		close(release)
		a, b := receiveGot(t, first), receiveGot(t, second)
		if a.Val != "page" || a != b || !a.Shared || a.Joiners != 1 {
			t.Error("one call for equal bytes", a, b)
		}
		pages.Forget(same)
		if pages.IsStill(a.Stamp) {
			t.Error("its key is forgotten")
		}
		key[0]--
	}

	users.Close()
	if err := users.Err(); err != ErrClosed {
		t.Error("it is closed", err)
	}
	got, err = users.Do(always, "ada", typed(8))
	if got.Val != 8 || err != nil || got.Stamp != (Stamp{}) {
		t.Error("a closed one goes on without stamps", got, err)
	}
}

// Nil interfaces, nil pointers and values of interface types come back as they are, to the leader
// and to each joiner.
func TestOfNils(t *testing.T) {
	comesBack(t, "a nil interface", error(nil), func(v error) bool { return v == nil })
	comesBack(t, "a nil any", any(nil), func(v any) bool { return v == nil })
	comesBack(t, "a nil pointer", (*int)(nil), func(v *int) bool { return v == nil })
	comesBack(t, "a nil pointer in an interface", any((*int)(nil)), func(v any) bool {
		return v != nil && v == any((*int)(nil))
	})
	comesBack(t, "an interface's value", fmt.Stringer(Closed), func(v fmt.Stringer) bool {
		return v == fmt.Stringer(Closed)
	})
	comesBack(t, "a nil slice", []byte(nil), func(v []byte) bool { return v == nil })
	comesBack(t, "a struct of no size", struct{}{}, func(struct{}) bool { return true })
}

func comesBack[V any](t *testing.T, what string, v V, is func(V) bool) {
	t.Helper()
	var o Of[string, V]
	defer o.Close()
	started, release := chans()
	leader := o.DoChan(always, "key", held(v, started, release))
	begun(t, started)
	joiner := o.DoChan(always, "key", typed(v))
	close(release)
	for _, ch := range []<-chan ResultOf[V]{leader, joiner} {
		if got := receiveGot(t, ch); !is(got.Val) || got.Err != nil || got.Joiners != 1 {
			t.Error(what, got)
		}
	}
}

type keyOfValue struct{}

// With a context that can never end, the function runs in the caller's goroutine, with that
// context; else in one of its own.
func TestOfGoroutines(t *testing.T) {
	var o Of[string, string]
	defer o.Close()
	forever := context.WithValue(always, keyOfValue{}, "ada")
	ends, cancel := context.WithCancel(forever)
	defer cancel()
	for _, ctx := range []context.Context{forever, ends} {
		got, err := o.Do(ctx, "key", func(own context.Context) (string, error) {
			if own.Value(keyOfValue{}) != "ada" {
				t.Error("the values of the context")
			}
			return goroutine(), nil
		})
		if same := got.Val == goroutine(); same != (ctx.Done() == nil) || err != nil {
			t.Error("the function's goroutine", same, err)
		}
		of := receiveGot(t, o.DoChan(ctx, "key", func(own context.Context) (string, error) {
			v, _ := own.Value(keyOfValue{}).(string)
			return v, nil
		}))
		if of.Val != "ada" || of.Err != nil {
			t.Error("the values of DoChan's context", of)
		}
	}
}

func TestOfDeadlines(t *testing.T) {
	var o Of[string, int]
	defer o.Close()
	ended, cancel := context.WithCancel(always)
	cancel()
	none := func(context.Context) (int, error) { t.Error("it runs nothing"); return 1, nil }
	canceled := ResultOf[int]{Err: context.Canceled}
	if got, err := o.Do(ended, "key", none); got != canceled || err != context.Canceled {
		t.Error("a context that has ended", got, err)
	}
	if got := receiveGot(t, o.DoChan(ended, "key", none)); got != canceled {
		t.Error("a context that has ended", got)
	}
	for _, chans := range []bool{false, true} {
		ctx := newDeadline(always)
		load := func(own context.Context) (int, error) { ctx.pass(); <-own.Done(); return 0, own.Err() }
		var got ResultOf[int]
		var err error
		if chans {
			got = receiveGot(t, o.DoChan(ctx, "key", load))
			err = got.Err
		} else {
			within(t, patience, "a deadline", func() { got, err = o.Do(ctx, "key", load) })
		}
		late := ResultOf[int]{Err: context.DeadlineExceeded}
		if got != late || err != context.DeadlineExceeded {
			t.Error("a deadline", chans, got, err)
		}
		// The next leads.
		until(t, "its load ends", func() bool { return o.InFlight() == 0 })
	}
	// One that joins, and has a deadline.
	started, release := chans()
	leader := o.DoChan(always, "other", held(2, started, release))
	begun(t, started)
	ctx, left := newDeadline(always), make(chan ResultOf[int])
	go func() { got, _ := o.Do(ctx, "other", none); left <- got }()
	until(t, "it joins", func() bool { return o.Stats().Joins == 1 })
	ctx.pass()
	if got := came(t, left); got.Err != context.DeadlineExceeded || got.Val != 0 {
		t.Error("who joins leaves", got)
	}
	close(release)
	if got := receiveGot(t, leader); got.Val != 2 || !got.Shared || got.Joiners != 0 {
		t.Error("who has left is not counted, and it was shared", got)
	}
	until(t, "nothing is left", func() bool { return o.Stats().InUse == 0 && o.InFlight() == 0 })
}

// A Do of an Of allocates no more than one of a Group, but for the box of a value that is no
// pointer.
func TestOfBoxes(t *testing.T) {
	if isRaceDetected {
		t.Skip("the race detector allocates")
	}
	var g Group
	defer g.Close()
	value := new(int)
	boxed := any(value)
	load := func() (any, error) { return boxed, nil }
	plain := allocations(func() { g.Do("key", load) })
	var pointers Of[string, *int]
	defer pointers.Close()
	pointer := typed(value)
	if n := allocations(func() { pointers.Do(always, "key", pointer) }); n > plain {
		t.Error("a pointer is boxed", n, plain)
	}
	var anys Of[string, any]
	defer anys.Close()
	ready := typed(boxed)
	if n := allocations(func() { anys.Do(always, "key", ready) }); n > plain {
		t.Error("a value of an interface is boxed", n, plain)
	}
	var numbers Of[string, int]
	defer numbers.Close()
	number := typed(1000)
	if n := allocations(func() { numbers.Do(always, "key", number) }); n > plain+1 {
		t.Error("a number is boxed once", n, plain)
	}
}

// Panics and the end of a goroutine go on in everyone, by Do in the leader's goroutine and in
// another.
func TestOfPanics(t *testing.T) {
	failed := errors.New("failed")
	for _, ends := range []bool{false, true} {
		o, err := New[string, int](WithLoads(4), WithName("panics"))
		if err != nil || o.Name() != "panics" {
			t.Fatal(err, o.Name())
		}
		ctx := always
		if ends {
			own, cancel := context.WithCancel(always)
			defer cancel()
			ctx = own
		}
		started, release := chans()
		recovered := make(chan any, 2)
		ask := func(fn func(context.Context) (int, error)) {
			defer func() { recovered <- recover() }()
			o.Do(ctx, "key", fn)
		}
		go ask(func(context.Context) (int, error) { close(started); <-release; panic(failed) })
		begun(t, started)
		go ask(typed(1))
		until(t, "another waits", func() bool { return waiting(o) >= 1 && o.Stats().Joins == 1 })
		close(release)
		for i := 0; i < 2; i++ {
			if err, ok := came(t, recovered).(error); !ok || !errors.Is(err, failed) {
				t.Error("the panic", ends, err)
			}
		}
		o.Close()
	}
	if _, err := New[string, int](WithLoads(0)); !errors.Is(err, ErrSize) {
		t.Error("a size out of range", err)
	}
}

// Everyone of a call is told the same number of joiners.
func TestJoiners(t *testing.T) {
	for _, callers := range []uint32{16, 1} {
		g := open(t, callers)
		started, release := chans()
		all := []<-chan Result{g.DoChan("key", heldAny(1, started, release))}
		begun(t, started)
		for i := 0; i < 5; i++ {
			all = append(all, g.DoChan("key", value(2)))
		}
		ctx, cancel := context.WithCancel(always)
		gone := make(chan error)
		go func() {
			_, err, _ := doContext(ctx, g, "key", loadOf(3))
			gone <- err
		}()
		until(t, "one more joins", func() bool { return g.Stats().Joins == 6 })
		cancel()
		came(t, gone)
		close(release)
		for i, ch := range all {
			if r := receive(t, ch); r.Val != 1 || !r.Shared || r.Joiners != 5 {
				t.Error("joiners", callers, i, r)
			}
		}
		// By whichever caller, also the one that led.
		for i := 0; i < 100; i++ {
			if r := receive(t, g.DoChan("key", value(4))); r.Shared || r.Joiners != 0 {
				t.Fatal("one alone", callers, r)
			}
		}
	}
}

// A caller of another key of the slot is not among the joiners.
func TestStrangersAreNoJoiners(t *testing.T) {
	g := openFew(t)
	started, release := chans()
	leader := g.DoChan("key", heldAny(1, started, release))
	begun(t, started)
	for i := 0; i < 3; i++ {
		r := receive(t, g.DoChan(fmt.Sprint("other-", i), value(2)))
		if r.Shared || r.Joiners != 0 {
			t.Error("a call of its own", r)
		}
	}
	joiner := g.DoChan("key", value(3))
	close(release)
	for _, ch := range []<-chan Result{leader, joiner} {
		if r := receive(t, ch); r.Val != 1 || r.Joiners != 1 {
			t.Error("joiners", r)
		}
	}
}

// Many who ask at one time: everyone of a call has the same number, and that is how many have its
// result.
func TestJoinersOfManyCalls(t *testing.T) {
	g := open(t, 64)
	type run struct{ got, told atomic.Int64 }
	var mu sync.Mutex
	var runs []*run
	var all sync.WaitGroup
	for i := 0; i < 8; i++ {
		all.Add(1)
		go func() {
			defer all.Done()
			for n := 0; n < 500; n++ {
				load := func() (any, error) {
					it := &run{}
					it.told.Store(-1)
					mu.Lock()
					runs = append(runs, it)
					mu.Unlock()
					runtime.Gosched()
					return it, nil
				}
				a := asking{key: "key"}
				p := g.core()
				if p.asks(&a); a.leads || !p.hasJoined(&a) {
					p.lead(&a, load)
				}
				r := &a.got
				it := r.Val.(*run)
				it.got.Add(1)
				told := it.told.Swap(int64(r.Joiners))
				if told >= 0 && told != int64(r.Joiners) || r.Shared != (r.Joiners > 0) {
					t.Error("two numbers of one call", told, r)
				}
			}
		}()
	}
	within(t, 5*patience, "Do", all.Wait)
	joined := 0
	for _, it := range runs {
		if it.got.Load() != it.told.Load()+1 {
			t.Error("how many have the result", it.got.Load(), it.told.Load())
		}
		joined += int(it.told.Load())
	}
	t.Log(len(runs), "runs,", joined, "joined")
}
