package peers

import (
	"context"
	"fmt"
	"sync"
	"testing"
	"time"
)

// What is kept is bounded, however long two live peers cannot reach each other, and costs a third one
// nothing.
func TestKeptForgetsAreBounded(t *testing.T) {
	m, by := newMesh(), newAgreed()
	a, b, c := joinAll(t, m, by, time.Minute)
	m.mu.Lock()
	m.routes["a>c"] = func([]byte) []byte { return nil }
	m.mu.Unlock()
	keptNow := func() int {
		by.mu.Lock()
		defer by.mu.Unlock()
		return len(by.kept)
	}
	forgetMany := func(callers, each int, of func(caller, i int) item) {
		var all sync.WaitGroup
		for caller := 0; caller < callers; caller++ {
			caller := caller
			all.Add(1)
			go func() {
				defer all.Done()
				for i := 0; i < each; i++ {
					ctx, cancel := context.WithTimeout(context.Background(), 20*time.Millisecond)
					if err := a.forget(ctx, "Forget", of(caller, i)); err == nil {
						t.Error("a Forget that c has not heard returns nil")
					}
					cancel()
				}
			}()
		}
		all.Wait()
	}
	// Callers repeat a Forget until it returns nil: one entry for each.
	_, _, begun := b.versions.counts() // b may have begun before another served, and then forgot all
	forgetMany(10, 20, func(caller, _ int) item { return keyItem("users", fmt.Sprint("again ", caller)) })
	if got := keptNow(); got < 1 || got > 10 {
		t.Errorf("%d are kept of 10 items", got)
	}
	if _, _, alls := b.versions.counts(); alls != begun {
		t.Error("all are forgotten")
	}
	other := versionOf(b.versions, user)
	for i := 0; i < 3; i++ {
		a.finish(context.Background(), a.session.Load())
	}
	renamed := b.versions.renamed.Load()
	for i := 0; i < 3; i++ {
		a.finish(context.Background(), a.session.Load())
	}
	if now := b.versions.renamed.Load(); now != renamed {
		t.Errorf("%d names of b have changed while a tries again", now-renamed)
	}
	if versionOf(b.versions, user) != other {
		t.Error("another key is forgotten")
	}
	// More items than may be kept: all keys are forgotten in their place.
	cache := newCache("users", a, nil)
	for i := 0; i < 4; i++ {
		keys := make([]string, MostForgets/2)
		for k := range keys {
			keys[k] = fmt.Sprint("many ", i, " ", k)
		}
		ctx, cancel := context.WithTimeout(context.Background(), 300*time.Millisecond)
		cache.ForgetMany(ctx, keys...)
		cancel()
	}
	count := 0
	by.mu.Lock()
	for id, sealed := range by.kept {
		count += len(b.openKept(id, sealed).Items)
	}
	by.mu.Unlock()
	if count > mostKept+1 {
		t.Errorf("%d items are kept", count)
	}
	until(t, func() bool { b.learnKept(b.session.Load()); return versionOf(b.versions, user) != other }, "not all keys are forgotten")
	// What was read is not read again.
	for i := 0; i < 500; i++ {
		of := keyItem("users", fmt.Sprint("x", i))
		number := a.versions.forget(of)
		a.keep(a.session.Load(), request{Number: &number, Items: []wireItem{wireOf(of)}})
	}
	b.learnKept(b.session.Load())
	if allocs := testing.AllocsPerRun(5, func() { b.learnKept(b.session.Load()) }); allocs > 200 {
		t.Errorf("%v allocations to read 500 Forgets again", allocs)
	}
	// All are finished in a few rounds once c answers.
	m.mu.Lock()
	delete(m.routes, "a>c")
	m.calls = 0
	m.mu.Unlock()
	a.finish(context.Background(), a.session.Load())
	m.mu.Lock()
	calls := m.calls
	m.mu.Unlock()
	if got := keptNow(); got != 0 || calls > 10 {
		t.Errorf("%d are kept after %d requests", got, calls)
	}
	if of := keyItem("users", "x499"); versionOf(c.versions, of) != versionOf(a.versions, of) {
		t.Error("c does not know of the last")
	}
}

// Of a dead peer's Forgets one member forgets again what is kept.
func TestOneFinishesWhatTheDeadKept(t *testing.T) {
	m, by := newMesh(), newAgreed()
	a, b, c := joinAll(t, m, by, time.Minute)
	m.setCut("c", true)
	if err := forget(c, user); err == nil {
		t.Fatal("a Forget that nobody heard returns nil")
	}
	c.close()
	by.expire("c", false)
	for _, n := range []*node{a, b} {
		until(t, func() bool { return !n.knows("c") }, "a peer does not hear that c is dead")
	}
	made := b.versions.last
	b.finish(context.Background(), b.session.Load())
	if by.mu.Lock(); len(by.kept) != 1 || b.versions.last != made {
		t.Errorf("%d are kept, and b forgets them", len(by.kept))
	}
	by.mu.Unlock()
	a.finish(context.Background(), a.session.Load())
	if by.mu.Lock(); len(by.kept) != 0 {
		t.Error("a does not finish it")
	}
	by.mu.Unlock()
	if !has(a, c, user) || !has(b, c, user) {
		t.Error("what c forgot is lost")
	}
}
