package peers

import (
	"context"
	"errors"
	"flag"
	"fmt"
	"net/http"
	"net/http/httptest"
	"sync"
	"sync/atomic"
	"testing"
	"time"
)

// hold makes the requests of a to b wait until the function that it returns is called. The first of
// them closes the channel.
func hold(m *mesh, b *node) (release func(), held chan struct{}) {
	free, held := make(chan struct{}), make(chan struct{})
	var once sync.Once
	m.mu.Lock()
	m.routes["a>"+b.self] = func(request []byte) []byte {
		once.Do(func() { close(held) })
		<-free
		return b.answer(request)
	}
	m.mu.Unlock()
	return func() {
		m.mu.Lock()
		delete(m.routes, "a>"+b.self)
		m.mu.Unlock()
		close(free)
	}, held
}

// A batch whose callers have all gone before it began takes no more of them: it ends at once, and they would have no answer.
func TestABatchThatNobodyWaitsFor(t *testing.T) {
	m := newMesh()
	a, b, c := beginAll(t, m, time.Minute)
	release, held := hold(m, b)
	first := make(chan error, 1)
	go func() { first <- forget(a, keyItem("users", "0")) }()
	<-held
	a.outbox.mu.Lock()
	a.outbox.busy = true // as while the first is not slow yet
	a.outbox.mu.Unlock()
	ctx, cancel := context.WithCancel(context.Background())
	cancel()
	gone, stays := a.join([]item{keyItem("users", "1")}), keyItem("users", "2")
	if err := a.waitFor(ctx, gone, "Forget"); err != context.Canceled {
		t.Errorf("one who has gone: %v", err)
	}
	second := make(chan error, 1)
	go func() { second <- forget(a, stays) }()
	until(t, func() bool {
		a.outbox.mu.Lock()
		defer a.outbox.mu.Unlock()
		last := len(a.outbox.waiting) - 1
		return last >= 0 && a.outbox.waiting[last].callers == 1 && a.outbox.waiting[last].ctx.Err() == nil
	}, "it waits for a batch that has ended")
	release()
	if err := <-first; err != nil {
		t.Errorf("the first: %v", err)
	}
	if err := <-second; err != nil || !has(c, a, stays) {
		t.Errorf("one who came after: %v", err)
	}
}

// What is forgotten while a Forget is under way goes to each peer in one request.
func TestForgetsGoTogether(t *testing.T) {
	m := newMesh()
	a, b, c := beginAll(t, m, time.Minute)
	release, held := hold(m, b)
	var all sync.WaitGroup
	forgetOne := func(i int) {
		all.Add(1)
		go func() {
			defer all.Done()
			ctx, cancel := context.WithTimeout(context.Background(), 2*time.Minute)
			defer cancel()
			if err := a.forget(ctx, "Forget", keyItem("users", fmt.Sprint(i))); err != nil {
				t.Error(err)
			}
		}()
	}
	forgetOne(0)
	until(t, func() bool { return has(c, a, keyItem("users", "0")) }, "the first does not begin")
	<-held
	m.mu.Lock()
	m.calls = 0
	m.mu.Unlock()
	const many = 200
	for i := 1; i <= many; i++ {
		forgetOne(i % (many / 2))
	}
	until(t, func() bool {
		m.mu.Lock()
		calls := m.calls
		m.mu.Unlock()
		a.outbox.mu.Lock()
		defer a.outbox.mu.Unlock()
		return len(a.outbox.waiting) == 1 && a.outbox.waiting[0].callers == many || calls > 2
	}, "they do not come together")
	release()
	all.Wait()
	m.mu.Lock()
	calls := m.calls
	m.mu.Unlock()
	if calls > 20 { // more than 2 where this machine is slow
		t.Errorf("%d requests to 2 peers for %d Forgets that came while another was under way", calls, many)
	}
	for i := 0; i < many/2; i++ {
		if of := keyItem("users", fmt.Sprint(i)); !has(b, a, of) && i > 0 || !has(c, a, of) && i > 0 {
			t.Fatalf("%d is not forgotten", i)
		}
	}
}

// More than one request may have goes into several.
func TestManyForgetsGoInSeveral(t *testing.T) {
	m := newMesh()
	a, b, c := beginAll(t, m, time.Minute)
	release, _ := hold(m, b)
	cache := newCache("users", a, nil)
	var all sync.WaitGroup
	for i := 0; i < 5; i++ {
		i := i
		all.Add(1)
		go func() {
			defer all.Done()
			keys := make([]string, MostForgets-i)
			for k := range keys {
				keys[k] = fmt.Sprint(i, " ", k)
			}
			ctx, cancel := context.WithTimeout(context.Background(), 2*time.Minute)
			defer cancel()
			if err := cache.ForgetMany(ctx, keys...); err != nil {
				t.Error(err)
			}
		}()
	}
	release()
	all.Wait()
	for i := 0; i < 5; i++ {
		if of := keyItem("users", fmt.Sprint(i, " ", MostForgets-i-1)); versionOf(b.versions, of) != versionOf(a.versions, of) ||
			versionOf(c.versions, of) == versionOf(c.versions, user) {
			t.Errorf("the keys of %d are not forgotten", i)
		}
	}
}

// A peer that does not answer does not keep a Forget from the others, and each caller gives up by its
// own deadline.
func TestASilentPeerHoldsNoForgetUp(t *testing.T) {
	m := newMesh()
	a, b, c := beginAll(t, m, time.Minute)
	release, _ := hold(m, b)
	var all sync.WaitGroup
	for i := 0; i < 3; i++ {
		within := time.Duration(i+1) * time.Second
		of := keyItem("users", fmt.Sprint(i))
		all.Add(1)
		go func() {
			defer all.Done()
			ctx, cancel := context.WithTimeout(context.Background(), within)
			defer cancel()
			begun := time.Now()
			var unanswered *Unanswered
			if err := a.forget(ctx, "Forget", of); !errors.As(err, &unanswered) || len(unanswered.Peers) != 1 || unanswered.Peers[0].Peer != "b" {
				t.Errorf("while b is silent: %v", err)
			}
			if took := time.Since(begun); took < within || took > within+10*time.Second {
				t.Errorf("it takes %v, within %v", took, within)
			}
		}()
		until(t, func() bool {
			return versionOf(c.versions, of) == versionOf(a.versions, of) && versionOf(c.versions, of) != versionOf(c.versions, user)
		},
			"another peer does not hear of it")
	}
	all.Wait()
	ended, cancel := context.WithCancel(context.Background())
	cancel()
	a.outbox.mu.Lock()
	a.outbox.busy = true // another has just begun
	a.outbox.mu.Unlock()
	if err := a.forget(ended, "Forget", user); err != context.Canceled {
		t.Errorf("one that has not begun: %v", err)
	}
	a.outbox.mu.Lock()
	a.outbox.busy = false
	a.nextBatch()
	a.outbox.mu.Unlock()
	release()
	until(t, func() bool { return forget(a, user) == nil }, "it does not forget once b answers")
}

var many = flag.Duration("many", 0, "how long TestForgetsOfManyPeers takes for each figure")

// Forgets per second in a pool of many peers over HTTP, all in this process.
func TestForgetsOfManyPeers(t *testing.T) {
	if *many == 0 {
		t.Skip("a figure, with -many 5s")
	}
	for _, count := range []int{3, 17} {
		nodes := httpPool(t, count, time.Second)
		for _, c := range []struct {
			name               string
			at, callers, items int
		}{
			{"one caller", 1, 1, 1},
			{"64 callers at one peer", 1, 64, 1},
			{"64 callers at all peers", count, 64, 1},
			{"64 callers at one peer, 16 keys each", 1, 64, 16},
			{"64 callers at all peers, 16 keys each", count, 64, 16},
		} {
			var done, failed atomic.Int64
			var all sync.WaitGroup
			end := time.Now().Add(*many)
			for i := 0; i < c.callers; i++ {
				i := i
				all.Add(1)
				go func() {
					defer all.Done()
					for k := 0; time.Now().Before(end); k++ {
						items := make([]item, c.items)
						for j := range items {
							items[j] = keyItem("users", fmt.Sprint(i, " ", (k*c.items+j)%100))
						}
						if err := forget(nodes[i%c.at], items...); err == nil {
							done.Add(1)
						} else {
							failed.Add(1)
						}
					}
				}()
			}
			all.Wait()
			t.Logf("%d peers, %s: %.0f Forgets per second, %.0f items, %d failed", count, c.name, float64(done.Load())/many.Seconds(),
				float64(done.Load()*int64(c.items))/many.Seconds(), failed.Load())
		}
	}
}

// httpPool makes so many nodes that reach each other over HTTP.
func httpPool(t testing.TB, count int, every time.Duration) (nodes []*node) {
	var servers []*httptest.Server
	var list []string
	for i := 0; i < count; i++ {
		server := httptest.NewUnstartedServer(nil)
		list = append(list, "http://"+server.Listener.Addr().String())
		servers = append(servers, server)
		t.Cleanup(server.Close)
	}
	for i, server := range servers {
		by := &HTTP{Client: &http.Client{Transport: connections(nil)}}
		n, err := newNode(config{self: list[i], most: mostForgotten, timeout: 2 * time.Second, every: every, transport: by,
			coordinator: NewStatic(list...), keys: testKeys})
		if err != nil {
			t.Fatal(err)
		}
		server.Config.Handler = by
		server.Start()
		nodes = append(nodes, n)
	}
	for _, n := range nodes {
		go n.run()
		t.Cleanup(n.close)
	}
	for _, n := range nodes {
		await(t, n.session.Load().ready, "a peer does not begin")
	}
	time.Sleep(time.Second)
	return nodes
}
