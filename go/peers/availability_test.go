package peers

import (
	"context"
	"errors"
	"fmt"
	"net"
	"net/http"
	"net/http/httptest"
	"sync"
	"sync/atomic"
	"testing"
	"time"
)

// A round of askings that waits for a paused peer takes a timeout. The next one begins a tick later,
// and takes as long; until it ends, the last one is that old. Gets go on meanwhile.
func TestAPausedPeerDoesNotStallGets(t *testing.T) {
	m := newMesh()
	a, _, _ := beginAll(t, m, time.Minute)
	calls := m.calls
	a.session.Load().asked.Store(askedAt(time.Now().Add(-2*a.timeout - a.every)))
	if err := a.wait(context.Background()); err != nil || m.calls != calls {
		t.Errorf("a Get asks first: %v", err)
	}
	for _, c := range []config{{timeout: longest, every: shortest}, {timeout: shortest, every: longest}, {timeout: time.Second, every: time.Second}} {
		n := &node{config: c}
		if most, round := n.awayAfter(), 2*c.timeout; most <= round+c.every {
			t.Errorf("with %v and %v it is away after %v, and a round may take %v", c.timeout, c.every, most, round)
		}
	}
}

func TestForgetManyInOneRound(t *testing.T) {
	m := newMesh()
	a, b, c := beginAll(t, m, time.Minute)
	cache := newCache("users", a, nil)
	var many []string
	for i := 0; i < MostForgets; i++ {
		many = append(many, fmt.Sprint("k", i))
	}
	calls := m.calls
	ctx, cancel := context.WithTimeout(context.Background(), 2*time.Minute)
	defer cancel()
	if err := cache.ForgetMany(ctx, many...); err != nil {
		t.Fatal(err)
	}
	if m.calls < calls+2 || m.calls > calls+20 { // more than 2 where this machine is slow
		t.Errorf("%d messages to 2 peers", m.calls-calls)
	}
	for _, key := range many {
		if of := keyItem("users", key); !has(b, a, of) || !has(c, a, of) {
			t.Fatalf("%s is not forgotten", key)
		}
	}
	if has(b, a, user) {
		t.Error("another key is forgotten")
	}
	if err := cache.ForgetMany(context.Background(), append(many, "one more")...); err == nil {
		t.Error("there may be one more")
	}
	if err := cache.ForgetMany(context.Background()); err != nil {
		t.Errorf("of no key: %v", err)
	}
	if err := cache.ForgetMany(context.Background(), "1", string(make([]byte, MostKeyBytes+1))); err != ErrKeyTooLong {
		t.Errorf("of a long key: %v", err)
	}
	long := make([]string, MostForgetBytes/MostKeyBytes+1)
	for i := range long {
		long[i] = fmt.Sprint(string(make([]byte, MostKeyBytes-4)), 1000+i)
	}
	if err := cache.ForgetMany(ctx, long[1:]...); err != nil {
		t.Errorf("of the most bytes: %v", err)
	}
	if err := cache.ForgetMany(context.Background(), long...); err == nil {
		t.Error("there may be too many bytes")
	}
}

func TestForgetAll(t *testing.T) {
	m := newMesh()
	a, b, c := beginAll(t, m, time.Minute)
	users, pages := newCache("users", a, nil), newCache("pages", a, nil)
	of := keyItem("pages", "7")
	before := map[string]bool{versionOf(b.versions, of): true}
	if err := pages.ForgetAll(context.Background()); err != nil {
		t.Fatal(err)
	}
	isFresh(t, of, before, a, b, c)
	if !has(b, a, of) || has(b, a, user) {
		t.Error("it is not all keys of the cache that are forgotten")
	}
	pool := &Pool{node: a}
	if err := pool.ForgetAll(context.Background()); err != nil {
		t.Fatal(err)
	}
	if !has(b, a, user) || !has(c, a, of) {
		t.Error("a key is not forgotten")
	}
	// A peer that begins learns of it, too.
	if err := users.ForgetAll(context.Background()); err != nil {
		t.Fatal(err)
	}
	c = begin(t, m, "c", time.Minute)
	if !has(c, a, user) {
		t.Error("a peer that begins does not learn of it")
	}
}

// A value gets no older than the TTL: its name is another one then. Keys change theirs at different
// times.
func TestTTL(t *testing.T) {
	n := start(t, newMesh(), "a", time.Minute, "a")
	await(t, n.session.Load().ready, "it does not begin")
	c := newCache("users", n, nil)
	first, other := c.nameOf("7"), c.slotOf("8")
	if c.ttl = time.Second; WithTTL(time.Second)(c) != nil || WithTTL(time.Second-1)(c) == nil || WithTTL(1001*time.Hour)(c) == nil {
		t.Error("a TTL is 1 s to 1,000 h")
	}
	name := c.nameOf("7")
	if name == first || other != 0 {
		t.Error("with a TTL the name is that without one")
	}
	until(t, func() bool { return c.nameOf("7") != name }, "the name does not change")
	begun, changes := time.Now(), 0
	for ; changes < 3; changes++ {
		name = c.nameOf("7")
		until(t, func() bool { return c.nameOf("7") != name }, "the name does not change")
	}
	// The first of these may have come a whole second after the one before it was seen.
	if took := time.Since(begun); took < time.Second {
		t.Errorf("the name has changed %d times within %v", changes, took)
	}
	slots := map[uint32]bool{}
	for i := 0; i < 100; i++ {
		slots[c.slotOf(fmt.Sprint(i))] = true
	}
	if len(slots) < 2 {
		t.Error("all keys change their names at one time")
	}
}

// A peer that leaves has the others learn what it alone knows, and they do not wait for it any
// more; its next process comes back.
func TestLeave(t *testing.T) {
	m := newMesh()
	a, b, c := beginAll(t, m, time.Minute)
	for _, n := range []string{"a", "b"} {
		m.setCut(n, true)
	}
	if err := forget(c, user); err == nil {
		t.Fatal("a Forget that nobody heard returns nil")
	}
	for _, n := range []string{"a", "b"} {
		m.setCut(n, false)
	}
	pool := &Pool{node: c}
	cache := newCache("users", c, nil)
	cache.gate = &pool.gate
	// Those that run are waited for.
	if !pool.gate.enter(3) || !pool.values.enter(0) {
		t.Fatal("the gate is closed")
	}
	left := make(chan error)
	go func() {
		ctx, cancel := context.WithTimeout(context.Background(), 2*time.Minute)
		defer cancel()
		left <- pool.Leave(ctx)
	}()
	until(t, pool.gate.isClosed, "it does not leave")
	if err := cache.Get(context.Background(), "7", nil); err != ErrClosed {
		t.Errorf("a Get while it leaves: %v", err)
	}
	if err := cache.Forget(context.Background(), "7"); err != ErrClosed {
		t.Errorf("a Forget while it leaves: %v", err)
	}
	if err := pool.Ready(context.Background()); err != ErrClosed {
		t.Errorf("it is ready while it leaves: %v", err)
	}
	time.Sleep(20 * time.Millisecond)
	if !a.knows("c") {
		t.Error("it leaves while a Get runs")
	}
	pool.gate.leave(3)
	until(t, func() bool { return !a.knows("c") && !b.knows("c") }, "the others have it on their lists")
	if c.isClosed.Load() {
		t.Error("it is closed while another peer's request runs")
	}
	pool.values.leave(0)
	select {
	case err := <-left:
		if err != nil {
			t.Error(err)
		}
	case <-time.After(2 * time.Minute):
		t.Fatal("it does not leave")
	}
	if !has(a, c, user) || !has(b, c, user) {
		t.Error("what it alone knew is lost")
	}
	m.mu.Lock()
	delete(m.answer, "c")
	m.mu.Unlock()
	if err := acknowledged(a, user); err != nil {
		t.Errorf("a Forget after it has left: %v", err)
	}
	if err := pool.Leave(context.Background()); err != nil {
		t.Errorf("again: %v", err)
	}
	c = begin(t, m, "c", time.Minute)
	if err := c.wait(context.Background()); err != nil || !has(c, a, user) {
		t.Errorf("its next process: %v", err)
	}
	if err := acknowledged(b, user); err != nil || !has(c, b, user) {
		t.Errorf("a Forget after it is back: %v", err)
	}
	// One that cannot tell all says so.
	m.setCut("b", true)
	var unanswered *Unanswered
	if err := (&Pool{node: c}).Leave(context.Background()); !errors.As(err, &unanswered) || unanswered.Peers[0].Peer != "b" {
		t.Errorf("with b cut off: %v", err)
	}
	if !c.isClosed.Load() {
		t.Error("it is not closed")
	}
}

// With leases, its own ends at once, and it does not join again while it waits for the requests of
// others.
func TestLeaveWithALease(t *testing.T) {
	m, by := newMesh(), newAgreed()
	a, b, c := joinAll(t, m, by, time.Minute)
	members := func() int {
		by.mu.Lock()
		defer by.mu.Unlock()
		return len(by.members)
	}
	pool := &Pool{node: c}
	if !pool.values.enter(0) {
		t.Fatal("the gate is closed")
	}
	left := make(chan error)
	go func() {
		ctx, cancel := context.WithTimeout(context.Background(), 2*time.Minute)
		defer cancel()
		left <- pool.Leave(ctx)
	}()
	until(t, func() bool { return members() == 2 }, "it is a member yet")
	m.setCut("c", true)
	if err := acknowledged(a, user); err != nil || !has(b, a, user) {
		t.Errorf("a Forget after it has left: %v", err)
	}
	time.Sleep(3 * retry)
	if members() != 2 {
		t.Error("it has joined again")
	}
	pool.values.leave(0)
	if err := <-left; err != nil {
		t.Error(err)
	}
	// One that has to join again ends its lease, so that it need not wait for that.
	old := b.session.Load()
	b.contest(old, number{})
	await(t, b.session.Load().ready, "it does not join again")
	if start := b.versions.startOf("b"); start <= old.m.Start() {
		t.Errorf("its start is %d, after %d", start, old.m.Start())
	}
}

func TestGate(t *testing.T) {
	var g gate
	if !g.enter(20) || g.isClosed() {
		t.Fatal("it is closed")
	}
	g.close()
	g.close()
	ctx, cancel := context.WithTimeout(context.Background(), 10*time.Millisecond)
	defer cancel()
	if err := g.drain(ctx); err != context.DeadlineExceeded || g.enter(20) || g.enter(1) || !g.isClosed() {
		t.Errorf("while a call runs: %v", err)
	}
	g.leave(20)
	if err := g.drain(context.Background()); err != nil {
		t.Error(err)
	}
}

func TestDetached(t *testing.T) {
	type name struct{}
	ctx, cancel := context.WithTimeout(context.WithValue(context.Background(), name{}, 7), time.Hour)
	cancel()
	d := detached{ctx}
	if _, limited := d.Deadline(); limited || d.Err() != nil || d.Done() != nil || d.Value(name{}) != 7 {
		t.Error("it ends, or has no values")
	}
}

// A peer whose own address does not answer any more gives its lease up, and joins again once it does.
func TestAPeerThatNobodyReaches(t *testing.T) {
	m, by := newMesh(), newAgreed()
	a, b, c := joinAll(t, m, by, 20*time.Millisecond)
	isMember := func() bool {
		by.mu.Lock()
		defer by.mu.Unlock()
		_, there := by.members["c"]
		return there
	}
	time.Sleep(2*c.awayAfter() + 100*time.Millisecond)
	if !isMember() {
		t.Fatal("it has no lease while its address answers")
	}
	m.mu.Lock()
	for _, from := range []string{"a", "b", "c"} {
		m.routes[from+">c"] = func([]byte) []byte { return nil }
	}
	m.mu.Unlock()
	until(t, func() bool { return !isMember() }, "it keeps its lease while nobody reaches it")
	if err := acknowledged(a, user); err != nil || !has(b, a, user) {
		t.Errorf("a Forget while nobody reaches c: %v", err)
	}
	ctx, cancel := context.WithTimeout(context.Background(), 50*time.Millisecond)
	if err := c.wait(ctx); err == nil {
		t.Error("it serves without a lease")
	}
	cancel()
	time.Sleep(5 * retry)
	if isMember() {
		t.Error("it joins while nobody reaches it")
	}
	m.mu.Lock()
	m.routes = map[string]func([]byte) []byte{}
	m.mu.Unlock()
	until(t, isMember, "it does not join again")
	await(t, c.session.Load().ready, "it does not serve again")
	if !has(c, a, user) {
		t.Error("it does not know what it missed")
	}
	// An address that never answered from here may be one that only others reach.
	m.mu.Lock()
	m.routes["d>d"] = func([]byte) []byte { return nil }
	m.mu.Unlock()
	d := joins(t, m, by, "d", 20*time.Millisecond)
	await(t, d.session.Load().ready, "it does not serve")
	session := d.session.Load()
	time.Sleep(2*d.awayAfter() + 100*time.Millisecond)
	if d.session.Load() != session {
		t.Error("it gives up a lease where its own address never answered")
	}
}

// An owner that was silent for two rounds of askings costs one request at a time.
func TestAnOwnerThatIsSilent(t *testing.T) {
	m := newMesh()
	a, b, _ := beginAll(t, m, time.Minute)
	stall := make(chan struct{})
	var released sync.Once
	release := func() { released.Do(func() { close(stall) }) }
	var stalls, asked atomic.Int64
	server := httptest.NewServer(http.HandlerFunc(func(w http.ResponseWriter, r *http.Request) {
		asked.Add(1)
		if stalls.Load() > 0 {
			<-stall
		}
		w.Header().Set(signHeader, a.keys.sign(time.Now(), []byte(signOwner), []byte(r.Header.Get(signHeader)), []byte("200"), []byte("x")))
		w.Write([]byte("x"))
	}))
	defer server.Close()
	defer release() // or Close would wait for what stalls
	// The owner has the address of the server here.
	name := server.URL
	m.mu.Lock()
	m.answer[name] = b.answer
	m.mu.Unlock()
	ask := func(within time.Duration) error {
		r, _ := http.NewRequest("GET", server.URL+enginePath+"values/x", nil)
		_, err := owner{connections(nil), within, a}.RoundTrip(r)
		return err
	}
	asks := func() { a.askAll(context.Background(), a.session.Load()) }
	setList(a, "a", "b", "c", name)
	if err := ask(time.Minute); err != nil {
		t.Fatal(err)
	}
	m.setCut(name, true)
	stalls.Store(1)
	for round := 0; round < mostSilent; round++ {
		before := asked.Load()
		for i := 0; i < 2; i++ {
			if err := ask(time.Second); err == nil || err == errSilent {
				t.Errorf("after %d rounds: %v", round, err)
			}
		}
		if asked.Load() != before+2 {
			t.Errorf("after %d rounds it is not asked", round)
		}
		asks()
	}
	before := asked.Load()
	looks := make(chan error, 1)
	go func() { looks <- ask(time.Minute) }()
	until(t, func() bool { return asked.Load() == before+1 }, "nobody looks whether it answers again")
	for i := 0; i < 100; i++ {
		begun := time.Now()
		if err := ask(time.Minute); err != errSilent || time.Since(begun) > 30*time.Second {
			t.Fatalf("a request takes %v while another looks: %v", time.Since(begun), err)
		}
	}
	stalls.Store(0)
	release()
	if err := <-looks; err != nil {
		t.Errorf("the one that looks: %v", err)
	}
	for i := 0; i < 10; i++ {
		if err := ask(time.Minute); err != nil {
			t.Errorf("once it answers: %v", err)
		}
	}
	// A peer that is silent again is skipped no more once an asking finds that it answers.
	asks()
	asks()
	if may, end := a.figures.mayAsk(name); !may {
		t.Error("nobody may look")
	} else if may, _ := a.figures.mayAsk(name); may {
		t.Error("two look")
	} else {
		end()
	}
	m.setCut(name, false)
	a.figures.asked(name, true)
	for i := 0; i < 2; i++ {
		if may, _ := a.figures.mayAsk(name); !may {
			t.Error("it is skipped once it answers")
		}
	}
}

// A Probe has a connection of its own.
func TestProbe(t *testing.T) {
	h := &HTTP{Client: &http.Client{Transport: connections(nil)}}
	h.Serve("", func(request []byte) []byte { return request })
	var made atomic.Int64
	server := httptest.NewUnstartedServer(h)
	server.Config.ConnState = func(_ net.Conn, state http.ConnState) {
		if state == http.StateNew {
			made.Add(1)
		}
	}
	server.Start()
	defer server.Close()
	for i := 0; i < 5; i++ {
		if got, err := h.Call(context.Background(), server.URL, []byte("x")); err != nil || string(got) != "x" {
			t.Fatalf("%q, %v", got, err)
		}
	}
	before := made.Load()
	for i := 0; i < 5; i++ {
		if got, err := h.Probe(context.Background(), server.URL, []byte("x")); err != nil || string(got) != "x" {
			t.Fatalf("%q, %v", got, err)
		}
	}
	if before != 1 || made.Load() != before+5 {
		t.Errorf("%d connections of 5 calls, %d of 5 probes", before, made.Load()-before)
	}
	server.Listener.Close()
	if _, err := h.Probe(context.Background(), server.URL, []byte("x")); err == nil {
		t.Error("a probe comes to one that takes no connection any more")
	}
}
