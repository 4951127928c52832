package peers

import (
	"context"
	"encoding/json"
	"errors"
	"path/filepath"
	"testing"
	"time"
)

// The names of all peers for a key agree, and none is one of those.
func isFresh(t *testing.T, of item, before map[string]bool, nodes ...*node) {
	t.Helper()
	for _, n := range nodes {
		if before[versionOf(n.versions, of)] {
			t.Errorf("%s has a name from before the Forget", n.self)
		}
	}
}

// A process is restored from a snapshot, and makes numbers that it has made before, which the
// others know. Many at one time, so that its count passes theirs before the first is acknowledged.
func TestAForgetOfAProcessThatWasRestored(t *testing.T) {
	for _, many := range []int{1, 40} {
		m := newMesh()
		a, b, c := beginAll(t, m, time.Minute)
		restored := a.versions.last
		before := map[string]bool{}
		for i := 0; i < 20; i++ {
			if err := acknowledged(a, user); err != nil {
				t.Fatal(err)
			}
			before[versionOf(b.versions, user)] = true
		}
		// The process as it was: its numbers begin again. Its versions are left, as it would learn
		// them when it next asks.
		a.versions.mu.Lock()
		a.versions.last = restored
		for count := restored.Count + 1; count < restored.Count+keptMade/2; count++ {
			a.versions.made[count%keptMade] = number{}
		}
		a.versions.caches, a.versions.keys = map[string]*cacheLevel{}, 0
		a.versions.mu.Unlock()
		all := make(chan error)
		for i := 0; i < many; i++ {
			go func() {
				ctx, cancel := context.WithTimeout(context.Background(), 2*time.Minute)
				defer cancel()
				all <- a.forget(ctx, "Forget", user)
			}()
		}
		for i := 0; i < many; i++ {
			if err := <-all; err != nil {
				t.Error(err)
			}
			isFresh(t, user, before, a, b, c)
		}
		if a.versions.startOf("a") == restored.Start {
			t.Error("it has taken no later start")
		}
	}
}

// A process that was restored begins again although nothing was forgotten afterwards: the others
// notice that it has fewer changes than they know of.
func TestAProcessThatWasRestoredBeginsAgain(t *testing.T) {
	m := newMesh()
	a, b, c := beginAll(t, m, time.Minute)
	for i := 0; i < 5; i++ {
		if err := acknowledged(b, user); err != nil {
			t.Fatal(err)
		}
	}
	round(c) // has all of a's changes
	for name, notice := range map[string]func(){"asked": func() { round(c) }, "that asks": func() { round(a) }} {
		old := a.session.Load()
		a.versions.mu.Lock()
		a.versions.change -= 3
		a.versions.mu.Unlock()
		notice()
		until(t, func() bool { return a.session.Load() != old }, name+": it does not begin again")
		await(t, a.session.Load().ready, "it does not serve again")
		round(c)
	}
}

// A process that is started again counts its changes anew. A peer that asks it for what came after a
// change of the last process is told all of them.
func TestChangesOfAProcessThatIsStartedAgain(t *testing.T) {
	m := newMesh()
	a, b, _ := beginAll(t, m, time.Minute)
	for i := 0; i < 50; i++ {
		if err := acknowledged(b, user); err != nil {
			t.Fatal(err)
		}
	}
	round(a) // has all of b's changes
	b = begin(t, m, "b", time.Minute)
	for _, peer := range []string{"a", "c"} {
		m.setCut(peer, true)
	}
	if err := forget(b, user); err == nil {
		t.Error("a Forget that nobody has heard returns nil")
	}
	for _, peer := range []string{"a", "c"} {
		m.setCut(peer, false)
	}
	if round(a); !has(a, b, user) {
		t.Error("it is not told of a change of the later process")
	}
}

// An address may lead to another peer: an entry of DNS that is out of date, an address that is used
// again.
func TestAnotherPeerDoesNotAcknowledge(t *testing.T) {
	m := newMesh()
	a, b, _ := beginAll(t, m, time.Minute)
	m.mu.Lock()
	right := m.answer["b"]
	m.answer["b"] = m.answer["c"]
	m.mu.Unlock()
	var unanswered *Unanswered
	if err := forget(a, user); !errors.As(err, &unanswered) || unanswered.Peers[0].Peer != "b" {
		t.Errorf("c has acknowledged for b: %v", err)
	}
	m.mu.Lock()
	m.answer["b"] = right
	m.mu.Unlock()
	if err := acknowledged(a, user); err != nil || !has(b, a, user) {
		t.Error(err)
	}
}

// Or to an earlier process of the peer's name, which goes on while the next one serves.
func TestAnEarlierProcessDoesNotAcknowledge(t *testing.T) {
	m := newMesh()
	a, old, c := beginAll(t, m, time.Minute)
	b := begin(t, m, "b", time.Minute)
	m.mu.Lock()
	m.routes["a>b"] = old.answer
	m.mu.Unlock()
	var unanswered *Unanswered
	if err := forget(a, user); !errors.As(err, &unanswered) || unanswered.Peers[0].Peer != "b" {
		t.Errorf("the earlier b has acknowledged: %v", err)
	}
	// a does not know of the later one, but c does.
	a.versions.mu.Lock()
	a.versions.starts["b"] = old.versions.last.Start
	a.versions.begins.Add(1)
	a.versions.mu.Unlock()
	if err := forget(a, user); !errors.As(err, &unanswered) || unanswered.Peers[0].Peer != "b" {
		t.Errorf("the earlier b has acknowledged, though c knows the later one: %v", err)
	}
	m.mu.Lock()
	delete(m.routes, "a>b")
	m.mu.Unlock()
	if err := acknowledged(a, user); err != nil || !has(b, a, user) || !has(c, a, user) {
		t.Error(err)
	}
	// The earlier one was told, and found that it does not stand at its address.
	if err := old.wait(context.Background()); err != ErrReplaced {
		t.Errorf("the earlier process serves: %v", err)
	}
	if err := forget(old, user); err != ErrReplaced {
		t.Errorf("the earlier process forgets: %v", err)
	}
}

// An earlier process whose start is the later one, since the clock went back, can acknowledge for the
// process at the address while no other peer knows that start. That process begins again once it
// asks a peer that has heard of the earlier one.
func TestAnEarlierProcessWithALaterStart(t *testing.T) {
	m := newMesh()
	old := begin(t, m, "b", time.Minute)
	b, err := newNode(config{self: "b", most: 5000, timeout: 300 * time.Millisecond, every: time.Minute, transport: meshed{m, "b"},
		coordinator: wentBack{NewStatic(names...)}, keys: testKeys})
	if err != nil {
		t.Fatal(err)
	}
	go b.run()
	t.Cleanup(b.close)
	await(t, b.session.Load().ready, "the next process does not begin")
	a, c := begin(t, m, "a", time.Minute), begin(t, m, "c", time.Minute)
	for _, n := range []*node{a, b, c, a} {
		round(n)
	}
	before := map[string]bool{versionOf(b.versions, user): true}
	m.mu.Lock()
	m.routes["a>b"] = old.answer
	m.mu.Unlock()
	if err := acknowledged(a, user); err != nil || has(b, a, user) {
		t.Fatalf("the earlier process did not acknowledge for the next one, so there is nothing to find out: %v", err)
	}
	first := b.session.Load()
	if round(b); !is(first.over) {
		t.Fatal("the process at the address does not find out as it asks")
	}
	await(t, b.session.Load().ready, "it does not serve again")
	if b.versions.startOf("b") <= old.versions.startOf("b") {
		t.Error("it has taken no later start")
	}
	isFresh(t, user, before, a, b, c)
	if err := forget(a, user); !errors.Is(err, ErrUnanswered) {
		t.Errorf("the earlier process has acknowledged again: %v", err)
	}
}

// An acknowledgement is of the peer that was asked, of its last process, and holds a number that
// this process made.
func TestAcknowledgementsThatAreNone(t *testing.T) {
	m := newMesh()
	a, b, _ := beginAll(t, m, time.Minute)
	var acknowledge func(got *reply)
	m.mu.Lock()
	m.routes["a>b"] = func(sealed []byte) []byte {
		var what request
		text, err := a.keys.open(sealRequest, []byte("b"), sealed)
		if err != nil || json.Unmarshal(text, &what) != nil || what.Number == nil {
			return b.answer(sealed)
		}
		got := reply{From: "b", Start: b.versions.startOf("b"), Held: []number{*what.Number}}
		acknowledge(&got)
		text, _ = json.Marshal(got)
		return a.keys.seal(sealReply, sealed, text)
	}
	m.mu.Unlock()
	for name, change := range map[string]func(got *reply){
		"of another peer":       func(got *reply) { got.From = "c" },
		"of an earlier process": func(got *reply) { got.Start-- },
		"of nothing":            func(got *reply) { got.Held = nil },
		"of an older number":    func(got *reply) { got.Held[0].Start-- },
		"with an absurd start":  func(got *reply) { got.Start = 1 << 63 },
	} {
		acknowledge = change
		if err := forget(a, user); !errors.Is(err, ErrUnanswered) {
			t.Errorf("%s: %v", name, err)
		}
	}
	acknowledge = func(*reply) {}
	if err := acknowledged(a, user); err != nil {
		t.Errorf("one that is: %v", err)
	}
	// Of a number that only a copy of this process can have made: it takes a later start, and
	// another number.
	start := a.versions.startOf("a")
	again := false
	acknowledge = func(got *reply) {
		if got.Held[0].Start == start {
			got.Held[0].Secret++
			again = true
		}
	}
	ctx, cancel := context.WithTimeout(context.Background(), 2*time.Minute)
	defer cancel()
	if err := a.forget(ctx, "Forget", user); err != nil || !again || a.versions.startOf("a") == start {
		t.Errorf("one of a copy: %v", err)
	}
}

// A peer may acknowledge a Forget after more others than this process keeps numbers of.
func TestAForgetIsAcknowledgedLate(t *testing.T) {
	m := newMesh()
	a, b, _ := beginAll(t, m, time.Minute)
	m.mu.Lock()
	m.routes["a>b"] = func(sealed []byte) []byte {
		got := b.answer(sealed)
		for i := 0; i <= keptMade; i++ {
			a.versions.forget(keyItem("users", "8"))
		}
		return got
	}
	m.mu.Unlock()
	if err := acknowledged(a, user); err != nil {
		t.Error(err)
	}
}

// A peer that began with an old list learns of those that are missing there from the others, and so
// does one that others joined through a peer that it can reach.
func TestListsThatDiffer(t *testing.T) {
	m := newMesh()
	a, b, _ := beginAll(t, m, time.Minute)
	old := start(t, m, "c", time.Minute, "a", "c")
	await(t, old.session.Load().ready, "it does not begin")
	if err := acknowledged(old, user); err != nil || !has(b, old, user) {
		t.Errorf("b does not hear of a Forget of c, whose list lacks it: %v", err)
	}
	if !old.knows("b") {
		t.Error("c does not know of b")
	}
	// c joins a pool of a and b, and cannot reach b, which has the old list.
	m = newMesh()
	a, b, _ = beginAll(t, m, time.Minute)
	setList(b, "a", "b")
	joins := begin(t, m, "c", time.Minute)
	if err := joins.wait(context.Background()); err == nil {
		t.Error("c serves, which b does not have on its list")
	}
	joins.session.Load().asked.Store(askedAt(time.Now())) // as if it had not reached b
	if err := acknowledged(b, user); err != nil || !has(joins, b, user) {
		t.Errorf("c does not hear of a Forget of b, whose list lacks it, but not a's: %v", err)
	}
	// A peer that is on no list any more is told no more.
	for _, n := range []*node{a, b} {
		setList(n, "a", "b")
	}
	m.setCut("c", true)
	round(a)
	round(b)
	if err := acknowledged(b, user); err != nil {
		t.Errorf("after c was taken off all lists: %v", err)
	}
}

// A Forget that returned an error may be lost with its peer. Repeated until it returns nil, it is
// not.
func TestAForgetIsRepeatedUntilNil(t *testing.T) {
	m := newMesh()
	a, b, c := beginAll(t, m, time.Minute)
	m.setCut("a", true)
	if err := forget(a, user); err == nil {
		t.Fatal("a Forget that nobody heard returns nil")
	}
	before := map[string]bool{versionOf(b.versions, user): true, versionOf(a.versions, user): true}
	a.close()
	m.setCut("a", false)
	a = begin(t, m, "a", time.Minute)
	if err := acknowledged(b, user); err != nil {
		t.Fatal(err)
	}
	isFresh(t, user, before, a, b, c)
}

// A number of a dead process comes late, after the clock went back and the next process has
// forgotten the key. The number is the only one of that process that anybody hears of.
func TestALateMessageOfADeadProcess(t *testing.T) {
	m := newMesh()
	a, b, c := beginAll(t, m, time.Minute)
	a = begin(t, m, "a", time.Minute)
	round(a)
	late := a.versions.forget(user)
	before := map[string]bool{versionOf(a.versions, user): true}
	a.close()
	next, err := newNode(config{self: "a", most: 5000, timeout: 300 * time.Millisecond, every: time.Minute, transport: meshed{m, "a"},
		coordinator: wentBack{NewStatic(names...)}, keys: testKeys})
	if err != nil {
		t.Fatal(err)
	}
	go next.run()
	t.Cleanup(next.close)
	if err := next.forget(context.Background(), "Forget", user); err != nil {
		t.Fatal(err)
	}
	for _, n := range []*node{b, c} {
		n.versions.take("a", late, user)
	}
	isFresh(t, user, before, b, c)
	if next.versions.last.Start <= late.Start {
		t.Errorf("it has the start %d, and the last process had %d", next.versions.last.Start, late.Start)
	}
}

// wentBack is a Static whose clock is an hour behind, but where it has to be after a number.
type wentBack struct{ *Static }

func (w wentBack) Join(ctx context.Context, self string, after uint64) (Membership, error) {
	start := uint64(time.Now().Add(-time.Hour).UnixNano())
	if start <= after {
		start = after + 1
	}
	return staticMember{w.Static, start}, nil
}

func TestTheFileOfTheLastStart(t *testing.T) {
	path := filepath.Join(t.TempDir(), "start")
	ahead := uint64(time.Now().Add(time.Hour).UnixNano())
	if err := writeStart(path, ahead); err != nil {
		t.Fatal(err)
	}
	s := NewStatic("a")
	s.File = path
	for want := ahead + 1; want <= ahead+2; want++ {
		m, err := s.Join(context.Background(), "a", 0)
		if err != nil || m.Start() != want {
			t.Errorf("%v, %v, not %d", m, err, want)
		}
	}
	if m, err := s.Join(context.Background(), "a", ahead+100); err != nil || m.Start() != ahead+101 {
		t.Errorf("%v, %v, after %d", m, err, ahead+100)
	}
	s.File = filepath.Join(path, "none")
	if _, err := s.Join(context.Background(), "a", 0); err == nil {
		t.Error("it joins without its file")
	}
}
