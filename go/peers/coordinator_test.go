package peers

import (
	"context"
	"encoding/json"
	"errors"
	"fmt"
	"sync"
	"sync/atomic"
	"testing"
	"time"
	"unsafe"
)

// agreed is a Coordinator with leases within this process, as etcd's is: one list, starts that
// grow, and Forgets that are kept. A member can be made to hear nothing of it.
type agreed struct {
	mu      sync.Mutex
	last    uint64
	members map[string]uint64
	kept    map[string][]byte
	all     []*agreedMember
}

type agreedMember struct {
	*agreed
	name   string
	start  uint64
	until  atomic.Pointer[time.Time]
	done   chan struct{}
	change chan struct{}
	deaf   atomic.Bool
	list   []Member // while it is deaf
}

func newAgreed() *agreed { return &agreed{members: map[string]uint64{}, kept: map[string][]byte{}} }

func (a *agreed) Join(ctx context.Context, self string, after uint64) (Membership, error) {
	a.mu.Lock()
	defer a.mu.Unlock()
	if _, taken := a.members[self]; taken {
		return nil, errors.New("the name is taken")
	}
	a.last++
	m := &agreedMember{agreed: a, name: self, start: a.last, done: make(chan struct{}), change: make(chan struct{}, 1)}
	until := time.Now().Add(time.Hour)
	m.until.Store(&until)
	a.members[self] = m.start
	a.all = append(a.all, m)
	a.changed()
	return m, nil
}

func (a *agreed) changed() {
	for _, m := range a.all {
		if !m.deaf.Load() {
			select {
			case m.change <- struct{}{}:
			default:
			}
		}
	}
}

func (a *agreed) Close() error { return nil }

// expire is what happens once the lease of a name has run out. The process hears of it where it is
// told so.
func (a *agreed) expire(name string, hears bool) {
	a.mu.Lock()
	defer a.mu.Unlock()
	for _, m := range a.all {
		if m.name == name && m.start == a.members[name] {
			past := time.Now().Add(-time.Nanosecond)
			m.until.Store(&past)
			if hears {
				close(m.done)
			}
		}
	}
	delete(a.members, name)
	a.changed()
}

func (m *agreedMember) view() (all []Member) {
	for name, start := range m.members {
		all = append(all, Member{name, start})
	}
	return all
}

// setDeaf keeps what the member knows from then on as it is.
func (m *agreedMember) setDeaf(deaf bool) {
	m.mu.Lock()
	m.list = m.view()
	m.deaf.Store(deaf)
	m.mu.Unlock()
}

func (m *agreedMember) Start() uint64            { return m.start }
func (m *agreedMember) Changed() <-chan struct{} { return m.change }
func (m *agreedMember) Done() <-chan struct{}    { return m.done }
func (m *agreedMember) Until() time.Time         { return *m.until.Load() }

func (m *agreedMember) Members() []Member {
	m.mu.Lock()
	defer m.mu.Unlock()
	if m.deaf.Load() {
		return append([]Member(nil), m.list...)
	}
	return m.view()
}

func (m *agreedMember) Refresh(context.Context) error {
	m.mu.Lock()
	defer m.mu.Unlock()
	m.list = m.view()
	return nil
}

func (m *agreedMember) Keep(ctx context.Context, id string, forget []byte) error {
	m.mu.Lock()
	defer m.mu.Unlock()
	m.kept[id] = forget
	m.changed()
	return nil
}

func (m *agreedMember) Kept() map[string][]byte {
	m.mu.Lock()
	defer m.mu.Unlock()
	all := map[string][]byte{}
	for id, forget := range m.kept {
		all[id] = forget
	}
	return all
}

func (m *agreedMember) Drop(ctx context.Context, ids ...string) error {
	m.mu.Lock()
	defer m.mu.Unlock()
	for _, id := range ids {
		delete(m.kept, id)
	}
	m.changed()
	return nil
}

func (m *agreedMember) Leave(context.Context) error {
	m.expire(m.name, true)
	return nil
}

func joins(t *testing.T, m *mesh, by *agreed, self string, every time.Duration) *node {
	t.Helper()
	n, err := newNode(config{self: self, most: 5000, timeout: 300 * time.Millisecond, every: every, transport: meshed{m, self},
		coordinator: by, keys: testKeys, log: func(msg string, args ...interface{}) { t.Log(self, msg, args) }})
	if err != nil {
		t.Fatal(err)
	}
	go n.run()
	t.Cleanup(n.close)
	return n
}

func joinAll(t *testing.T, m *mesh, by *agreed, every time.Duration) (a, b, c *node) {
	t.Helper()
	a, b, c = joins(t, m, by, "a", every), joins(t, m, by, "b", every), joins(t, m, by, "c", every)
	for _, n := range []*node{a, b, c} {
		await(t, n.session.Load().ready, "a peer does not begin")
	}
	for _, n := range []*node{a, b, c, a} {
		until(t, func() bool { return len(n.others()) == 2 }, "a peer does not know the others")
		round(n)
	}
	return a, b, c
}

func memberOf(n *node) *agreedMember { return n.session.Load().m.(*agreedMember) }

// A Forget waits for a dead peer until its lease has run out, and returns nil then.
func TestAForgetWaitsForALease(t *testing.T) {
	m, by := newMesh(), newAgreed()
	a, b, _ := joinAll(t, m, by, time.Minute)
	m.setCut("c", true)
	if err := forget(a, user); !errors.Is(err, ErrUnanswered) {
		t.Fatalf("while c has a lease: %v", err)
	}
	ctx, cancel := context.WithTimeout(context.Background(), 2*time.Minute)
	defer cancel()
	done := make(chan error, 1)
	go func() { done <- a.forget(ctx, "Forget", user) }()
	select {
	case err := <-done:
		t.Fatalf("while c has a lease: %v", err)
	case <-time.After(50 * time.Millisecond):
	}
	by.expire("c", false)
	if err := <-done; err != nil || !has(b, a, user) {
		t.Errorf("once c has no lease: %v", err)
	}
	if err := acknowledged(b, user); err != nil {
		t.Errorf("the next one: %v", err)
	}
}

// Without a lease a peer serves nothing, and its Forgets return no nil, since others may have
// joined without its word.
func TestWithoutALease(t *testing.T) {
	m, by := newMesh(), newAgreed()
	a, b, _ := joinAll(t, m, by, time.Minute)
	by.expire("a", false)
	if err := a.wait(context.Background()); err != ErrNoLease {
		t.Errorf("a Get: %v", err)
	}
	if err := forget(a, user); err != ErrNoLease {
		t.Errorf("a Forget: %v", err)
	}
	until(t, func() bool { return !b.knows("a") }, "b does not hear of it")
	if got := ask(t, b, `{"from":"a","to":"b","start":1}`); got.Why != isUnknown {
		t.Errorf("b answers it: %+v", got)
	}
	// One whose lease runs out while it forgets.
	m.mu.Lock()
	answer := m.answer["c"]
	m.answer["c"] = func(request []byte) []byte {
		got := answer(request)
		by.expire("b", false)
		return got
	}
	m.mu.Unlock()
	if err := forget(b, user); err != ErrNoLease {
		t.Errorf("a Forget whose peer has no lease at its end: %v", err)
	}
}

// A lease ends by both clocks: the one that goes on while the machine sleeps, and the other one.
func TestALeaseByBothClocks(t *testing.T) {
	now := time.Now()
	until := now.Add(time.Minute)
	if isAfter(now, until) || !isAfter(until.Add(1), until) {
		t.Error("it does not end after its time")
	}
	// The machine slept for an hour: the clock on the wall is past that time, and the other one is not.
	slept := now
	*(*uint64)(unsafe.Pointer(&slept)) += 3600 << 30 // the seconds of time.Time's wall
	if slept.Sub(now) != 0 || slept.Round(0).Sub(now.Round(0)) != time.Hour {
		t.Fatalf("this is another time: %v", slept)
	}
	if !isAfter(slept, until) {
		t.Error("it does not end while the machine sleeps")
	}
	// The clock on the wall was set back by an hour.
	set := now.Add(2 * time.Minute)
	*(*uint64)(unsafe.Pointer(&set)) -= 3600 << 30
	if !isAfter(set, until) {
		t.Error("it does not end where the clock on the wall is set back")
	}
}

// A peer that joins serves once each member has answered, or has no lease any more: one that knows
// nothing of it could forget without its word.
func TestAPeerThatJoinsWaitsForAllMembers(t *testing.T) {
	m, by := newMesh(), newAgreed()
	a, b, _ := joinAll(t, m, by, time.Minute)
	d := func() *node {
		n := joins(t, m, by, "d", time.Minute)
		select {
		case <-n.session.Load().ready:
			t.Fatal("it serves while b does not answer")
		case <-time.After(400 * time.Millisecond):
		}
		return n
	}
	m.setCut("b", true)
	n := d()
	m.setCut("b", false)
	await(t, n.session.Load().ready, "it does not serve once b answers")
	if err := acknowledged(b, user); err != nil || !has(n, b, user) {
		t.Errorf("b does not know it: %v", err)
	}
	n.close()
	by.expire("d", false)
	m.setCut("b", true)
	n = d()
	by.expire("b", false)
	await(t, n.session.Load().ready, "it does not serve once b has no lease")
	if !a.knows("d") {
		t.Error("a does not know it")
	}
}

// A member that has not heard of one that joined asks the Coordinator where that one sends it
// something.
func TestAMemberThatHearsNothing(t *testing.T) {
	m, by := newMesh(), newAgreed()
	a, b, _ := joinAll(t, m, by, time.Minute)
	memberOf(b).setDeaf(true)
	d := joins(t, m, by, "d", time.Minute)
	await(t, d.session.Load().ready, "it does not serve")
	if err := acknowledged(b, user); err != nil || !has(d, b, user) {
		t.Errorf("b does not tell it of a Forget: %v", err)
	}
	// And a Forget tells one whose predecessor alone it knows.
	by.expire("c", false)
	c := joins(t, m, by, "c", time.Minute)
	await(t, c.session.Load().ready, "it does not serve")
	if err := acknowledged(b, user); err != nil || !has(c, b, user) || !has(a, b, user) {
		t.Errorf("b does not tell the next c of a Forget: %v", err)
	}
}

// A member that knows the last process of a name asks the Coordinator, too, where the next process of
// that name sends it something: it may not have heard yet that the last one has ended.
func TestAMemberThatHearsOfALaterProcess(t *testing.T) {
	m, by := newMesh(), newAgreed()
	_, b, c := joinAll(t, m, by, time.Minute)
	memberOf(b).setDeaf(true)
	c.close()
	by.expire("c", false)
	next := joins(t, m, by, "c", time.Minute)
	await(t, next.session.Load().ready, "it does not serve")
	if !isListed(memberOf(b), "c", memberOf(next).start) {
		t.Errorf("b has answered it, and has %v", memberOf(b).Members())
	}
	if isListed(memberOf(b), "c", memberOf(next).start+1) || isListed(memberOf(b), "d", 1) {
		t.Error("one that has not joined is a member")
	}
	if got := ask(t, b, `{"from":"c","to":"b","start":99}`); got.Why != isUnknown {
		t.Errorf("b answers one that has not joined: %+v", got)
	}
}

// A member that has heard of one that joined from another member tells that one of its Forgets.
func TestAMemberThatHearsOfOneThatJoins(t *testing.T) {
	m, by := newMesh(), newAgreed()
	a, b, _ := joinAll(t, m, by, time.Minute)
	memberOf(b).setDeaf(true)
	m.mu.Lock()
	m.routes["d>b"] = func([]byte) []byte { return nil }
	m.mu.Unlock()
	d := joins(t, m, by, "d", time.Minute)
	until(t, func() bool { return a.knows("d") }, "a does not hear of it")
	round(b)
	m.mu.Lock()
	delete(m.routes, "d>b")
	m.mu.Unlock()
	await(t, d.session.Load().ready, "it does not serve")
	round(b)
	m.mu.Lock()
	m.routes["b>d"] = func([]byte) []byte { return nil }
	m.mu.Unlock()
	if err := forget(b, user); !errors.Is(err, ErrUnanswered) {
		t.Errorf("a Forget of which it has not heard: %v", err)
	}
	m.mu.Lock()
	delete(m.routes, "b>d")
	m.mu.Unlock()
	if err := acknowledged(b, user); err != nil || !has(d, b, user) {
		t.Errorf("b does not tell it of a Forget: %v", err)
	}
}

// The answers of one round count together. Between those of two members, a third one can forget
// without a word to the peer that joins, and die; its next process answers, and knows of nothing.
func TestAPeerThatJoinsAsksAllInOneRound(t *testing.T) {
	m, by := newMesh(), newAgreed()
	a, b, c := joinAll(t, m, by, time.Minute)
	for _, n := range []*node{a, b, c} {
		memberOf(n).setDeaf(true)
	}
	var answered sync.WaitGroup
	var first sync.Once
	answered.Add(2)
	m.mu.Lock()
	for _, n := range []*node{b, c} {
		n := n
		var one sync.Once
		m.routes["d>"+n.self] = func(sealed []byte) []byte {
			defer one.Do(answered.Done)
			return n.answer(sealed)
		}
	}
	var next *node
	m.routes["d>a"] = func(sealed []byte) []byte {
		first.Do(func() {
			answered.Wait()
			if err := acknowledged(a, user); err != nil {
				t.Error(err)
			}
			a.close()
			by.expire("a", false)
			next = joins(t, m, by, "a", time.Minute)
			await(t, next.session.Load().joined, "the next a does not join")
		})
		return next.answer(sealed)
	}
	m.mu.Unlock()
	d := joins(t, m, by, "d", time.Minute)
	await(t, d.session.Load().ready, "it does not serve")
	if !has(d, a, user) {
		t.Error("it serves without a Forget that had returned nil")
	}
}

// A peer whose lease has run out joins again. It keeps what it has where a member that served
// meanwhile tells it what it missed, and forgets all where there is none.
func TestJoiningAgain(t *testing.T) {
	m, by := newMesh(), newAgreed()
	a, b, c := joinAll(t, m, by, time.Minute)
	other := keyItem("users", "8")
	before := versionOf(c.versions, other)
	m.setCut("c", true)
	old := c.session.Load()
	by.expire("c", false)
	if err := acknowledged(a, user); err != nil {
		t.Fatal(err)
	}
	m.setCut("c", false)
	close(memberOf(c).done)
	until(t, func() bool { return c.session.Load() != old }, "it does not join again")
	await(t, c.session.Load().ready, "it does not serve again")
	if !has(c, a, user) || versionOf(c.versions, other) != before {
		t.Error("it does not know what it missed, or has forgotten all")
	}
	if start := c.versions.startOf("c"); start != memberOf(c).start || start <= old.m.Start() {
		t.Errorf("its start is %d, after %d", start, old.m.Start())
	}
	// All the others die, after a Forget that it did not hear of.
	m.setCut("c", true)
	old = c.session.Load()
	by.expire("c", false)
	if err := acknowledged(a, other); err != nil {
		t.Fatal(err)
	}
	a.close()
	b.close()
	by.expire("a", false)
	by.expire("b", false)
	m.setCut("c", false)
	close(old.m.(*agreedMember).done)
	until(t, func() bool { return c.session.Load() != old }, "it does not join again")
	await(t, c.session.Load().ready, "it does not serve again")
	if versionOf(c.versions, other) == before {
		t.Error("it serves what was forgotten while it was away")
	}
}

// A Forget that was not answered is kept, and finished by the peer that made it, or by another
// where that one is dead.
func TestForgetsThatAreKept(t *testing.T) {
	m, by := newMesh(), newAgreed()
	a, b, c := joinAll(t, m, by, 20*time.Millisecond)
	keptNow := func() int {
		by.mu.Lock()
		defer by.mu.Unlock()
		return len(by.kept)
	}
	m.setCut("c", true)
	if err := forget(a, user); !errors.Is(err, ErrUnanswered) || keptNow() != 1 {
		t.Fatalf("%v, %d are kept", err, keptNow())
	}
	time.Sleep(2*a.timeout + 100*time.Millisecond) // in which a tries to finish it
	if keptNow() != 1 {
		t.Error("it is dropped while c has not heard of it")
	}
	m.setCut("c", false)
	until(t, func() bool { return keptNow() == 0 }, "it is not dropped once c answers")
	if !has(c, a, user) {
		t.Error("c has not heard of it")
	}
	// Nobody hears of one, but by what is kept, and its peer dies.
	for _, peer := range []string{"b", "c"} {
		m.setCut(peer, true)
	}
	before := map[string]bool{versionOf(b.versions, user): true, versionOf(c.versions, user): true}
	memberOf(b).setDeaf(true)
	memberOf(c).setDeaf(true)
	if err := forget(a, user); !errors.Is(err, ErrUnanswered) {
		t.Fatal(err)
	}
	a.close()
	by.expire("a", false)
	for _, peer := range []string{"b", "c"} {
		m.setCut(peer, false)
	}
	memberOf(b).setDeaf(false)
	memberOf(c).setDeaf(false)
	by.mu.Lock()
	by.changed()
	by.mu.Unlock()
	until(t, func() bool { return keptNow() == 0 }, "nobody finishes it")
	isFresh(t, user, before, b, c)
	// What stands there and is no Forget is left alone.
	memberOf(b).Keep(context.Background(), "bad", []byte("{"))
	memberOf(b).Keep(context.Background(), "absurd", []byte(`{"from":"b","number":{"start":18446744073709551615},"items":[{"of":3}]}`))
	if err := acknowledged(b, user); err != nil || keptNow() != 2 {
		t.Errorf("%v, %d are kept", err, keptNow())
	}
}

// A peer forgets, and leaves or dies. One that joins after that, or comes back, uses no name from
// before.
func TestForgetsOfPeersThatLeft(t *testing.T) {
	const count = 40
	of := func(i int) item { return keyItem("users", fmt.Sprint(i)) }
	forgetThem := func(by *node) map[string]bool {
		before := map[string]bool{}
		for i := 0; i < count; i++ {
			before[versionOf(by.versions, of(i))] = true
			if err := acknowledged(by, of(i)); err != nil {
				t.Fatal(err)
			}
		}
		return before
	}
	areFresh := func(before map[string]bool, n *node) {
		old := 0
		for i := 0; i < count; i++ {
			if before[versionOf(n.versions, of(i))] {
				old++
			}
		}
		if old > 0 {
			t.Errorf("%s has %d of %d names from before a Forget that returned nil", n.self, old, count)
		}
	}
	m, by := newMesh(), newAgreed()
	a, b, c := joinAll(t, m, by, time.Minute)
	// c is paused beyond its lease, b forgets and dies, and c comes back.
	m.setCut("c", true)
	old := c.session.Load()
	by.expire("c", false)
	before := forgetThem(b)
	b.close()
	by.expire("b", true)
	until(t, func() bool { return len(a.others()) == 0 }, "a does not hear that b is dead")
	m.setCut("c", false)
	close(old.m.(*agreedMember).done)
	until(t, func() bool { return c.session.Load() != old }, "it does not join again")
	await(t, c.session.Load().ready, "it does not serve again")
	areFresh(before, c)
	// d joins, with a name that was never there.
	d := joins(t, m, by, "d", time.Minute)
	await(t, d.session.Load().ready, "it does not serve")
	areFresh(before, d)

	// With lists of their own: first all take b off, then d comes.
	m = newMesh()
	a, b, c = beginAll(t, m, time.Minute)
	before = forgetThem(b)
	b.close()
	m.setCut("b", true)
	for _, n := range []*node{a, c} {
		setList(n, "a", "c", "d")
	}
	d = start(t, m, "d", time.Minute, "a", "c", "d")
	await(t, d.session.Load().ready, "it does not serve")
	areFresh(before, d)
	if versionOf(d.versions, user) != versionOf(a.versions, user) {
		t.Error("d does not know what a knows of b, which is on no list any more")
	}
}

// One who can write to the Coordinator, and has no key, changes nothing with what looks like a kept
// Forget.
func TestKeptForgetsThatAreForged(t *testing.T) {
	m, by := newMesh(), newAgreed()
	a, b, c := joinAll(t, m, by, 20*time.Millisecond)
	session := b.session.Load()
	plain := []byte(`{"from":"b","number":{"start":2305843009213693952,"count":1,"secret":1},"items":[{"cache":"users","key":"Nw=="}]}`)
	const id = "2305843009213693952-1-1"
	seal := func(key, kind, id string) []byte { return keys{[]byte(key)}.seal(kind, []byte(id), plain) }
	memberOf(a).Keep(context.Background(), id, plain)
	memberOf(a).Keep(context.Background(), "1", seal("another key of a pool", sealKept, id))
	memberOf(a).Keep(context.Background(), "2", seal(string(testKeys[0]), sealRequest, id))
	memberOf(a).Keep(context.Background(), "3", seal(string(testKeys[0]), sealKept, id))
	for _, n := range []*node{a, b, c} {
		n.learnKept(n.session.Load())
	}
	for _, n := range []*node{b, a, c} {
		if err := acknowledged(n, user); err != nil {
			t.Errorf("%s: %v", n.self, err)
		}
	}
	if b.session.Load() != session {
		t.Error("b had to begin again")
	}
	if n := a.versions.startOf("b"); n > mostNumber/2 {
		t.Errorf("a takes %d as the start of b", n)
	}
	// One that is old is taken: it may stand there for long.
	now := time.Now().Add(-time.Hour)
	number := number{Start: b.versions.startOf("b"), Count: 99, Secret: 1}
	text, _ := json.Marshal(kept{"b", number, []wireItem{wireOf(user)}})
	memberOf(a).Keep(context.Background(), idOf(number), testKeys.sealAt(now, sealKept, []byte(idOf(number)), text))
	a.learnKept(a.session.Load())
	if !a.versions.covers(user, "b", number) {
		t.Error("a Forget that was kept for an hour is not learned")
	}
}
