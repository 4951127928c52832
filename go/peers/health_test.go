package peers

import (
	"net/http/httptest"
	"strings"
	"testing"
	"time"
)

func TestHealthAndReadiness(t *testing.T) {
	m := newMesh()
	a, b, _ := beginAll(t, m, time.Minute)
	p := &Pool{node: a}
	expect := func(when string, health, ready int, text string) {
		t.Helper()
		w := httptest.NewRecorder()
		if p.HealthHandler().ServeHTTP(w, httptest.NewRequest("GET", "/", nil)); w.Code != health {
			t.Errorf("%s: health is %d", when, w.Code)
		}
		w = httptest.NewRecorder()
		if p.ReadyHandler().ServeHTTP(w, httptest.NewRequest("GET", "/", nil)); w.Code != ready || !strings.Contains(w.Body.String(), text) {
			t.Errorf("%s: readiness is %d, %s", when, w.Code, w.Body)
		}
	}
	expect("at rest", 200, 200, "ok")
	plain := a.coordinator
	a.coordinator = noticer{plain}
	w := httptest.NewRecorder()
	if p.HealthHandler().ServeHTTP(w, httptest.NewRequest("GET", "/", nil)); w.Body.String() != "ok\nits data was lost\n" {
		t.Errorf("health says %q", w.Body)
	}
	a.coordinator = plain
	setList(b, "b", "c")
	round(a)
	expect("while b does not know it", 200, 503, "1 peer did not answer")
	setList(b, names...)
	round(a)
	expect("at rest again", 200, 200, "ok")
	last := a.session.Load().asked.Swap(nil)
	a.session.Load().ready = make(chan struct{})
	expect("while it begins", 200, 503, "learns what it missed")
	close(a.session.Load().ready)
	a.session.Load().asked.Store(last)
	p.gate.close()
	expect("while it leaves", 200, 503, "closed")
	n := start(t, m, "a", time.Minute, names...)
	await(t, n.session.Load().ready, "it does not begin")
	p = &Pool{node: n}
	n.fail(n.session.Load(), ErrReplaced)
	expect("once another process has its name", 503, 503, "a later process has this peer's name")
	n = start(t, m, "a", time.Minute, names...)
	p = &Pool{node: n}
	n.close()
	expect("closed", 503, 503, "closed")
}

type noticer struct{ Coordinator }

func (noticer) Notice() string { return "its data was lost" }

// Stats hold what was asked of the others, and whom they are.
func TestStats(t *testing.T) {
	m := newMesh()
	a, _, _ := beginAll(t, m, time.Minute)
	m.setCut("c", true)
	if err := forget(a, user); err == nil {
		t.Fatal("a Forget that c has not heard returns nil")
	}
	m.setCut("c", false)
	if err := acknowledged(a, user); err != nil {
		t.Fatal(err)
	}
	a.answer(nil)
	s := (&Pool{node: a}).Stats()
	if !s.Serving || s.Start != a.versions.last.Start || s.Lease != 0 || s.Forgets != 2 || s.Unanswered != 1 || s.Keys != 1 ||
		s.Strangers != 1 || s.Names == 0 || len(s.Peers) != 2 {
		t.Errorf("%+v", s)
	}
	b, c := s.Peers[0], s.Peers[1]
	if b.Name != "b" || b.Acknowledged != 2 || b.Retries != 0 || b.Start == 0 || time.Since(b.Seen) > time.Minute || b.OtherList || b.Took <= 0 {
		t.Errorf("%+v", b)
	}
	if c.Name != "c" || c.Acknowledged != 1 || c.Retries == 0 {
		t.Errorf("%+v", c)
	}
	setList(a, "a", "b")
	if s := (&Pool{node: a}).Stats(); len(s.Peers) != 1 || !s.Peers[0].OtherList && len(a.figures.peers) != 1 {
		t.Errorf("%+v", s)
	}
	// With leases, how long one runs.
	n := joins(t, newMesh(), newAgreed(), "a", time.Minute)
	await(t, n.session.Load().ready, "it does not begin")
	if s := (&Pool{node: n}).Stats(); s.Lease <= 0 || s.Lease > time.Hour {
		t.Errorf("a lease of %v", s.Lease)
	}
}
