package peers

import (
	"container/heap"
	"math"
	"testing"
	"time"
)

// What pools of many machines cost, by a simulation: no clock of this machine is in its figures. Each
// peer has one processor, which does one thing after the other.
const (
	simWork    = 50 * time.Microsecond  // of a processor, for one end of a request and its reply
	simItem    = 2 * time.Microsecond   // of a processor, for each item of a request
	simWay     = 100 * time.Microsecond // of a message from machine to machine
	simWrite   = 2 * time.Millisecond   // of a write to etcd, until it is on most disks
	simWatcher = 10 * time.Microsecond  // of etcd, for each watcher of a write
	simRenewal = time.Second            // from one renewal of a lease to the next
)

// A simulation has its own time.
type simulation struct {
	now    time.Duration
	events events
	free   []time.Duration // when each peer's processor has nothing to do
	speed  float64         // of a processor, without what askings take
}

type event struct {
	at time.Duration
	do func()
}

type events []event

func (e events) Len() int           { return len(e) }
func (e events) Less(i, j int) bool { return e[i].at < e[j].at }
func (e events) Swap(i, j int)      { e[i], e[j] = e[j], e[i] }
func (e *events) Push(x any)        { *e = append(*e, x.(event)) }
func (e *events) Pop() any {
	last := (*e)[len(*e)-1]
	*e = (*e)[:len(*e)-1]
	return last
}

func (s *simulation) after(d time.Duration, do func()) { heap.Push(&s.events, event{s.now + d, do}) }

// work has a peer's processor do something, and calls then.
func (s *simulation) work(peer int, d time.Duration, then func()) {
	if s.free[peer] < s.now {
		s.free[peer] = s.now
	}
	s.free[peer] += time.Duration(float64(d) / s.speed)
	s.after(s.free[peer]-s.now, then)
}

// request goes from peer to peer, does something there, and comes back.
func (s *simulation) request(from, to, items int, there func(reply func()), then func()) {
	cost := simWork + time.Duration(items)*simItem
	s.work(from, cost, func() {
		s.after(simWay, func() {
			s.work(to, cost, func() { there(func() { s.after(simWay, then) }) })
		})
	})
}

// all calls do for each number below count, and then once each has called its end.
func all(count int, do func(i int, end func()), then func()) {
	left := count
	if left == 0 {
		then()
		return
	}
	for i := 0; i < count; i++ {
		do(i, func() {
			if left--; left == 0 {
				then()
			}
		})
	}
}

// A design tells all peers of a batch.
type design func(s *simulation, from, items int, then func())

// direct is what this package does: a request to each other peer.
func direct(s *simulation, from, items int, then func()) {
	n := len(s.free)
	all(n-1, func(i int, end func()) {
		s.request(from, (from+1+i)%n, items, func(reply func()) { reply() }, end)
	}, then)
}

// relayed has a peer tell some others, each of which tells its share of the rest, and answers for it.
func relayed(s *simulation, from, items int, then func()) {
	n := len(s.free)
	share := int(math.Ceil(math.Sqrt(float64(n - 1))))
	relays := (n - 1 + share - 1) / share
	all(relays, func(r int, end func()) {
		relay := (from + 1 + r*share) % n
		rest := share - 1
		if last := n - 1 - r*share - 1; rest > last {
			rest = last
		}
		s.request(from, relay, items, func(reply func()) {
			all(rest, func(i int, end func()) {
				s.request(relay, (relay+1+i)%n, items, func(reply func()) { reply() }, end)
			}, reply)
		}, end)
	}, then)
}

// logged writes the batch into etcd, from where each peer takes it before it renews its lease. Peers
// renew theirs at different times, so the last one does it after about a renewal.
func logged(s *simulation, from, items int, then func()) {
	n := len(s.free)
	s.work(from, simWork, func() {
		s.after(simWrite+time.Duration(n)*simWatcher, func() {
			for peer := range s.free {
				s.work(peer, simWork+time.Duration(items)*simItem, func() {})
			}
			s.after(simRenewal, then)
		})
	})
}

// forgetsPerSecond is what callers of one key at a time come to at some of n peers, by batches.
func forgetsPerSecond(by design, n, at, callers int, every time.Duration) (perSecond float64, busy float64) {
	s := &simulation{free: make([]time.Duration, n)}
	// Of each asking a peer has one end, and of each that it answers the other.
	busy = 2 * float64(n-1) * float64(simWork) / float64(every)
	if s.speed = 1 - busy; s.speed < 0.05 {
		return 0, busy
	}
	const seconds = 5.0
	waiting, under, done := make([]int, at), make([]bool, at), 0
	var next func(peer int)
	next = func(peer int) {
		if under[peer] || waiting[peer] == 0 {
			return
		}
		items := waiting[peer]
		waiting[peer], under[peer] = 0, true
		by(s, peer, items, func() {
			under[peer] = false
			done += items
			waiting[peer] += items
			s.after(0, func() { next(peer) })
		})
	}
	for i := 0; i < callers; i++ {
		waiting[i%at]++
	}
	for peer := range waiting {
		next(peer)
	}
	for len(s.events) > 0 {
		e := heap.Pop(&s.events).(event)
		if s.now = e.at; s.now.Seconds() > seconds {
			break
		}
		e.do()
	}
	return float64(done) / seconds, busy
}

// The table of docs/PEERS.md, "What many machines cost".
func TestWhatManyMachinesCost(t *testing.T) {
	for _, n := range []int{3, 17, 100, 1000} {
		every := time.Second
		if n >= 100 {
			every = 10 * time.Second
		}
		if n >= 1000 && testing.Short() {
			continue
		}
		for _, d := range []struct {
			name string
			by   design
		}{{"direct", direct}, {"relayed", relayed}, {"logged", logged}} {
			one, busy := forgetsPerSecond(d.by, n, 1, 1, every)
			at, _ := forgetsPerSecond(d.by, n, 1, 1000, every)
			t.Logf("%d peers, %s: one caller %.0f per second, 1,000 callers at one peer %.0f; askings each %v take %.1f %% of a processor",
				n, d.name, one, at, every, 100*busy)
			if one <= 0 || at < one {
				t.Errorf("%d peers, %s: %.0f and %.0f per second", n, d.name, one, at)
			}
		}
	}
	// Three peers by hand: two requests of one item leave one after the other, each way is 100 µs, and
	// the second is answered last.
	s := &simulation{free: make([]time.Duration, 3), speed: 1}
	var took time.Duration
	direct(s, 0, 1, func() { took = s.now })
	for len(s.events) > 0 {
		e := heap.Pop(&s.events).(event)
		s.now = e.at
		e.do()
	}
	if want := 3*(simWork+simItem) + 2*simWay; took != want {
		t.Errorf("a Forget at 3 peers takes %v, not %v", took, want)
	}
}
