package peers

import (
	"sort"
	"sync"
	"sync/atomic"
	"time"
)

// Stats are the numbers of this peer since it was made. For the numbers of a cache, which are
// groupcache's, see Cache.Group.
type Stats struct {
	Serving    bool          // whether Gets are served now
	Start      uint64        // the number of this process; it grows whenever the peer joins again
	Lease      time.Duration // how long the lease still runs; 0 if there is none
	Forgets    uint64        // Forgets that were asked for here
	Unanswered uint64        // of these, that returned an error
	Keys       int           // forgotten keys that are kept now
	Names      uint64        // how often the names of keys have changed, by Forgets of any peer
	Buckets    uint64        // how often a 256th of a cache's keys was forgotten for want of room
	Alls       uint64        // how often this peer forgot all
	Strangers  uint64        // requests that no peer of the pool had signed
	Peers      []PeerStats   // the others, in the order of their names
}

// PeerStats are the numbers of another peer, as this one sees it.
type PeerStats struct {
	Name         string
	Start        uint64        // the latest process of that name that is known, or 0
	Seen         time.Time     // when it answered last, or the zero time
	Acknowledged uint64        // Forgets of this peer that it acknowledged
	Took         time.Duration // for these together, from the first try
	Retries      uint64        // tries that it did not answer
	OtherList    bool          // whether its list is another than the one here
}

type figures struct {
	forgets, unanswered, strangers atomic.Uint64

	mu    sync.Mutex // protects the rest
	peers map[string]*peerFigures
}

type peerFigures struct {
	PeerStats
	tries   time.Duration // what a try takes of late, of those that timed out what they had
	silent  int           // rounds of askings in a row that it did not answer
	looking bool          // whether a request looks whether a silent one answers again
}

func (f *figures) of(peer string, change func(*peerFigures)) {
	f.mu.Lock()
	defer f.mu.Unlock()
	if f.peers == nil {
		f.peers = map[string]*peerFigures{}
	}
	p := f.peers[peer]
	if p == nil {
		p = &peerFigures{PeerStats: PeerStats{Name: peer}}
		f.peers[peer] = p
	}
	change(p)
}

func (f *figures) seen(peer string) { f.of(peer, func(p *peerFigures) { p.Seen = time.Now() }) }

func (f *figures) retried(peer string, took time.Duration) {
	f.of(peer, func(p *peerFigures) {
		p.Retries++
		p.tries = smooth(p.tries, took)
	})
}

func (f *figures) acknowledged(peer string, took, try time.Duration) {
	f.of(peer, func(p *peerFigures) {
		p.Acknowledged++
		p.Took += took
		p.tries = smooth(p.tries, try)
	})
}

// mostSilent is how many rounds of askings a peer may be silent before it is asked for no values.
const mostSilent = 2

// asked notes whether a peer has answered in a round, or with a value.
func (f *figures) asked(peer string, answered bool) {
	f.of(peer, func(p *peerFigures) {
		if p.silent++; answered {
			p.silent = 0
		}
	})
}

// mayAsk tells whether a peer is asked for a value: one that is silent by one request at a time, which
// looks whether it answers again. The caller calls end when its request has ended.
func (f *figures) mayAsk(peer string) (may bool, end func()) {
	end = func() {}
	f.of(peer, func(p *peerFigures) {
		if may = p.silent < mostSilent || !p.looking; may && p.silent >= mostSilent {
			p.looking = true
			end = func() { f.of(peer, func(p *peerFigures) { p.looking = false }) }
		}
	})
	return may, end
}

// limit returns how long the first try may take: several times what tries take of late, so that a
// peer that is slow does not get each request twice.
func (f *figures) limit(peer string) (limit time.Duration) {
	f.of(peer, func(p *peerFigures) { limit = 8 * p.tries })
	if limit < firstTry {
		return firstTry
	}
	if limit > longestTry {
		return longestTry
	}
	return limit
}

// longestTry bounds the time of a first try.
const longestTry = 4 * time.Second

// Stats returns the numbers of this peer.
func (p *Pool) Stats() Stats {
	n := p.node
	s := Stats{Forgets: n.figures.forgets.Load(), Unanswered: n.figures.unanswered.Load(), Strangers: n.figures.strangers.Load(),
		Names: n.versions.renamed.Load(), Start: n.versions.startOf(n.self)}
	s.Keys, s.Buckets, s.Alls = n.versions.counts()
	if session := n.session.Load(); session.asked.Load() != nil {
		s.Serving = !n.away(session) && !p.gate.isClosed()
		if until := session.m.Until(); !until.IsZero() {
			s.Lease = time.Until(until)
		}
	}
	n.mu.Lock()
	known := n.known()
	lists := map[string]bool{}
	for peer := range n.extra {
		lists[peer] = true
	}
	n.mu.Unlock()
	for _, member := range known {
		one := PeerStats{Name: member.Name}
		n.figures.of(member.Name, func(p *peerFigures) { one = p.PeerStats })
		one.Start, one.OtherList = member.Start, lists[member.Name]
		s.Peers = append(s.Peers, one)
	}
	// Those that have left are counted no more.
	n.figures.mu.Lock()
	for name := range n.figures.peers {
		at := sort.Search(len(known), func(at int) bool { return known[at].Name >= name })
		if at == len(known) || known[at].Name != name {
			delete(n.figures.peers, name)
		}
	}
	n.figures.mu.Unlock()
	return s
}
