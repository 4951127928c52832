package peers

import (
	"sync"
	"time"
)

// mostRefused is how many refused requests are logged per second. A stranger can send any number.
const mostRefused = 10

// refusals bounds what is logged of refused requests.
type refusals struct {
	mu    sync.Mutex
	since time.Time
	count int // since then
}

// note counts a refused request, and tells whether it is logged, and how many were not before it.
func (r *refusals) note(now time.Time) (log bool, left int) {
	r.mu.Lock()
	defer r.mu.Unlock()
	if now.Sub(r.since) >= time.Second {
		if left = r.count - mostRefused; left < 0 {
			left = 0
		}
		r.since, r.count = now, 0
	}
	r.count++
	return r.count <= mostRefused, left
}

// stranger counts a request that no peer has made, from an address if that is known.
func (n *node) stranger(from string, err error) {
	n.figures.strangers.Add(1)
	now := time.Now()
	log, left := n.refused.note(now)
	if left > 0 {
		n.log("peers: more requests were refused", "requests", left)
	}
	if log {
		n.log("peers: a request that is refused", "from", from, "at", now.UTC().Format(time.RFC3339), "err", err)
	}
}
