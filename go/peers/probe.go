package peers

import (
	"context"
	"time"
)

// probe gives the lease up where this peer's own address does not answer any more, as where its
// machine has no descriptors left: with its lease it would hold up each Forget and each join of the
// pool. An address that never answered from here may be one that only others reach.
func (n *node) probe(ctx context.Context, s *session) {
	if !s.leased() {
		return
	}
	tick := time.NewTicker(n.every)
	defer tick.Stop()
	var last time.Time
	for {
		select {
		case <-ctx.Done():
			return
		case <-s.over:
			return
		case <-tick.C:
		}
		got, err := n.sendProbe(ctx, s)
		switch {
		case err == nil && got.Life == s.life:
			last = time.Now()
		case !last.IsZero() && time.Since(last) > n.awayAfter() && ctx.Err() == nil:
			n.log("peers: this peer's own address does not answer, so it gives its lease up", "err", err)
			next := newSession(number{}, false)
			next.probes = true
			n.replace(s, next)
			return
		}
	}
}

// sendProbe asks at this peer's own address who stands there, over a new connection where the
// Transport has them: one that is open may be the last that the process gets.
func (n *node) sendProbe(ctx context.Context, s *session) (reply, error) {
	ctx, cancel := context.WithTimeout(ctx, n.timeout)
	defer cancel()
	by := n.transport.Call
	if prober, ok := n.transport.(Prober); ok {
		by = prober.Probe
	}
	return n.sendBy(ctx, by, n.self, request{From: n.self, To: n.self, Probe: true})
}

// standsHere tells whether the process at this peer's address is this one. Where it is another one,
// this process has been replaced.
func (n *node) standsHere(ctx context.Context, s *session) bool {
	for {
		got, err := n.sendProbe(ctx, s)
		if err == nil && got.Life == s.life {
			return true
		}
		if err == nil && got.Life != 0 {
			n.log("peers: another process stands at this peer's address")
			n.fail(s, ErrReplaced)
			return false
		}
		n.log("peers: asking at this peer's own address who stands there", "err", err)
		if !n.pause(ctx, s) {
			return false
		}
	}
}
