package peers

import "sort"

// A peer notes which Forgets of each other process it knows without a gap, and says so when it asks.
// Otherwise each of n peers would be told of each Forget n times.

// A heard says that all Forgets of one process are known here up to a count, and some beyond.
type heard struct {
	start, upTo uint64
	beyond      map[uint64]bool
}

// mostBeyond bounds the Forgets that are noted beyond a gap.
const mostBeyond = 4096

// hears notes that a peer's Forget is known here with all its items. The lock is held.
func (v *versions) hears(peer string, n number) {
	h := v.heard[peer]
	switch {
	case h == nil || h.start < n.Start:
		h = &heard{start: n.Start, beyond: map[uint64]bool{}}
		v.heard[peer] = h
	case h.start > n.Start || n.Count <= h.upTo || len(h.beyond) >= mostBeyond:
		return
	}
	h.beyond[n.Count] = true
	h.goOn()
}

// hearsAll notes that all Forgets of a process up to this number are known here. The lock is held.
func (v *versions) hearsAll(peer string, made number) {
	h := v.heard[peer]
	if h == nil || h.start < made.Start {
		h = &heard{start: made.Start, beyond: map[uint64]bool{}}
		v.heard[peer] = h
	}
	if h.start > made.Start || made.Count <= h.upTo {
		return
	}
	h.upTo = made.Count
	for count := range h.beyond {
		if count <= h.upTo {
			delete(h.beyond, count)
		}
	}
	h.goOn()
}

// goOn counts those that were beyond a gap and are so no more.
func (h *heard) goOn() {
	for h.beyond[h.upTo+1] {
		h.upTo++
		delete(h.beyond, h.upTo)
	}
}

// has returns up to which Forget of each other peer all are known here, so that nobody tells this one
// of them again.
func (v *versions) has() (has vector) {
	v.mu.RLock()
	defer v.mu.RUnlock()
	for peer, h := range v.heard {
		if h.upTo > 0 && peer != v.self {
			has = append(has, mark{peer, number{Start: h.start, Count: h.upTo}})
		}
	}
	sort.Slice(has, func(i, j int) bool { return has[i].Peer < has[j].Peer })
	return has
}

// without returns the marks of a level that one does not know who has these. A mark of more than a
// key may be of a key's Forget that was moved up, so it is told in any case.
func (l *level) without(has vector) (own vector) {
	if l.scope != ofKey || len(has) == 0 {
		return l.own.clone()
	}
	for _, m := range l.own {
		if h := has.of(m.Peer); h.Start != m.Start || h.Count < m.Count {
			own = append(own, m)
		}
	}
	return own
}
