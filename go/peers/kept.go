package peers

import (
	"bytes"
	"context"
	"encoding/json"
	"errors"
	"fmt"
	"sort"
	"sync"
)

// A kept Forget stands at the Coordinator until all members have it. It does not change: a later one
// of the same items takes its place.
type kept struct {
	From   string     `json:"from"`
	Number number     `json:"number"`
	Items  []wireItem `json:"items"`
}

// mostKept bounds the items that one peer has stored. With more of them, one Forget of all keys stands
// in their place.
const mostKept = MostForgets

// A store is what this peer knows of the kept Forgets.
type store struct {
	keeping sync.Mutex // held while one is stored

	mu     sync.Mutex // protects the rest
	mine   map[string]map[item]bool
	read   map[string]*readKept
	finish *finishing // or none
}

// A readKept is a stored text with what it says, so that it is read once.
type readKept struct {
	kept
	sealed []byte
	isBad  bool
	isDone bool // all members have it, and it is dropped
}

// A finishing is the Forget again of several that are kept, by one number, until all members have it.
type finishing struct {
	of   *session
	ids  []string
	what request
}

// idOf returns the name under which a Forget is kept.
func idOf(n number) string { return fmt.Sprintf("%d-%d-%x", n.Start, n.Count, n.Secret) }

func itemsOf(wire []wireItem) []item {
	items := make([]item, len(wire))
	for i, w := range wire {
		items[i] = w.item()
	}
	return items
}

// keep has the Coordinator store a Forget that some peers did not acknowledge, in the place of those
// of which it has all items.
func (n *node) keep(s *session, what request) {
	n.store.keeping.Lock()
	defer n.store.keeping.Unlock()
	covered, count := n.store.coveredBy(itemsOf(what.Items))
	if count > mostKept {
		all := item{scope: ofAll}
		number := n.versions.forget(all)
		what = request{Number: &number, Items: []wireItem{wireOf(all)}}
		covered, _ = n.store.coveredBy([]item{all})
		n.log("peers: too many Forgets are kept, so one of all keys is", "items", count)
	}
	text, _ := json.Marshal(kept{n.self, *what.Number, what.Items})
	ctx, cancel := context.WithTimeout(context.Background(), n.timeout)
	defer cancel()
	id := idOf(*what.Number)
	switch err := s.m.Keep(ctx, id, n.keys.seal(sealKept, []byte(id), text)); err {
	case nil:
	case ErrNotKept:
		return
	default:
		n.log("peers: a Forget that is not acknowledged was not stored", "err", err)
		return
	}
	n.store.stored(id, itemsOf(what.Items))
	n.drop(ctx, s, covered)
}

// drop removes stored Forgets.
func (n *node) drop(ctx context.Context, s *session, ids []string) bool {
	if len(ids) == 0 {
		return true
	}
	if err := s.m.Drop(ctx, ids...); err != nil {
		n.log("peers: stored Forgets were not dropped", "err", err)
		return false
	}
	n.store.mu.Lock()
	defer n.store.mu.Unlock()
	for _, id := range ids {
		delete(n.store.mine, id)
		if r := n.store.read[id]; r != nil {
			r.isDone = true
		}
	}
	return true
}

// coveredBy returns the own Forgets that are stored and of which a later one has all items, and how
// many items are stored with that one.
func (k *store) coveredBy(items []item) (ids []string, count int) {
	k.mu.Lock()
	defer k.mu.Unlock()
	count = len(items)
	for id, own := range k.mine {
		left := len(own)
		for _, i := range items {
			if own[i] || i.scope == ofAll {
				left--
			}
		}
		if left <= 0 || len(items) == 1 && items[0].scope == ofAll {
			ids = append(ids, id)
		} else {
			count += len(own)
		}
	}
	return ids, count
}

func (k *store) stored(id string, items []item) {
	k.mu.Lock()
	defer k.mu.Unlock()
	if k.mine == nil {
		k.mine = map[string]map[item]bool{}
	}
	k.mine[id] = map[item]bool{}
	for _, i := range items {
		k.mine[id][i] = true
	}
}

// openKept reads what is stored.
func (n *node) openKept(id string, sealed []byte) *readKept {
	r := &readKept{sealed: sealed}
	what := request{Number: &r.Number}
	text, err := n.keys.open(sealKept, []byte(id), sealed)
	if err == nil || err == errSkew { // it may stand there for long
		err = json.Unmarshal(text, &r.kept)
	}
	if what.Items = r.Items; err == nil {
		err = what.check()
	}
	if err == nil && id != idOf(r.Number) {
		err = errors.New("it has another Forget's name")
	}
	if r.isBad = err != nil; r.isBad {
		n.log("peers: a stored Forget that is none", "id", id, "err", err)
	}
	return r
}

// learnKept takes what is stored and was not read yet.
func (n *node) learnKept(s *session) {
	n.store.mu.Lock()
	defer n.store.mu.Unlock()
	now := map[string]*readKept{}
	for id, sealed := range s.m.Kept() {
		if r := n.store.read[id]; r != nil && bytes.Equal(r.sealed, sealed) {
			now[id] = r
			continue
		}
		r := n.openKept(id, sealed)
		if now[id] = r; !r.isBad {
			n.versions.learn(r.From, r.Number, itemsOf(r.Items)...)
		}
	}
	n.store.read = now
}

// isFirst tells whether this peer has the first name of all.
func (n *node) isFirst() bool {
	others := n.others()
	return len(others) == 0 || n.self < others[0].Name
}

// nextKept returns what this peer has to finish: what it stored itself, and, at the peer with the first
// name, what peers stored that are no members any more. As long as a session lasts, each has one number.
func (n *node) nextKept(s *session) *finishing {
	first := n.isFirst()
	n.store.mu.Lock()
	defer n.store.mu.Unlock()
	if f := n.store.finish; f != nil && f.of == s {
		return f
	}
	var ids []string
	for id, r := range n.store.read {
		if !r.isBad && !r.isDone && (r.From == n.self || first && !n.knows(r.From)) {
			ids = append(ids, id)
		}
	}
	sort.Strings(ids)
	f := &finishing{of: s}
	there, size := map[item]bool{}, 0
	for _, id := range ids {
		items := itemsOf(n.store.read[id].Items)
		more := 0
		for _, i := range items {
			more += len(i.key)
		}
		if len(f.ids) > 0 && (len(there)+len(items) > MostForgets || size+more > MostForgetBytes) {
			break
		}
		f.ids = append(f.ids, id)
		for _, i := range items {
			if !there[i] {
				there[i] = true
				size += len(i.key)
				f.what.Items = append(f.what.Items, wireOf(i))
			}
		}
	}
	if len(f.ids) == 0 {
		n.store.finish = nil
		return nil
	}
	number := n.versions.forget(itemsOf(f.what.Items)...)
	f.what.Number = &number
	n.store.finish = f
	return f
}

// finish forgets again what is stored, up to MostForgets items at one time, and then drops it.
func (n *node) finish(ctx context.Context, s *session) {
	for ctx.Err() == nil && !is(s.over) {
		n.learnKept(s)
		f := n.nextKept(s)
		if f == nil {
			return
		}
		within, cancel := context.WithTimeout(ctx, n.timeout)
		var to tally
		ok := n.tellAll(within, s, f.what, &to)
		done := ok && len(to.all()) == 0 && !isPast(s.m.Until()) && n.drop(within, s, f.ids)
		cancel()
		if !done {
			return // the next one would not end either
		}
		n.store.mu.Lock()
		n.store.finish = nil
		n.store.mu.Unlock()
	}
}
