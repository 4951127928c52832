package peers

import (
	"context"
	"errors"
	"sort"
	"sync"
	"time"
)

// A batch tells all other peers of a Forget of one number, with one request to each peer. The items
// of all callers that come while a batch is under way go into the next one. One that takes longer
// than twice what batches take of late does not hold up the next one: a peer that is away would hold
// up all.
type batch struct {
	items  []item
	there  map[item]bool
	bytes  int
	ctx    context.Context
	cancel context.CancelFunc
	done   chan struct{}
	err    error // once it is done: nil, ErrUnanswered, errContested or why this peer may not forget

	tally   tally
	keeping sync.Once

	// what follows is under the outbox's mu
	callers int      // that wait for it
	s       *session // once it has begun
	what    request
}

// An outbox has the batches that have not begun.
type outbox struct {
	mu      sync.Mutex
	waiting []*batch
	busy    bool          // whether a batch is under way that does not take too long yet
	took    time.Duration // what batches take of late
}

// A tally has the peers that have not acknowledged a Forget yet, and why.
type tally struct {
	mu     sync.Mutex
	silent map[string]error
}

var errNoReply = errors.New("it has not answered in time")

func (t *tally) set(peer string, err error) {
	t.mu.Lock()
	defer t.mu.Unlock()
	if t.silent == nil {
		t.silent = map[string]error{}
	}
	if t.silent[peer] = err; err == nil {
		delete(t.silent, peer)
	}
}

// all returns them in the order of their names.
func (t *tally) all() (silent []Silent) {
	t.mu.Lock()
	defer t.mu.Unlock()
	for peer, err := range t.silent {
		silent = append(silent, Silent{peer, err})
	}
	sort.Slice(silent, func(i, j int) bool { return silent[i].Peer < silent[j].Peer })
	return silent
}

// join returns the batch that has these items, which has not begun, or begins now.
func (n *node) join(items []item) *batch {
	bytes := 0
	for _, i := range items {
		bytes += len(i.key)
	}
	o := &n.outbox
	o.mu.Lock()
	defer o.mu.Unlock()
	var r *batch
	if last := len(o.waiting) - 1; last >= 0 && o.waiting[last].callers > 0 { // else it has ended: all its callers have gone
		r = o.waiting[last]
	}
	if r == nil || len(r.items)+len(items) > MostForgets || r.bytes+bytes > MostForgetBytes {
		r = &batch{there: map[item]bool{}, done: make(chan struct{})}
		r.ctx, r.cancel = context.WithCancel(context.Background())
		o.waiting = append(o.waiting, r)
	}
	for _, i := range items {
		if !r.there[i] {
			r.there[i] = true
			r.items = append(r.items, i)
			r.bytes += len(i.key)
		}
	}
	r.callers++
	n.nextBatch()
	return r
}

// nextBatch begins the next batch where none is under way. The outbox's lock is held.
func (n *node) nextBatch() {
	o := &n.outbox
	if o.busy || len(o.waiting) == 0 {
		return
	}
	r := o.waiting[0]
	o.waiting = o.waiting[1:]
	o.busy = true
	var once sync.Once
	next := func() {
		once.Do(func() {
			o.mu.Lock()
			defer o.mu.Unlock()
			o.busy = false
			n.nextBatch()
		})
	}
	pause := 2 * o.took
	if pause < firstTry {
		pause = firstTry
	}
	timer := time.AfterFunc(pause, next)
	begun := time.Now()
	go func() {
		n.runBatch(r)
		if timer.Stop(); r.err == nil {
			o.mu.Lock()
			o.took = smooth(o.took, time.Since(begun))
			o.mu.Unlock()
		}
		next()
	}()
}

// smooth returns the mean of what was measured, of which the last counts for a quarter.
func smooth(mean, last time.Duration) time.Duration { return mean + (last-mean)/4 }

// runBatch runs a batch until all others have acknowledged it, or nobody waits for it any more.
func (n *node) runBatch(r *batch) {
	defer close(r.done)
	defer r.cancel()
	s, err := n.member(r.ctx)
	if err != nil {
		r.err = err
		return
	}
	number := n.versions.forget(r.items...)
	what := request{Number: &number}
	for _, i := range r.items {
		what.Items = append(what.Items, wireOf(i))
	}
	n.outbox.mu.Lock()
	r.s, r.what = s, what
	n.outbox.mu.Unlock()
	ok := n.tellAll(r.ctx, s, what, &r.tally)
	switch silent := r.tally.all(); {
	case !ok:
		r.err = errContested
	case len(silent) > 0:
		r.err = ErrUnanswered
	case isPast(s.m.Until()):
		r.err = ErrNoLease // a peer may have joined since without this one's word
	}
}

// waitFor returns how a batch ended for one of its callers, whose context may end first.
func (n *node) waitFor(ctx context.Context, r *batch, name string) error {
	err := ErrUnanswered
	select {
	case <-r.done:
		err = r.err
	case <-ctx.Done():
	}
	n.outbox.mu.Lock()
	r.callers--
	last, s, what := r.callers == 0, r.s, r.what
	n.outbox.mu.Unlock()
	if last {
		r.cancel()
	}
	switch {
	case err != ErrUnanswered:
		return err
	case s == nil:
		return ctx.Err() // it has not begun
	}
	silent := r.tally.all()
	r.keeping.Do(func() { n.keep(s, what) })
	return &Unanswered{name, silent}
}
