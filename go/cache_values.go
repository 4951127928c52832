package singleflight

import (
	"math"
	"sync"
	"sync/atomic"
	"time"
)

// A node is a value that was loaded or put, or an error that is kept, with what the cache knows of it.
// There is one for each value, so its parts are packed: TestMemoryOfCaches measures what they take.
type node[K comparable, V any] struct {
	key           K
	value         V
	stamped       uint64      // the age of the stamp of the call that loaded it; written before the node is kept
	chain         pointer     // the next of its bucket
	before, after *node[K, V] // in its queue; the lock of its shard protects them
	extras        *extras     // written before the node is kept; values of one era share them
	print         uint32      // a hash of the key
	slot          uint32      // of its stamp
	flags         uint32      // see below
	born          uint32      // the lower bits of its birth, if it has a life
	price         int32       // its cost, or isDear
	met           int32       // how old it was by the steady clock when it was last found, in ticks
}

// A mortal is a node with a life: one whose value may have an end.
type mortal[K comparable, V any] struct {
	node[K, V]
	ttl time.Duration // 0 without end
}

// The flags of a node: why it has left, and one, or 0; its queue; whether a load runs in the background that is to
// replace it; whether it has a life; and how often it was found, less what an eviction took off. The upper bits are
// written before the node is kept, and stay: those of its birth, and the table of its stamp.
const (
	flagReason  = 1<<3 - 1
	flagQueue   = 3 << 3
	flagRefresh = 1 << 5
	flagLife    = 1 << 6
	flagMark    = 1 << 7
	flagMarks   = mostMarks * flagMark
	flagBorn    = (1<<12 - 1) << 12
	flagTable   = (1<<8 - 1) << 24
)

// What is known of a value before the cache makes a node of it.
type known[K comparable, V any] struct {
	key   K
	print uint32
	value V
	cost  int64 // below 0 of one that is not to be kept
	from  birth
	ttl   time.Duration // 0 without end
	tags  []string
	err   error // that the node stands for
}

// nodeOf makes the node of a value, or of an error.
func nodeOf[K comparable, V any](r *room, it *known[K, V]) (n *node[K, V]) {
	// How long an error is kept, is said later.
	hasLife := r.lives.has || it.ttl > 0 || it.err != nil
	if hasLife {
		n = &(&mortal[K, V]{ttl: it.ttl}).node
	} else {
		n = new(node[K, V])
	}
	n.key, n.print, n.value, n.price = it.key, it.print, it.value, priceOf(it.cost)
	if len(it.tags) > 0 || it.err != nil || n.price == isDear {
		n.extras = r.extrasOf(it.from, it.tags)
		if it.err != nil || n.price == isDear {
			n.extras.rare = &rare{err: it.err, cost: it.cost}
		}
	} else if hasLife {
		n.extras = r.eraOf(it.from.born)
	}
	if hasLife {
		n.lives(it.from.born.steady)
	}
	return n
}

// mortal returns the mortal that a node with a life is.
func (n *node[K, V]) mortal() *mortal[K, V] { return (*mortal[K, V])(pointer(n)) }

func (n *node[K, V]) hasLife() bool { return atomic.LoadUint32(&n.flags)&flagLife != 0 }

// The price of a node whose extras have its cost, since that has more than 31 bits.
const isDear = math.MinInt32

// priceOf returns the price of a node with this cost.
func priceOf(cost int64) int32 {
	switch {
	case cost > math.MaxInt32:
		return isDear
	case cost < 0:
		return -1
	}
	return int32(cost)
}

// cost returns what the value costs. It is below 0 of one that is not to be kept.
func (n *node[K, V]) cost() int64 {
	if n.price == isDear {
		return n.extras.rare.cost
	}
	return int64(n.price)
}

// stamp returns the stamp of the call that loaded it.
func (n *node[K, V]) stamp() Stamp {
	return Stamp{uint64(atomic.LoadUint32(&n.flags)&flagTable)<<32 | uint64(n.slot), n.stamped}
}

// isStamped gives the node its stamp, if there is room for it: a group has fewer than 2^32 slots. The node
// is not in a table yet.
func (n *node[K, V]) isStamped(stamp Stamp) bool {
	n.flags = n.flags&^flagTable | uint32(stamp.Place>>32)&flagTable
	n.slot, n.stamped = uint32(stamp.Place), stamp.Age
	return n.stamp() == stamp
}

// set sets these flags to these of them, and returns what all were.
func (n *node[K, V]) set(flags, to uint32) (was uint32) {
	for {
		was = atomic.LoadUint32(&n.flags)
		if atomic.CompareAndSwapUint32(&n.flags, was, was&^flags|to) {
			return was
		}
	}
}

// claim makes the caller the one that refreshes the node, unless there is one.
func (n *node[K, V]) claim() bool { return n.set(flagRefresh, flagRefresh)&flagRefresh == 0 }

func (n *node[K, V]) isClaimed() bool { return atomic.LoadUint32(&n.flags)&flagRefresh != 0 }

func (n *node[K, V]) release() { n.set(flagRefresh, 0) }

func (n *node[K, V]) queue() int {
	return int(atomic.LoadUint32(&n.flags) & flagQueue / (flagQueue / 3))
}

// left returns why the node has left a table, if it has.
func (n *node[K, V]) left() (reason Reason, hasLeft bool) {
	is := atomic.LoadUint32(&n.flags) & flagReason
	return Reason(is - 1), is > 0
}

// record returns the record of the node's call, if there is one.
func (n *node[K, V]) record() *callRecord {
	if e := n.extras; e != nil && e.rare != nil {
		return e.rare.rec
	}
	return nil
}

func (n *node[K, V]) isError() bool { return n.extras.failed() != nil }

// result returns what a Get of it returns.
func (n *node[K, V]) result() (V, error) { return n.value, n.extras.failed() }

// mark notes that it was found. One that is found often has its most, and nothing is written. Where
// another goroutine changes the flags meanwhile, a mark is lost.
func (n *node[K, V]) mark() {
	if was := atomic.LoadUint32(&n.flags); was&flagMarks != flagMarks {
		atomic.CompareAndSwapUint32(&n.flags, was, was+flagMark)
	}
}

// marks returns how many marks the node has: mostMarks at most.
func (n *node[K, V]) marks() uint32 { return atomic.LoadUint32(&n.flags) & flagMarks / flagMark }

// What the values of a cache cost together, over all its tables, and what there is of a cache that its
// tables ask for.
type room struct {
	limit  atomic.Int64
	begun  []atomic.Uint64 // by class: how many Forgets and Puts have begun, and where values have costs, loads
	counts []counts
	tags   tags
	lives  lifetimes
	era    extrasPointer // the latest; see eraOf
	tells  bool          // whether there is a function of WithOnEvict

	// Hits read what is above, and misses change this.
	_      [cacheLine]byte
	turn   atomic.Uint32 // which shard makes room for another next
	weight atomic.Int64  // what is kept, and about to be; within the limit
	_      [cacheLine]byte
}

// The hash of a key chooses the bucket by its lowest bits, the class by those from classBit on, and the
// shard by those from shardBit on.
const (
	classBit = 8
	shardBit = 24
)

// begunOf returns the count of the class that has the key of this hash.
func (r *room) begunOf(print uint32) *atomic.Uint64 {
	return &r.begun[print>>classBit&uint32(len(r.begun)-1)]
}

// Keys are of so many classes: a Put is not kept if another Forget of its class has begun.
const (
	fewestClasses = 64
	mostClasses   = 1 << 10
)

// A values holds the values of a cache that were loaded by the calls of one core: a hash table in
// shards. That a value is still current is asked at each look; the rest is tested and not proved.
//
// A look takes no lock, and writes to nothing that others read but a node's marks, if it has not all.
// Whoever changes a shard has its lock. A shard that grows moves its nodes into new chains, beside
// looks: these may miss a node then, and look again under the lock.
type values[K comparable, V any] struct {
	p      *core
	room   *room
	shards []valueShard[K, V]
}

type valueShard[K comparable, V any] struct {
	index   indexPointer  // the first node of each bucket
	version atomic.Uint32 // odd while nodes move

	// Hits read what is above, which seldom changes, and each miss changes this.
	_      [cacheLine - 12]byte
	mu     sync.Mutex // protects the rest, and what is written above
	closed bool       // whether nothing is kept in it any more
	nodes  int        // how many it has
	weight int64      // what they cost
	queues [2]queue[K, V]
	ghosts ghosts
	passes uint64   // how many nodes evictions have come to
	_      [16]byte // to whole cache lines
}

func (s *valueShard[K, V]) queue(number int) *queue[K, V] { return &s.queues[number-1] }

type indexPointer struct{ at pointer }

func (p *indexPointer) Load() []pointer    { return *(*[]pointer)(atomic.LoadPointer(&p.at)) }
func (p *indexPointer) Store(to []pointer) { atomic.StorePointer(&p.at, pointer(&to)) }

const (
	// A shard has so many values at least, by the limit, so that what makes room is chosen among many.
	leastOfShard    = 64
	mostCacheShards = 64
	bucketsAtFirst  = 4
	// Of a cache whose values have costs, nobody knows how many there will be. It begins with room
	// for so many.
	valuesAtFirst = 1 << 12
	// Another key's Forget ends a value's stamp with a chance of one in the number of slots. Plain Go
	// has one for each value, and the library one for two: see cells.
	mostSlots = 1 << 22
)

// valuesFor returns how many values a cache with this limit is made for.
func valuesFor(limit int64, hasCosts bool) int64 {
	if hasCosts && limit > valuesAtFirst {
		return valuesAtFirst
	}
	return limit
}

// slotsFor returns how many slots of stamps it has.
func slotsFor(limit int64, hasCosts bool) uint64 {
	n := valuesFor(limit, hasCosts)
	if n > mostSlots {
		n = mostSlots
	}
	return uint64(n)
}

// powerFor returns the largest power of two up to n, within these bounds.
func powerFor(n int64, least, most int) int {
	power := least
	for power < most && int64(power)*2 <= n {
		power *= 2
	}
	return power
}

func (t *values[K, V]) open(p *core, room *room, shards int) {
	t.p, t.room = p, room
	t.shards = make([]valueShard[K, V], shards)
	for i := range t.shards {
		t.shards[i].index.Store(make([]pointer, bucketsAtFirst))
	}
}

func (t *values[K, V]) shard(print uint32) *valueShard[K, V] {
	return &t.shards[print>>shardBit&uint32(len(t.shards)-1)]
}

func (t *values[K, V]) lock(print uint32) *valueShard[K, V] {
	s := t.shard(print)
	acquire(&s.mu)
	return s
}

func (s *valueShard[K, V]) first(index []pointer, print uint32) *pointer {
	return &index[print&uint32(len(index)-1)]
}

// find returns the key's node, whether current or not.
func (s *valueShard[K, V]) find(key K, print uint32) *node[K, V] {
	at := s.first(s.index.Load(), print)
	for {
		n := (*node[K, V])(atomic.LoadPointer(at))
		if n == nil || n.print == print && n.key == key {
			return n
		}
		at = &n.chain
	}
}

// hasMoved tells whether nodes may have moved since the version was this.
func (s *valueShard[K, V]) hasMoved(version uint32) bool {
	return version&1 != 0 || version != s.version.Load()
}

// find returns the key's node, whether current or not, as it is in its shard.
func (t *values[K, V]) find(key K, print uint32) *node[K, V] {
	s := t.shard(print)
	version := s.version.Load()
	n := s.find(key, print)
	if n == nil && s.hasMoved(version) {
		acquire(&s.mu)
		n = s.find(key, print)
		s.mu.Unlock()
	}
	return n
}

// A state is what a look finds of a node.
type state uint8

const (
	isNothing state = iota
	isForgotten
	isExpired
	isStale // it may stand in for an error
	isFresh
	isDue // fresh, and to be refreshed
)

// stateOf returns the state of a node, and its age by the steady clock where it has a life. One that is fresh is counted as a hit in
// by, unless that is nil.
//
// The node's value may be used if no Forget of its key, and none of its tags, has returned since its load began. Of the key the
// library says so.
func (t *values[K, V]) stateOf(n *node[K, V], by *tally) (is state, steady time.Duration) {
	is = isFresh
	if n.hasLife() {
		is, steady = t.stageOf(n)
	}
	if is < isFresh {
		by = nil
	}
	point(beforeLook)
	if !t.room.tags.areCurrent(n.extras) || !t.p.isStill(n.stamp(), by) {
		is = isForgotten
	}
	return is, steady
}

// stageOf returns the state of a node that has a life and is current, and its age.
func (t *values[K, V]) stageOf(n *node[K, V]) (is state, steady time.Duration) {
	l := &t.room.lives
	age, steady := n.age(l.now())
	switch past := n.past(age, l); {
	case past >= l.stale, past >= 0 && n.isError():
		return isExpired, steady
	case past >= 0:
		return isStale, steady
	case l.refresh > 0 && age >= l.refresh && !n.isError():
		return isDue, steady
	}
	return isFresh, steady
}

// hit is look for a fill that nobody records. It returns the key's node and its state, and takes no node out. It is isNothing where there is no
// node, and isForgotten where it may have missed one that moved. A Get that gets neither a fresh node from it nor isNothing calls look.
func (t *values[K, V]) hit(key K, print uint32, by *tally) (n *node[K, V], is state) {
	s := t.shard(print)
	version := s.version.Load()
	n = s.find(key, print)
	if n == nil {
		if s.hasMoved(version) {
			is = isForgotten
		}
		return nil, is
	}
	if n.extras != nil {
		return n, t.found(n, by)
	}
	// It has no life and no tags. This is what found does then, without its calls.
	point(beforeLook)
	if t.p.isStill(n.stamp(), by) {
		n.mark()
		is = isFresh
	}
	return n, is
}

// found returns the state of a node that a look has come to. One that is fresh is counted as a hit in by, unless that is nil, and it
// is noted that it was found.
func (t *values[K, V]) found(n *node[K, V], by *tally) state {
	is, steady := t.stateOf(n, by)
	if is >= isFresh {
		n.mark()
		if t.room.lives.idle > 0 {
			n.meet(steady, &t.room.lives)
		}
	}
	return is
}

// look returns the key's node if it is fresh, and whether it is due. One that cannot be used any more
// leaves, and is returned as gone. A node that it returns is counted as a hit in by, unless that is nil.
//
// A look that is recorded holds the record of a node that it returns.
func (t *values[K, V]) look(
	key K, print uint32, w watch, by *tally,
) (n *node[K, V], isToRefresh bool, gone *node[K, V]) {
	n = t.find(key, print)
	if n == nil {
		return nil, false, nil
	}
	if w.by != nil && !w.holds(n.record()) {
		// It has left since.
		return t.look(key, print, w, by)
	}
	is := t.found(n, by)
	if w.by != nil && is < isFresh {
		w.drops(n.record())
	}
	switch is {
	case isForgotten:
		return nil, false, t.drop(n, ReasonForgotten)
	case isExpired:
		return nil, false, t.drop(n, ReasonExpired)
	case isStale:
		return nil, false, nil
	}
	return n, is == isDue, nil
}

// current returns the key's node if it is fresh, and takes none out.
func (t *values[K, V]) current(key K, print uint32) *node[K, V] {
	if n := t.find(key, print); n != nil && t.isAtLeast(n, isFresh) {
		return n
	}
	return nil
}

func (t *values[K, V]) isAtLeast(n *node[K, V], least state) bool {
	is, _ := t.stateOf(n, nil)
	return is >= least
}

// standIn returns the key's value that is to be returned in place of a load's error, if there is one.
func (t *values[K, V]) standIn(key K, print uint32) *node[K, V] {
	if n := t.find(key, print); n != nil && !n.isError() && t.isAtLeast(n, isStale) {
		return n
	}
	return nil
}

// drop takes the node out, if it is in, and returns it then.
func (t *values[K, V]) drop(n *node[K, V], reason Reason) *node[K, V] {
	s := t.lock(n.print)
	defer s.mu.Unlock()
	if n.queue() == queueNone {
		return nil
	}
	t.remove(s, n, reason)
	t.room.weight.Add(-n.cost())
	return n
}

// takeOut takes the key's node out, unless its call is current: that was then loaded after the Forget
// which asks for this. It takes the lock to look, so that it comes before a keep, or after it.
func (t *values[K, V]) takeOut(key K, print uint32) *node[K, V] {
	s := t.lock(print)
	defer s.mu.Unlock()
	n := s.find(key, print)
	if n == nil || t.p.isStill(n.stamp(), nil) {
		return nil
	}
	t.remove(s, n, ReasonForgotten)
	t.room.weight.Add(-n.cost())
	return n
}

// keep puts the node of a call that has this stamp into the table, if the call is current. It returns
// what left for that.
//
// It comes before the call is settled. Calls of a key follow one another until then, so the node of a
// later call comes later: answers do not go back, however slow the leader is.
//
// It asks whether the call is current with the shard's lock. So one that a Forget has closed does not
// take the place of a later one. A Forget first ends the stamp, and then takes the node out with the
// lock. So either it comes to the lock first, and this sees that the stamp has ended; or it finds the
// node.
func (t *values[K, V]) keep(n *node[K, V], stamp Stamp) (kept bool, out []*node[K, V]) {
	if !n.isStamped(stamp) {
		return false, nil
	}
	point(beforeKeep)
	for try := 0; ; try++ {
		s := t.lock(n.print)
		if s.closed || !t.p.isStill(stamp, nil) || !t.room.tags.areCurrent(n.extras) {
			s.mu.Unlock()
			return false, out
		}
		kept, isOver := t.put(s, n, try, &out)
		s.mu.Unlock()
		point(afterKeep)
		if isOver || try == mostTries {
			return kept, out
		}
		t.makeRoom(n.cost(), s, &out)
	}
}

// A keep makes room so often in the shards of others, who may take it.
const mostTries = 16

// put puts the node in the place of the key's other one, or of none. It is over if that has come to
// something, and not if there was no room. The lock is held.
func (t *values[K, V]) put(s *valueShard[K, V], n *node[K, V], try int, out *[]*node[K, V]) (kept, isOver bool) {
	freed, queue := int64(0), queueSmall
	if old := s.find(n.key, n.print); old != nil {
		// Its marks may be written to meanwhile: one may be lost.
		queue, freed = old.queue(), old.cost()
		n.flags = n.flags&^flagMarks | old.marks()*flagMark
		t.remove(s, old, ReasonReplaced)
		t.leaves(old, out)
	} else if s.ghosts.has(n.print) {
		queue = queueMain
	}
	cost := n.cost()
	if cost < 0 || cost > t.room.limit.Load() {
		t.room.weight.Add(-freed)
		return false, true
	}
	if !t.reserve(s, cost, freed, try, out) {
		return false, false
	}
	t.insert(s, n, queue)
	return true, true
}

// leaves adds a node to those that are told of, if anybody is told.
func (t *values[K, V]) leaves(n *node[K, V], out *[]*node[K, V]) {
	if t.room.tells {
		*out = append(*out, n)
	}
}

// insert puts a node in, of a key that has none. The lock is held.
func (t *values[K, V]) insert(s *valueShard[K, V], n *node[K, V], queue int) {
	index := s.index.Load()
	if s.nodes >= len(index) {
		index = s.grow(index)
	}
	s.nodes++
	s.weight += n.cost()
	// Nobody else has it yet.
	n.flags = n.flags&^flagQueue | inQueue(queue)
	s.queue(queue).append(n)
	if c := t.countsOf(n.print); !n.isError() {
		c.kept.Add(1)
	}
	if rec := n.record(); rec != nil {
		rec.kept()
	}
	first := s.first(index, n.print)
	n.chain = *first
	atomic.StorePointer(first, pointer(n))
}

// remove takes a node out that is in. The lock is held.
func (t *values[K, V]) remove(s *valueShard[K, V], n *node[K, V], reason Reason) {
	at := s.first(s.index.Load(), n.print)
	for *at != pointer(n) {
		at = &(*node[K, V])(*at).chain
	}
	// A look that is at the node goes on to those after it.
	atomic.StorePointer(at, n.chain)
	s.queue(n.queue()).remove(n)
	s.nodes--
	s.weight -= n.cost()
	n.set(flagQueue|flagReason, uint32(reason)+1)
	if !n.isError() {
		t.countsOf(n.print).left[reason].Add(1)
	}
	if rec := n.record(); rec != nil {
		rec.left(reason)
	}
}

// grow gives the shard twice as many buckets. The lock is held. A look that follows a chain may come
// to another one, since a node has one successor. It finds nothing wrong there, and ends: each node
// leads to nodes that have moved before it, or to those that have not.
func (s *valueShard[K, V]) grow(old []pointer) []pointer {
	index := make([]pointer, 2*len(old))
	s.version.Add(1)
	for i := range old {
		for n := (*node[K, V])(old[i]); n != nil; {
			next := (*node[K, V])(n.chain)
			first := s.first(index, n.print)
			atomic.StorePointer(&n.chain, *first)
			*first = pointer(n)
			n = next
			point(beforeLook)
		}
	}
	s.index.Store(index)
	s.version.Add(1)
	return index
}

// close takes all nodes out, and nothing is kept in the table any more.
func (t *values[K, V]) close(reason Reason) (out []*node[K, V]) {
	for i := range t.shards {
		s := &t.shards[i]
		acquire(&s.mu)
		s.closed = true
		for _, queue := range []*queue[K, V]{s.queue(queueSmall), s.queue(queueMain)} {
			for n := queue.head; n != nil; n = queue.head {
				t.remove(s, n, reason)
				t.room.weight.Add(-n.cost())
				t.leaves(n, &out)
			}
		}
		s.index.Store(make([]pointer, 1))
		s.ghosts.rows = nil
		s.mu.Unlock()
	}
	return out
}

// nodesOf returns the nodes that a shard has now.
func (t *values[K, V]) nodesOf(s *valueShard[K, V]) (all []*node[K, V]) {
	acquire(&s.mu)
	defer s.mu.Unlock()
	for i := range s.queues {
		for n := s.queues[i].head; n != nil; n = n.after {
			all = append(all, n)
		}
	}
	return all
}

// all returns the nodes of the table.
func (t *values[K, V]) all() (all []*node[K, V]) {
	for i := range t.shards {
		all = append(all, t.nodesOf(&t.shards[i])...)
	}
	return all
}
