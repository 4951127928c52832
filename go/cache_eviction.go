package singleflight

// What makes room is chosen by S3-FIFO (Juncheng Yang and others, "FIFO queues are all you need for
// cache eviction", SOSP 2023), in each shard. A value comes into the small queue, which has a tenth of
// the shard's weight, and moves to the main one if it was found meanwhile. So a key that is asked for
// once pushes out none that is asked for again. A key that left the small queue lately, of which there
// is a ghost, comes into the main one at once.
//
// An eviction passes mostPasses nodes at most. Each that it passes has lost a mark, which a look set,
// or has moved to the main queue, which it does once. So evictions take a constant number of steps for
// each value that is kept and each look that finds one, whatever the cache had before.
const (
	queueNone = iota // of a node that is in neither
	queueSmall
	queueMain

	smallPart   = 10
	mostMarks   = 3
	mostPasses  = 128
	ghostsOfRow = 8
)

// A queue has the nodes of a shard in the order in which they came.
type queue[K comparable, V any] struct {
	head, tail *node[K, V]
	weight     int64
}

// inQueue returns the flags of a node that is in the queue of this number.
func inQueue(number int) uint32 { return uint32(number) * (flagQueue / 3) }

// append puts a node at the end. The caller sets the node's flags, with others that change then: each change is a locked instruction.
func (q *queue[K, V]) append(n *node[K, V]) {
	n.before, n.after = q.tail, nil
	if q.tail == nil {
		q.head = n
	} else {
		q.tail.after = n
	}
	q.tail = n
	q.weight += n.cost()
}

// remove takes a node out. The caller sets its flags, as for append.
func (q *queue[K, V]) remove(n *node[K, V]) {
	if n.before == nil {
		q.head = n.after
	} else {
		n.before.after = n.after
	}
	if n.after == nil {
		q.tail = n.before
	} else {
		n.after.before = n.before
	}
	// A node that has left holds no other.
	n.before, n.after = nil, nil
	q.weight -= n.cost()
}

// The hashes of keys that left the small queue lately: about as many as there are nodes. A row has
// those of a part of all hashes, the latest first, and 0 where there are fewer.
type ghosts struct{ rows [][ghostsOfRow]uint32 }

func (g *ghosts) row(print uint32) *[ghostsOfRow]uint32 {
	// The upper bits have chosen the shard.
	return &g.rows[uint64(print&(1<<shardBit-1))*uint64(len(g.rows))>>shardBit]
}

func (g *ghosts) has(print uint32) bool {
	if len(g.rows) > 0 {
		for _, ghost := range g.row(print) {
			if ghost == print|1 {
				return true
			}
		}
	}
	return false
}

// add adds the hash of a key that leaves a shard of so many nodes. With another number of rows many
// ghosts are not found; that is rare, since a shard grows while there is room, when nothing leaves.
func (g *ghosts) add(print uint32, nodes int) {
	if len(g.rows)*ghostsOfRow < nodes {
		g.rows = make([][ghostsOfRow]uint32, nodes/ghostsOfRow+1)
	}
	row := g.row(print)
	copy(row[1:], row[:])
	row[0] = print | 1
}

// evict takes out the node whose turn it is, if there is one. The lock is held.
func (t *values[K, V]) evict(s *valueShard[K, V]) *node[K, V] {
	small, main := s.queue(queueSmall), s.queue(queueMain)
	for passes := 1; ; passes++ {
		isSmall := small.head != nil && (main.head == nil || small.weight > s.weight/smallPart)
		q := main
		if isSmall {
			q = small
		}
		n := q.head
		if n == nil {
			return nil
		}
		s.passes++
		marks := n.marks()
		if marks == 0 || passes > mostPasses {
			if isSmall {
				s.ghosts.add(n.print, s.nodes)
			}
			t.remove(s, n, ReasonRoom)
			return n
		}
		if isSmall {
			marks = 1
		}
		q.remove(n)
		n.set(flagMarks|flagQueue, (marks-1)*flagMark|inQueue(queueMain))
		main.append(n)
	}
}

// reserve makes room for the cost in the shard, where so much is free that was reserved before. It
// fails if the shard has no more to give; or if it has little, and the others are to give first. The
// lock is held.
//
// The weight is changed once, and not at all where as much has left as comes. So it is not what all
// shards wait for.
func (t *values[K, V]) reserve(s *valueShard[K, V], cost, freed int64, try int, out *[]*node[K, V]) bool {
	for {
		limit, weight := t.room.limit.Load(), t.room.weight.Load()
		if weight-freed <= limit-cost {
			if cost == freed || t.room.weight.CompareAndSwap(weight, weight+cost-freed) {
				return true
			}
			continue
		}
		var n *node[K, V]
		if try > 0 || !t.isPoor(s, limit) {
			n = t.evict(s)
		}
		if n == nil {
			t.room.weight.Add(-freed)
			return false
		}
		freed += n.cost()
		t.leaves(n, out)
	}
}

// isPoor tells whether the shard has less than half of what each would have of the limit. If it gave
// room to each of its values, it would never have more.
func (t *values[K, V]) isPoor(s *valueShard[K, V], limit int64) bool {
	return len(t.shards) > 1 && s.weight < limit/int64(2*len(t.shards))
}

// makeRoom evicts what costs so much from other shards: those that have their part of the limit, and if
// these are too few, any. No lock is held.
func (t *values[K, V]) makeRoom(cost int64, not *valueShard[K, V], out *[]*node[K, V]) {
	freed := int64(0)
	part := t.room.limit.Load() / int64(len(t.shards))
	for _, least := range []int64{part, 0} {
		start := int(t.room.turn.Add(1))
		for i := range t.shards {
			s := &t.shards[(start+i)&(len(t.shards)-1)]
			if s == not || freed >= cost {
				continue
			}
			acquire(&s.mu)
			for freed < cost && s.weight >= least {
				n := t.evict(s)
				if n == nil {
					break
				}
				freed += n.cost()
				t.room.weight.Add(-n.cost())
				t.leaves(n, out)
			}
			s.mu.Unlock()
		}
	}
}

// shrink evicts until the values cost no more than the limit, which was made less. A keep that has seen
// the earlier limit has the lock of its shard: it is waited for.
func (t *values[K, V]) shrink() (out []*node[K, V]) {
	for i := range t.shards {
		acquire(&t.shards[i].mu)
		t.shards[i].mu.Unlock()
	}
	for try := 0; try < mostTries; try++ {
		over := t.room.weight.Load() - t.room.limit.Load()
		if over <= 0 {
			break
		}
		t.makeRoom(over, nil, &out)
	}
	return out
}
