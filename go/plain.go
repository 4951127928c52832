package singleflight

import (
	"hash/maphash"
	"sync"
	"sync/atomic"
	"unsafe"
)

type pointer = unsafe.Pointer

// So many bytes has a line of the processor's cache. Structs that different processors write are padded by it, so that they seldom
// share a line.
const cacheLine = 64

// A plainTable says in plain Go what the library says: which caller leads, which ones join, what a Forget ends, and what is current. It is
// tested, against the library too, and not proved.
//
// Keys are hashed to slots, each of which has a number: how many Forgets of the slot's keys there were. Slots that follow one another
// are of one shard, which has a lock and the open calls of its keys.
type plainTable struct {
	seed   maphash.Seed
	shards []shard
	bits   uint            // a shard has 1<<bits slots
	ages   []atomic.Uint64 // by slot: the number, which is written under the lock of its shard
	first  uint64          // what a number begins with in stamps; another in each group
}

type shard struct {
	mu      sync.Mutex // protects the rest
	calls   map[string]*call
	spare   *call // which nobody has joined, and which is used again
	open    int   // how many calls have not ended, also of those that a Forget has closed
	loads   uint64
	joins   uint64
	forgets uint64
	_       [cacheLine]byte
}

const (
	fewestShards = 8
	usualShards  = 64
	mostShards   = 1 << 12
	loadsOfShard = 8 // at one time, so that callers of different keys seldom meet at its lock
	bitsOfShard  = 4
	slotsOfShard = 1 << bitsOfShard // or more
)

func (t *plainTable) open(size *sizes) error {
	shards, slots := usualShards, uint64(slotsOfShard)
	if size.isSmall {
		shards = fewestShards
	}
	for shards < mostShards && shards*loadsOfShard < int(size.loads) {
		shards *= 2
	}
	for t.bits = bitsOfShard; slots*uint64(shards) < size.slots; t.bits++ {
		slots *= 2
	}
	t.seed = maphash.MakeSeed()
	t.shards = make([]shard, shards)
	t.ages = make([]atomic.Uint64, slots*uint64(shards))
	t.first = random()>>1 | 1
	return nil
}

// random returns a number that nobody knows.
func random() uint64 { return new(maphash.Hash).Sum64() }

// slotOf returns the slot of a key, and its shard.
func (t *plainTable) slotOf(key string) (slot uint64, s *shard) {
	slot = hash(t.seed, key) & uint64(len(t.ages)-1)
	return slot, &t.shards[slot>>t.bits]
}

// stampOf returns the stamp that is current in the slot.
func (t *plainTable) stampOf(slot uint64) words {
	return words{0, slot, t.first + t.ages[slot].Load()}
}

// ask leads the key's new call, or joins its open one.
func (t *plainTable) ask(a *asking) {
	slot, s := t.slotOf(a.key)
	acquire(&s.mu)
	defer s.mu.Unlock()
	c := s.calls[a.key]
	if a.leads = c == nil; !a.leads {
		c.shared = true
		c.holders.Add(1)
		if c.done == nil {
			c.done = make(chan struct{})
		}
		s.joins++
		a.call = c
		return
	}
	if c, s.spare = s.spare, nil; c == nil {
		c = new(call)
	}
	if s.calls == nil {
		s.calls = map[string]*call{}
	}
	s.calls[a.key] = c
	s.loads++
	s.open++
	c.key, c.slot, c.asked = a.key, slot, asked{callID{uint32(slot >> t.bits), 0, s.loads}, t.stampOf(slot)}
	c.holders.Store(1)
	a.call, a.asked = c, c.asked
}

// share is for the library's table: here a call is shared at once.
func (t *plainTable) share(*asking) {}

// settle ends the call that was led. One that nobody has joined is used again, unless the leader wants to keep it.
func (t *plainTable) settle(a *asking, keeps bool) (isTold bool) {
	c := a.call
	s := &t.shards[c.slot>>t.bits]
	acquire(&s.mu)
	defer s.mu.Unlock()
	a.got.Joiners, a.got.Shared, a.isClosed = int(c.holders.Load())-1, c.shared, c.closed
	if !c.closed {
		delete(s.calls, c.key)
	}
	s.open--
	if isTold = c.shared || keeps; !isTold {
		c.key, c.closed = "", false
		s.spare = c
	}
	return isTold
}

// leave lets go of the call. Whether it has ended, and nobody holds it any more, which is asked for recordings alone.
func (t *plainTable) leave(a *asking, hasEnded bool) (last bool) {
	return hasEnded && a.call.rec.Load() != nil && a.call.holders.Add(-1) == 0
}

// forget closes the key's open call, if it has one, and ends the stamps of those before.
func (t *plainTable) forget(key string) (id callID, closed bool) {
	slot, s := t.slotOf(key)
	acquire(&s.mu)
	defer s.mu.Unlock()
	c := s.calls[key]
	if closed = c != nil; closed {
		id = c.id
		s.closes(c)
	}
	t.ends(s, slot)
	return id, closed
}

// forgetCall forgets this call of the key, if it is open or has a stamp that has not ended.
func (t *plainTable) forgetCall(key string, it Call, isEnded bool) Hit {
	slot, s := t.slotOf(key)
	acquire(&s.mu)
	defer s.mu.Unlock()
	hit := Missed
	if c := s.calls[key]; c != nil && c.id == it.id {
		s.closes(c)
		hit = Closed
	} else if it.stamp.words() == t.stampOf(slot) && !isEnded {
		hit = Cleared
	}
	if hit != Missed {
		t.ends(s, slot)
	}
	return hit
}

// closes closes an open call: nobody joins it any more. The lock is held.
func (s *shard) closes(c *call) {
	c.closed = true
	delete(s.calls, c.key)
}

// ends ends the stamps of the slot. The lock of its shard is held.
func (t *plainTable) ends(s *shard, slot uint64) {
	t.ages[slot].Add(1)
	s.forgets++
}

func (t *plainTable) isStill(stamp Stamp, by *tally) (is bool) {
	w := stamp.words()
	if is = w.slot < uint64(len(t.ages)) && w == t.stampOf(w.slot); is && by != nil {
		by.looked(true)
	}
	return is
}

func (t *plainTable) count(st *Stats) {
	for i := range t.shards {
		s := &t.shards[i]
		s.mu.Lock()
		st.Loads += s.loads
		st.Joins += s.joins
		st.Forgets += s.forgets
		st.InUse += uint64(s.open)
		s.mu.Unlock()
	}
}
