package singleflight

import (
	"math/bits"
	"sync/atomic"
	"time"
)

// A tally counts the looks of a cache that found a value, and those that did not.
type tally struct {
	byGoroutine []looks // each for some of the goroutines
	byProcessor []hits
}

type looks struct {
	hits, misses atomic.Uint64
	_            [cacheLine - 16]byte
}

// The hits of one processor, which alone writes them, with increment.
type hits struct {
	n uint64
	_ [cacheLine - 8]byte
}

const (
	mostLooks  = 16
	mostCounts = 16
)

// The numbers of some of the keys, by their hash.
type counts struct {
	kept   atomic.Uint64
	left   [reasons]atomic.Uint64
	loads  atomic.Uint64
	errors atomic.Uint64
	took   atomic.Int64
	times  [LoadTimeBuckets]atomic.Uint64
	// Rarer ones.
	found     atomic.Uint64 // Gets that found the value once they led: hits after all
	refreshes atomic.Uint64
	stale     atomic.Uint64
	forgets   atomic.Uint64 // of tags, and of all
	repeats   atomic.Uint64 // calls that were joined, and not by a Get for good
	_         [24]byte      // to whole cache lines
}

func (r *room) countsOf(print uint32) *counts {
	return &r.counts[print>>shardBit&uint32(len(r.counts)-1)]
}

func (t *values[K, V]) countsOf(print uint32) *counts { return t.room.countsOf(print) }

func (t *tally) open(looksOf int) {
	t.byGoroutine = make([]looks, looksOf)
	t.byProcessor = make([]hits, processors())
}

func (t *tally) looked(found bool) {
	l := &t.byGoroutine[here()&uint(len(t.byGoroutine)-1)]
	if found {
		l.hits.Add(1)
	} else {
		l.misses.Add(1)
	}
}

func (t *tally) missed() { t.looked(false) }

// count returns how many looks found a value, and how many did not.
func (t *tally) count() (found, missed uint64) {
	for i := range t.byGoroutine {
		found += t.byGoroutine[i].hits.Load()
		missed += t.byGoroutine[i].misses.Load()
	}
	for i := range t.byProcessor {
		found += atomic.LoadUint64(&t.byProcessor[i].n)
	}
	return found, missed
}

// LoadTimeBuckets is how many buckets CacheStats has of load times.
const LoadTimeBuckets = 15

// LoadTimeBound returns the longest time that the bucket counts: 4 to its power microseconds, from
// 1 microsecond for bucket 0 to 67 seconds. The last bucket has no bound, which is told by 0.
func LoadTimeBound(bucket int) time.Duration {
	if bucket < 0 || bucket >= LoadTimeBuckets-1 {
		return 0
	}
	return time.Microsecond << (2 * bucket)
}

// bucketOf returns the bucket of a load time.
func bucketOf(took time.Duration) int {
	if took <= time.Microsecond {
		return 0
	}
	// The least power of 4 that is not less than the microseconds, of which a part counts as one.
	bucket := (bits.Len64(uint64((took-1)/time.Microsecond)) + 1) / 2
	if bucket >= LoadTimeBuckets {
		return LoadTimeBuckets - 1
	}
	return bucket
}

// timed counts how long a load function took.
func (n *counts) timed(took time.Duration) {
	if took < 0 {
		took = 0
	}
	n.took.Add(int64(took))
	n.times[bucketOf(took)].Add(1)
}

// CacheStats are the numbers of a cache since it was made.
type CacheStats struct {
	Hits        uint64 // Gets and GetIfPresents that found a value, or a kept error
	Misses      uint64 // and those that found none
	Loads       uint64 // keys that were loaded, each of a batch, also in the background; not those of Puts
	Errors      uint64 // keys whose load failed, panicked or ended its goroutine
	Joins       uint64 // Gets that waited for the load of another
	Forgets     uint64 // Forgets of a key, of a tag and of all, Puts, and ForgetIfs that forgot
	Refreshes   uint64 // loads that were begun to replace a value that was still returned
	Stale       uint64 // loads that failed, in whose place an old value was returned
	Kept        uint64 // values that came into the cache
	Left        uint64 // those that left it
	Evictions   uint64 // those of these that made room for others
	Expirations uint64 // and those that were found too old
	Values      uint64 // values that are in the cache
	Weight      int64  // what they cost together, with the kept errors
	Limit       int64  // the most that they may cost
	InUse       uint64 // load functions that run, also those of forgotten calls

	LeftFor   [5]uint64               // the values that left, by their Reason
	LoadTime  time.Duration           // how long all loads took together; that of a batch counts once
	LoadTimes [LoadTimeBuckets]uint64 // how many took how long, one of a batch as one: see LoadTimeBound

	Calls Stats // of the calls by which it loads; each Put is one too
}

// Stats returns the numbers of the cache. While others use the cache, the numbers are of slightly
// different moments.
func (c *Cache[K, V]) Stats() CacheStats {
	st := CacheStats{Limit: c.Limit()}
	var found, forgets, repeats uint64
	// What leaves was counted before as kept.
	for i := range c.room.counts {
		n := &c.room.counts[i]
		for reason := range n.left {
			st.LeftFor[reason] += n.left[reason].Load()
		}
		st.Errors += n.errors.Load()
		st.Stale += n.stale.Load()
		found += n.found.Load()
		forgets += n.forgets.Load()
		repeats += n.repeats.Load()
		st.LoadTime += time.Duration(n.took.Load())
		for i := range n.times {
			st.LoadTimes[i] += n.times[i].Load()
		}
	}
	for i := range c.room.counts {
		n := &c.room.counts[i]
		st.Kept += n.kept.Load()
		st.Loads += n.loads.Load()
		st.Refreshes += n.refreshes.Load()
	}
	for _, left := range st.LeftFor {
		st.Left += left
	}
	st.Evictions, st.Expirations = st.LeftFor[ReasonRoom], st.LeftFor[ReasonExpired]
	st.Values = st.Kept - st.Left
	st.Weight = c.Weight()
	st.Hits, st.Misses = c.tally.count()
	if found <= st.Misses {
		st.Hits, st.Misses = st.Hits+found, st.Misses-found
	}
	st.Calls = c.calls()
	// Each was counted as a join before.
	st.Joins, st.InUse, st.Forgets = st.Calls.Joins-repeats, st.Calls.InUse, st.Calls.Forgets+forgets
	return st
}

// calls returns the numbers of the calls of all fills.
func (c *Cache[K, V]) calls() Stats {
	acquire(&c.mu)
	defer c.mu.Unlock()
	c.fold()
	st := c.now.Load().p.stats()
	st.add(c.past)
	for _, p := range c.olds {
		st.add(p.stats())
	}
	return st
}

// fold counts what older fills did, whose loads have ended. The lock is held.
func (c *Cache[K, V]) fold() {
	kept := c.olds[:0]
	for _, p := range c.olds {
		if st := p.stats(); st.InUse > 0 {
			kept = append(kept, p)
		} else {
			c.past.add(st)
		}
	}
	for i := len(kept); i < len(c.olds); i++ {
		c.olds[i] = nil
	}
	c.olds = kept
}

func (st *Stats) add(other Stats) {
	st.Loads += other.Loads
	st.Joins += other.Joins
	st.Forgets += other.Forgets
	st.InUse += other.InUse
}
