package singleflight

import (
	"hash/maphash"
	"sync"
	"sync/atomic"
)

// The tags of a cache. A ForgetTag takes the same time however many values have the tag: it counts
// the clock up, and writes the count as the age of the tag's hash. A load notes the clock before its
// function is called. So its value is older than a ForgetTag exactly if the age of one of its tags is
// later than that. Tags of one hash share an age, and so a value can be lost too early.
//
// A ForgetTag closes no call. A caller that joins one, and asks after a ForgetTag, could get a value
// from before it:
//
//	leader     leads the call; notes the clock, 0; its function reads the old value
//	writer     writes the origin; ForgetTag: the clock is 1, and so is the age of the tag; returns
//	joiner     begins, notes the clock, 1; joins the call
//	leader     its function returns the value with the tag; settles the call
//	joiner     gets the value: 0 < age 1, and 0 < 1, so that ForgetTag may have returned; asks again
//
// The age alone does not tell whether that ForgetTag had returned before the joiner began: a later one
// of the tag, which has not, may have written the same age since. So the joiner asks again if any had
// begun between the load and itself, and the tag has a later age than the load.
//
// Once is enough. The call of the first answer has ended, or was forgotten, when the joiner asks
// again, so the next call began after it had noted the clock. A value that is found, or stands in for
// an error, is looked at after that call began.
type tags struct {
	seed  maphash.Seed
	clock atomic.Uint64 // how many ForgetTags have begun
	ages  agesPointer   // by a hash of the tag: the last ForgetTag; none before the first
	size  int           // of the ages: a power of two
	mu    sync.Mutex    // taken to make them
}

type agesPointer struct{ at pointer }

func (p *agesPointer) Load() []atomic.Uint64 {
	if ages := (*[]atomic.Uint64)(atomic.LoadPointer(&p.at)); ages != nil {
		return *ages
	}
	return nil
}
func (p *agesPointer) Store(to []atomic.Uint64) { atomic.StorePointer(&p.at, pointer(&to)) }

// Four ages for each value, and so many at least and at most.
const (
	agesOfValue = 4
	fewestAges  = 64
	mostAges    = 1 << 16
)

func (t *tags) open(entries int64) {
	t.seed = maphash.MakeSeed()
	t.size = fewestAges
	for t.size < mostAges && int64(t.size/agesOfValue) < entries {
		t.size *= 2
	}
}

func (t *tags) placeOf(tag string) uint32 { return uint32(hash(t.seed, tag)) & uint32(t.size-1) }

// What is known of a value beside the usual. Most values have none, or share those of their era.
type extras struct {
	ahead int64     // how far the wall clock was ahead when it was born; see eraOf
	start int64     // when its era began by the steady clock
	began uint64    // the clock of the tags when its load began
	tags  []uint32  // the places of their ages
	few   [2]uint32 // which has the tags if they are so few
	rare  *rare
}

// What is known of few values.
type rare struct {
	err  error       // that is kept
	cost int64       // where the node is dear
	rec  *callRecord // of a value that was loaded or put while the cache was recorded
}

// extrasOf returns the extras of one value, with these tags.
func (r *room) extrasOf(from birth, names []string) *extras {
	e := &extras{ahead: from.born.ahead(), start: from.born.steady, began: from.began}
	if e.tags = e.few[:0]; len(names) > len(e.few) {
		e.tags = make([]uint32, 0, len(names))
	}
	for _, name := range names {
		e.tags = append(e.tags, r.tags.placeOf(name))
	}
	return e
}

// failed returns the error that a node with these extras stands for, if it does.
func (e *extras) failed() error {
	if e == nil || e.rare == nil {
		return nil
	}
	return e.rare.err
}

// forget makes the age of the tag now. It returns the place of its age, and which ForgetTag this is.
func (t *tags) forget(tag string) (place uint32, now uint64) {
	place = t.placeOf(tag)
	age := &t.agesNow()[place]
	now = t.clock.Add(1)
	point(beforeForget)
	for was := age.Load(); was < now && !age.CompareAndSwap(was, now); was = age.Load() {
	}
	return place, now
}

func (t *tags) agesNow() []atomic.Uint64 {
	if ages := t.ages.Load(); ages != nil {
		return ages
	}
	acquire(&t.mu)
	defer t.mu.Unlock()
	if ages := t.ages.Load(); ages != nil {
		return ages
	}
	ages := make([]atomic.Uint64, t.size)
	t.ages.Store(ages)
	return ages
}

// latest returns when the tags of a value were last forgotten. Of an error that has none it returns when any tag was: nobody
// knows which ones its key's value would have had.
func (t *tags) latest(e *extras) (latest uint64) {
	if len(e.tags) == 0 && e.failed() != nil {
		return t.clock.Load()
	}
	ages := t.ages.Load()
	if ages == nil {
		return 0
	}
	for _, place := range e.tags {
		if age := ages[place].Load(); age > latest {
			latest = age
		}
	}
	return latest
}

// areCurrent tells whether no tag of the value was forgotten since its load began.
func (t *tags) areCurrent(e *extras) bool {
	return e == nil || len(e.tags) == 0 && e.rare == nil || t.latest(e) <= e.began
}

// mayHaveEnded tells whether a ForgetTag of the value may have returned before a caller noted the clock.
func (t *tags) mayHaveEnded(e *extras, noted uint64) bool {
	return e != nil && e.began < noted && !t.areCurrent(e)
}
