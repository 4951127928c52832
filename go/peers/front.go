package peers

import (
	"sync/atomic"
	"time"
)

// A front has the names that keys had lately, so that a hit makes no name. It also has the values of
// keys that are asked for again and again, so that a hit takes no lock. It is a table of rows. A key
// has one row, and may stand at any place of it.
type front struct {
	places []atomic.Pointer[named]
	limit  int64         // bytes of the values that are kept, or 0
	bytes  atomic.Int64  // how many there are
	hand   atomic.Uint64 // where tidy goes on
}

const (
	rowPlaces  = 8 // their pointers are one cache line
	leastNames = 4096
	mostNames  = 1 << 16
	mostNamed  = 256         // bytes of a key that stands here
	frontFor   = time.Second // then one Get asks groupcache, which so learns that the key is in use
)

// A named is a key with the name that it had lately. The key has it as long as no version changes, and
// the slot of its TTL lasts.
type named struct {
	hash    uint64
	renamed atomic.Uint64 // of the versions, when the key had this name
	key     string
	value   string       // what was loaded under this name, where isKept
	asks    atomic.Int64 // when on the wall a Get asks groupcache again
	isKept  bool
	isLarge bool        // the value is too large to be kept
	isUsed  atomic.Bool // lately
	slot    uint32      // of the TTL
	end     int64       // nanoseconds on the wall, when the slot ends
	version string
	name    string
	_       [16]byte // so that what a hit reads is one cache line
}

// newFront returns a front for a cache of so many bytes.
func newFront(bytes int64) *front {
	names := leastNames
	for names < mostNames && int64(names) < bytes/4096 {
		names *= 2
	}
	return &front{places: make([]atomic.Pointer[named], names)}
}

// row returns the places of the hash, and at which of them a search begins.
func (f *front) row(hash uint64) (row []atomic.Pointer[named], first uint64) {
	at := hash & uint64(len(f.places)-1) &^ (rowPlaces - 1)
	return f.places[at : at+rowPlaces : at+rowPlaces], hash >> 32
}

// find returns what is known of the key, or nil.
func (f *front) find(hash uint64, key string) *named {
	row, first := f.row(hash)
	for i := uint64(0); i < rowPlaces; i++ {
		at := row[(first+i)%rowPlaces].Load()
		if at == nil {
			return nil // a place that was taken is never free again, so the key would stand here
		}
		if at.hash == hash && at.key == key {
			return at
		}
	}
	return nil
}

// put puts it at the place of its key, at a free one, or at one that was not used lately.
func (f *front) put(now *named) {
	row, first := f.row(now.hash)
	var to *atomic.Pointer[named]
	for i := uint64(0); i < rowPlaces; i++ {
		place := &row[(first+i)%rowPlaces]
		at := place.Load()
		if at == nil || at.hash == now.hash && at.key == now.key {
			to = place
			break
		}
		if to == nil && !at.isUsed.Load() {
			to = place
		}
	}
	if to == nil {
		for i := range row {
			row[i].Load().isUsed.Store(false)
		}
		to = &row[first%rowPlaces]
	}
	before := to.Swap(now)
	if f.limit > 0 && f.bytes.Add(now.size()-before.size()) > f.limit {
		f.tidy()
	}
}

// tidy drops values that were not used lately, until the rest is within the limit.
func (f *front) tidy() {
	for steps := 2 * len(f.places); steps > 0 && f.bytes.Load() > f.limit; steps-- {
		place := &f.places[f.hand.Add(1)%uint64(len(f.places))]
		if at := place.Load(); at != nil && at.isKept && !at.isUsed.Swap(false) && place.CompareAndSwap(at, at.with("", false)) {
			f.bytes.Add(-at.size())
		}
	}
}

// size is what a value counts for, with what is around it.
func (a *named) size() int64 {
	if a == nil || !a.isKept {
		return 0
	}
	return int64(len(a.key)+len(a.name)+len(a.version)+len(a.value)) + 160
}

// with returns the same name with another value, or with none.
func (a *named) with(value string, isKept bool) *named {
	b := &named{hash: a.hash, key: a.key, value: value, isKept: isKept, slot: a.slot, end: a.end, version: a.version, name: a.name}
	b.renamed.Store(a.renamed.Load())
	return b
}

// keep keeps a value that was loaded under the name. One that would push too many others out is not
// kept.
func (f *front) keep(at *named, value string, now time.Time) {
	b := at.with(value, int64(len(value)) <= f.limit/16)
	if !b.isKept {
		b.value, b.isLarge = "", true
	}
	b.asks.Store(now.Add(frontFor).UnixNano())
	b.isUsed.Store(true)
	f.put(b)
}

// use tells whether a Get returns the value that is kept. One Get in a while is told that it does not.
func (a *named) use(wall int64) bool {
	if asks := a.asks.Load(); wall > asks && a.asks.CompareAndSwap(asks, wall+int64(frontFor)) {
		return false
	}
	if !a.isUsed.Load() {
		a.isUsed.Store(true)
	}
	return true
}
