package singleflight

import (
	"math"
	"sync/atomic"
	"time"
)

// How long the values of a cache live. Where a number is 0 there is no such end.
type lifetimes struct {
	has      bool // whether one of these is set, so that each look reads the clock
	ttl      time.Duration
	jitter   float64
	idle     time.Duration
	refresh  time.Duration
	stale    time.Duration
	errorTTL func(error) time.Duration
	clock    func() instant // that of WithClock
}

// A moment by the steady clock and by the wall clock, in nanoseconds.
type instant struct{ steady, wall int64 }

// ahead returns how far the wall clock is ahead of the steady one.
func (i instant) ahead() int64 { return i.wall - i.steady }

var started = time.Now()

func instantOf(t time.Time) instant { return instant{int64(t.Sub(started)), t.UnixNano()} }

// now returns this moment by both clocks, or by the one of WithClock.
func (l *lifetimes) now() instant {
	if l.clock != nil {
		return l.clock()
	}
	return instantOf(time.Now())
}

// since returns how long ago that was by the steady clock. It does not read the wall clock, which costs a call of the system's code.
func (l *lifetimes) since(steady int64) time.Duration {
	if l.clock != nil {
		return time.Duration(l.clock().steady - steady)
	}
	return time.Since(started) - time.Duration(steady)
}

// instantOfAny is instantOf for the clock of a test, which may be more than 292 years off: at the zero Time, say. Sub gives no more.
func instantOfAny(t time.Time) instant {
	i := instantOf(t)
	if i.steady == math.MinInt64 || i.steady == math.MaxInt64 {
		i.steady = i.wall - started.UnixNano()
	}
	return i
}

// A node has room for so many bits of its birth, which are the nanoseconds since its era began.
const bornBits = 44

// Births that saw the wall clock as far ahead of the steady one, but for this, may be of one era. Two
// readings of these clocks differ by some nanoseconds, or more where the thread was stopped between
// them. Where the machine was suspended, the wall clock gains seconds to days.
const sameEra = int64(time.Millisecond)

type extrasPointer struct{ at pointer }

func (p *extrasPointer) Load() *extras    { return (*extras)(atomic.LoadPointer(&p.at)) }
func (p *extrasPointer) Store(to *extras) { atomic.StorePointer(&p.at, pointer(to)) }

// eraOf returns the extras of a value that is born then, has a life, and nothing else to be known of
// it. The values of an era share them, so none has to keep what the wall clock said.
//
// An era is never less ahead than a birth that is of it, and sameEra more at most. So no value seems
// older than it is. What the steady clock says is exact, and what the wall clock gains on it counts
// but for sameEra.
func (r *room) eraOf(born instant) *extras {
	e, ahead := r.era.Load(), born.ahead()
	if e == nil || uint64(e.ahead-ahead) > uint64(sameEra) || uint64(born.steady-e.start)>>bornBits > 0 {
		// A load that began earlier may end later: the next era has room for its birth. Where another
		// goroutine begins an era meanwhile, there are two.
		e = &extras{ahead: ahead, start: born.steady - 1<<(bornBits-1)}
		r.era.Store(e)
	}
	return e
}

// lives gives the node a life, from its birth by the steady clock. Its extras have room for that.
func (n *node[K, V]) lives(born int64) {
	since := uint64(born - n.extras.start)
	n.born = uint32(since)
	n.flags |= flagLife | uint32(since>>32<<12)&flagBorn
}

// age returns how old a value with a life is by the clock that says it is older, and by the steady one.
func (n *node[K, V]) age(now instant) (age, steady time.Duration) {
	since := uint64(atomic.LoadUint32(&n.flags)&flagBorn)<<(32-12) | uint64(n.born)
	steady = time.Duration(now.steady - n.extras.start - int64(since))
	age = steady
	if gained := now.ahead() - n.extras.ahead; gained > 0 {
		if age += time.Duration(gained); age < steady {
			age = math.MaxInt64
		}
	}
	// A steady clock of tests may be set back.
	if age < 0 {
		age = 0
	}
	if steady < 0 {
		steady = 0
	}
	return age, steady
}

// past returns how long ago a node of this age had its end: below 0 if it has not.
func (n *node[K, V]) past(age time.Duration, l *lifetimes) time.Duration {
	past, ttl := time.Duration(-1), n.mortal().ttl
	if ttl > 0 {
		past = age - ttl
	}
	if l.idle > 0 && !n.isError() {
		unused := age - time.Duration(atomic.LoadInt32(&n.met))*l.tick()
		if unused < 0 {
			unused = 0
		}
		if idle := unused - l.idle; ttl == 0 || idle > past {
			past = idle
		}
	}
	return past
}

// A node's last look is written down in so long steps, so that most looks write nothing. A node has room
// for 2^31 of them. A value that is older, which takes four years for an idle time of a second, seems to
// have been found too early, so it is loaded again.
const idleSteps = 16

func (l *lifetimes) tick() time.Duration { return l.idle/idleSteps + 1 }

// meet notes that a value was found which is so old by the steady clock. Where the wall clock has gained
// since its birth, the value seems to be idle for that time too. If the gain were in what is noted, a wall
// clock that is set back would make it live longer.
func (n *node[K, V]) meet(steady time.Duration, l *lifetimes) {
	met := steady / l.tick()
	if met > math.MaxInt32 {
		met = math.MaxInt32
	}
	if met := int32(met); met != atomic.LoadInt32(&n.met) {
		atomic.StoreInt32(&n.met, met)
	}
}

// live returns how long a value is to live whose loader has said this: 0 without end. It is not to be
// kept if that is below 0.
func (l *lifetimes) live(said time.Duration) time.Duration {
	if said == 0 {
		said = l.ttl
	}
	if said > 0 && l.jitter > 0 {
		part := float64(random()>>11) / (1 << 53)
		if said -= time.Duration(l.jitter * part * float64(said)); said < 1 {
			said = 1
		}
	}
	return said
}
