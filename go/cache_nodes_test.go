package singleflight

import (
	"context"
	"math"
	"math/rand"
	"testing"
	"time"
)

// The clocks of births that come one after the other, and of what happens between.
type drifting struct {
	random *rand.Rand
	now    instant
}

// passes lets a time pass, from a nanosecond to some days, and changes how far the wall clock is ahead.
func (d *drifting) passes() {
	passed := d.random.Int63n(1 << d.random.Intn(50))
	gained := int64(0)
	switch d.random.Intn(40) {
	case 0:
		gained = d.random.Int63n(4*sameEra) - 2*sameEra
	case 1:
		gained = d.random.Int63n(int64(10*time.Hour)) - int64(5*time.Hour)
	default:
		gained = d.random.Int63n(100) - 50
	}
	d.now.steady += passed
	d.now.wall += passed + gained
}

// Ages by the steady clock are exact, and what the wall clock gains counts to within sameEra: however far
// apart births are, whatever was set, and also of a value whose load began long before others.
func TestCacheAges(t *testing.T) {
	r := &room{lives: lifetimes{has: true}}
	r.tags.open(1)
	d := &drifting{rand.New(rand.NewSource(1)), instant{int64(time.Hour), 1700000000e9}}
	var births []instant
	var nodes []*node[string, int]
	for i := 0; i < 20000; i++ {
		d.passes()
		born := d.now
		if d.random.Intn(10) == 0 {
			late := d.random.Int63n(1 << d.random.Intn(50))
			born.steady, born.wall = born.steady-late, born.wall-late
		}
		births = append(births, born)
		it := known[string, int]{from: birth{born: born}}
		if i%4 == 0 {
			it.tags = []string{"tag"}
		}
		nodes = append(nodes, nodeOf(r, &it))
		of := d.random.Intn(len(births))
		steady, wall := d.now.steady-births[of].steady, d.now.wall-births[of].wall
		least, most := steady, steady
		if wall > steady {
			least, most = wall-sameEra, wall
			if least < steady {
				least = steady
			}
		}
		if age, by := nodes[of].age(d.now); int64(age) < least || int64(age) > most || int64(by) != steady {
			t.Fatalf("a birth at %+v: the age is %d and %d at %+v", births[of], age, by, d.now)
		}
	}
}

// Where the clocks drift apart by no more than what their readings differ by, values share an era.
func TestCacheEras(t *testing.T) {
	r := &room{lives: lifetimes{has: true}}
	random := rand.New(rand.NewSource(1))
	eras := map[*extras]bool{}
	for i := int64(0); i < 100000; i++ {
		at := i * int64(time.Millisecond)
		it := known[string, int]{from: birth{born: instant{at, 1700000000e9 + at + random.Int63n(100)}}}
		eras[nodeOf(r, &it).extras] = true
	}
	if len(eras) > 30 {
		t.Error("so many eras", len(eras))
	}
}

// The last look is written down in steps, which never make a value live longer: one that is older than a
// node has room for neither.
func TestCacheLastLook(t *testing.T) {
	l := &lifetimes{has: true, idle: 160}
	random := rand.New(rand.NewSource(1))
	for i := 0; i < 10000; i++ {
		n := nodeOf(&room{lives: *l}, &known[string, int]{})
		age := time.Duration(random.Int63n(1 << (1 + random.Intn(50))))
		n.meet(age, l)
		if n.past(age+l.idle, l) < 0 {
			t.Fatal("it is idle since", age)
		}
		if age/l.tick() <= math.MaxInt32 && n.past(age+l.idle-l.tick(), l) >= 0 {
			t.Fatal("it was found at", age)
		}
	}
}

// Costs of more bits than a node has room for are what they are.
func TestCacheLargeCosts(t *testing.T) {
	cost := int64(1)
	c := newCache(t, math.MaxInt64, func(context.Context, string) (int, error) { return 1, nil }, wide,
		WithCost(func(string, int) int64 { return cost }), WithTTL(time.Hour))
	sum := int64(0)
	for i := 0; i < 62; i++ {
		for _, cost = range []int64{1<<i - 1, 1 << i} {
			if sum+cost > 0 {
				sum += cost
				c.Get(always, keyNumber(int(cost%1000003))+keyNumber(i))
			}
		}
	}
	if c.Weight() != sum {
		t.Error("they cost", c.Weight(), "and not", sum)
	}
	if cost = math.MinInt64; c.Put("below 0", 1) {
		t.Error("it is kept")
	}
	c.ForgetAll()
	if c.Weight() != 0 {
		t.Error("it is empty", c.Weight())
	}
}

// A node has its stamp whole, or is not kept. What else is in the same word stays.
func TestCacheStampOfANode(t *testing.T) {
	random := rand.New(rand.NewSource(1))
	for i := 0; i < 10000; i++ {
		born := instant{random.Int63n(1 << 62), 0}
		n := nodeOf(&room{}, &known[string, int]{from: birth{born: born}, ttl: 1})
		n.set(flagMarks|flagQueue, uint32(random.Intn(flagMarks+1))&(flagMarks|flagQueue))
		flags := n.flags
		stamp := Stamp{random.Uint64() >> 32 & (1<<24 - 1) << 40 >> random.Intn(24), random.Uint64()}
		stamp.Place |= uint64(random.Uint32())
		isWhole := stamp.Place<<8>>40 == 0
		if n.isStamped(stamp) != isWhole || isWhole && n.stamp() != stamp {
			t.Fatalf("%x: %x", stamp, n.stamp())
		}
		if age, _ := n.age(born); age != 0 || n.flags&^flagTable != flags {
			t.Fatalf("%x: its flags were %x and are %x", stamp, flags, n.flags)
		}
	}
}
