package peers

import (
	"context"
	"fmt"
	"math/rand"
	"strings"
	"sync"
	"sync/atomic"
	"testing"
	"time"

	"github.com/golang/groupcache"
)

// fronted returns a Cache whose front keeps values of keys, and says how often its getter ran. The value
// of a key is its version, which the test sets, and the key.
func fronted(t *testing.T, n *node, name string) (c *Cache, version, loads *atomic.Int64) {
	version, loads = &atomic.Int64{}, &atomic.Int64{}
	group := groupcache.NewGroup(name, 1<<24, groupcache.GetterFunc(
		func(_ context.Context, name string, dest groupcache.Sink) error {
			key, err := keyOf(name)
			if err != nil {
				return err
			}
			loads.Add(1)
			return dest.SetString(fmt.Sprint(version.Load(), " ", key))
		}))
	c = newCache(name, n, group)
	c.keepValues(1 << 20)
	return c, version, loads
}

func (c *Cache) kept(key string) *named {
	for i := range c.front.places {
		if at := c.front.places[i].Load(); at != nil && at.key == key && at.isKept {
			return at
		}
	}
	return nil
}

func get(t *testing.T, c *Cache, key, want string) {
	t.Helper()
	var got string
	if err := c.Get(context.Background(), key, groupcache.StringSink(&got)); err != nil || got != want {
		t.Errorf("%.50q: %.50q, %v, not %.50q", key, got, err, want)
	}
}

// A value that is asked for again is kept at hand, until its key is forgotten.
func TestValuesAtHand(t *testing.T) {
	n := start(t, newMesh(), "a", time.Minute, "a")
	await(t, n.session.Load().ready, "it does not begin")
	c, version, loads := fronted(t, n, "at hand")
	const times = 5
	ask := func(of int64, more int64) {
		t.Helper()
		before := loads.Load()
		for i := 0; i < times; i++ {
			for _, key := range []string{"ada", "grace"} {
				get(t, c, key, fmt.Sprint(of, " ", key))
				if i == 0 && more == 2 && c.kept(key) != nil {
					t.Errorf("%q is kept at once", key)
				}
			}
		}
		if n := loads.Load() - before; n != more {
			t.Errorf("%d loads, not %d", n, more)
		}
		if at := c.kept("ada"); at == nil || at.value != fmt.Sprint(of, " ada") {
			t.Errorf("it is not at hand: %+v", at)
		}
	}
	ask(0, 2)
	version.Store(1)
	ask(0, 0)
	n.versions.forget(keyItem(c.name, "grace"))
	version.Store(0)
	get(t, c, "grace", "0 grace")
	if n.versions.forget(item{scope: ofAll}); loads.Load() != 3 {
		t.Errorf("%d loads", loads.Load())
	}
	version.Store(2)
	ask(2, 2)
	if gets, hits := c.group.Stats.Gets.Get(), c.group.Stats.CacheHits.Get(); gets != 6*times+1 || hits != gets-5 {
		t.Errorf("groupcache has counted %d Gets and %d hits", gets, hits)
	}
	if err := c.Get(context.Background(), "ada", nil); err == nil {
		t.Error("no sink")
	}
	// Once in a while one Get asks groupcache, so that the key stays in use there.
	at := c.kept("ada")
	now := time.Now().UnixNano()
	at.asks.Store(now - 1)
	before := c.group.CacheStats(groupcache.MainCache).Gets
	if at.use(at.asks.Load()); at.asks.Load() != now-1 {
		t.Error("it asks before its time")
	}
	begun := time.Now()
	get(t, c, "ada", "2 ada")
	get(t, c, "ada", "2 ada")
	more, took := c.group.CacheStats(groupcache.MainCache).Gets-before, time.Since(begun)
	if more < 1 || more > 1 && took < frontFor {
		t.Errorf("groupcache was asked %d times within %v", more, took)
	}
	// No key has the value of another one of its hash.
	if at = c.kept("ada"); c.front.find(at.hash, "ada") != at || c.front.find(at.hash, "ade") != nil {
		t.Error("a key has another's place")
	}
	c.gate.close()
	if err := c.Get(context.Background(), "ada", groupcache.StringSink(new(string))); err != ErrClosed {
		t.Errorf("after Close: %v", err)
	}
}

// The value at hand of a key whose slot has ended is not returned.
func TestValuesAtHandHaveATTL(t *testing.T) {
	n := start(t, newMesh(), "a", time.Minute, "a")
	await(t, n.session.Load().ready, "it does not begin")
	c, version, _ := fronted(t, n, "at hand for a while")
	c.ttl = 1000 * time.Hour
	for i := 0; i < 3; i++ {
		get(t, c, "ada", "0 ada")
	}
	at := c.kept("ada")
	for wall, want := range map[int64]bool{at.end: false, at.end - 1: true, at.end - int64(c.ttl): true, at.end - int64(c.ttl) - 1: false} {
		if c.isNow(at, time.Unix(0, wall)) != want {
			t.Errorf("at %d of a slot that ends at %d: %v", wall, at.end, !want)
		}
	}
	if slot, end := c.slotAt("ada", at.end); slot != at.slot+1 || end != at.end+int64(c.ttl) {
		t.Errorf("the slot after %d until %d is %d until %d", at.slot, at.end, slot, end)
	}
	version.Store(1)
	get(t, c, "ada", "0 ada")
	at.slot--
	at.end -= int64(c.ttl)
	get(t, c, "ada", "0 ada") // by its name of now, which groupcache has
	if c.kept("ada") == at {
		t.Error("what was at hand before stays")
	}
}

// An until runs something once when the time of a lease is asked for.
type anUntil struct {
	*Static
	once *atomic.Pointer[func()]
}

type untilMember struct {
	staticMember
	once *atomic.Pointer[func()]
}

func (a anUntil) Join(ctx context.Context, self string, after uint64) (Membership, error) {
	m, err := a.Static.Join(ctx, self, after)
	if err != nil {
		return nil, err
	}
	return untilMember{m.(staticMember), a.once}, nil
}

func (m untilMember) Until() time.Time {
	if do := m.once.Swap(nil); do != nil {
		(*do)()
	}
	return time.Time{}
}

// A Get looks first whether this peer may serve, and then which name the key has. Otherwise:
//
//	1: its lease has run out; a Forget of 2 returns nil
//	1: a Get sees the old name; 1 joins again, and learns of the Forget; the Get sees that it may serve
func TestAGetAsksForTheNameLast(t *testing.T) {
	by := anUntil{NewStatic("a"), &atomic.Pointer[func()]{}}
	n, err := newNode(config{self: "a", most: 99, timeout: time.Second, every: time.Minute, transport: meshed{newMesh(), "a"}, coordinator: by})
	if err != nil {
		t.Fatal(err)
	}
	go n.run()
	t.Cleanup(n.close)
	await(t, n.session.Load().ready, "it does not begin")
	for _, near := range []bool{false, true} {
		c, version, _ := fronted(t, n, fmt.Sprint("last ", near))
		if near {
			if err := c.keepNear(1 << 20); err != nil {
				t.Fatal(err)
			}
		}
		for i := 0; i < 3; i++ {
			get(t, c, "ada", "0 ada")
		}
		if c.kept("ada") == nil {
			t.Fatal("it is not at hand")
		}
		version.Store(1)
		learns := func() { n.versions.forget(keyItem(c.name, "ada")) }
		by.once.Store(&learns)
		get(t, c, "ada", "1 ada")
	}
}

// The values at hand are within their limit, also where many goroutines ask.
func TestTheLimitOfValuesAtHand(t *testing.T) {
	n := start(t, newMesh(), "a", time.Minute, "a")
	await(t, n.session.Load().ready, "it does not begin")
	c, _, _ := fronted(t, n, "limited")
	const limit = 1 << 16
	c.front.limit = limit
	var all sync.WaitGroup
	for g := 0; g < 4; g++ {
		random := rand.New(rand.NewSource(int64(g)))
		all.Add(1)
		go func() {
			defer all.Done()
			for i := 0; i < 4000; i++ {
				key := fmt.Sprint("k", random.Intn(1000), strings.Repeat("x", 100))
				get(t, c, key, "0 "+key)
				if random.Intn(100) == 0 {
					n.versions.forget(keyItem(c.name, key))
				}
			}
		}()
	}
	all.Wait()
	var bytes int64
	count := 0
	for i := range c.front.places {
		if at := c.front.places[i].Load(); at != nil && at.isKept {
			bytes += at.size()
			count++
		}
	}
	if bytes != c.front.bytes.Load() || bytes > limit || bytes < limit/2 {
		t.Errorf("%d values of %d bytes are at hand, it counts %d, the limit is %d", count, bytes, c.front.bytes.Load(), limit)
	}
	// One that would push out too many others.
	for i := 0; i < 3; i++ {
		get(t, c, strings.Repeat("k", mostNamed+1), "0 "+strings.Repeat("k", mostNamed+1))
		get(t, c, "small", "0 small")
	}
	at := c.front.find(c.kept("small").hash, "small")
	if c.front.keep(at, strings.Repeat("v", limit/16+1), time.Now()); c.kept("small") != nil {
		t.Error("a large value is at hand")
	}
	if at = c.front.find(at.hash, "small"); at == nil || !at.isLarge || at.value != "" {
		t.Errorf("it is not known that the value is large: %+v", at)
	}
	before := c.group.CacheStats(groupcache.MainCache).Gets
	if get(t, c, "small", "0 small"); c.group.CacheStats(groupcache.MainCache).Gets != before+1 || c.kept("small") != nil {
		t.Error("it is not asked for as groupcache has it")
	}
}

// What was not used lately makes room in a row.
func TestARowOfTheFront(t *testing.T) {
	f := newFront(0)
	if len(f.places) != leastNames || len(newFront(1<<40).places) != mostNames || len(newFront(4096*leastNames*2).places) != 2*leastNames {
		t.Error("so many names it has not")
	}
	const hash = 5 << 32
	of := func(i int) *named { return &named{hash: hash, key: fmt.Sprint("k", i)} }
	for i := 0; i < rowPlaces; i++ {
		f.put(of(i))
	}
	for i := 0; i < rowPlaces; i++ {
		at := f.find(hash, fmt.Sprint("k", i))
		if at == nil {
			t.Fatalf("k%d is not there", i)
		}
		at.isUsed.Store(i != 3)
	}
	f.put(of(rowPlaces))
	for i := 0; i <= rowPlaces; i++ {
		if at := f.find(hash, fmt.Sprint("k", i)); at == nil != (i == 3) {
			t.Errorf("k%d: %v", i, at)
		}
	}
	f.find(hash, fmt.Sprint("k", rowPlaces)).isUsed.Store(true)
	f.put(of(rowPlaces + 1)) // all are used, so none is afterwards
	used := 0
	for i := range f.places {
		if at := f.places[i].Load(); at != nil && at.isUsed.Load() {
			used++
		}
	}
	if used > 0 || f.find(hash, fmt.Sprint("k", rowPlaces+1)) == nil {
		t.Errorf("%d are used", used)
	}
}
