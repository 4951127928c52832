// Times and hit ratios of caches for Go that load each missing key once: the package's Cache,
// groupcache's, and ristretto and hashicorp's LRU, each with golang.org/x/sync/singleflight.
// tools/caches/run runs it.
package main

import (
	"context"
	"fmt"
	"math/rand"
	"os"
	"path/filepath"
	"sort"
	"strings"
	"sync"
	"time"

	"github.com/dgraph-io/ristretto"
	"github.com/golang/groupcache"
	lru "github.com/hashicorp/golang-lru"
	"golang.org/x/sync/singleflight"
	ours "sf.example/singleflight"
)

const (
	rounds = 225 // of hits: as many as those of Caffeine, C and Rust, since the least depends on that
	gets   = 40000
	drawn  = 1 << 16
	page   = "<html></html>"
)

// A cache that loads: get returns the key's value.
type cache struct {
	name string
	get  func(key string) string
	wait func() // until what was put is there
}

type maker func(values int64, load func(key string) string) cache

func check(err error) {
	if err != nil {
		panic(err)
	}
}

func none() {}

func makeOurs(values int64, load func(key string) string) cache {
	ctx := context.Background()
	c, err := ours.NewCache(values, func(_ context.Context, key string) (string, error) {
		return load(key), nil
	})
	check(err)
	return cache{"singleflight.Cache", func(key string) string {
		v, err := c.Get(ctx, key)
		check(err)
		return v
	}, none}
}

var groups int

// groupcache's limit is in bytes of keys and values, all of which have here as many.
func makeGroupcache(values int64, load func(key string) string) cache {
	ctx := context.Background()
	groups++
	each := int64(len(keyOf(0)) + len(page))
	g := groupcache.NewGroup(fmt.Sprint("group ", groups), values*each, groupcache.GetterFunc(
		func(_ context.Context, key string, dest groupcache.Sink) error {
			return dest.SetString(load(key))
		}))
	return cache{"groupcache", func(key string) string {
		var v string
		check(g.Get(ctx, key, groupcache.StringSink(&v)))
		return v
	}, none}
}

func makeRistretto(values int64, load func(key string) string) cache {
	c, err := ristretto.NewCache(&ristretto.Config{
		NumCounters: 10 * values, MaxCost: values, BufferItems: 64,
	})
	check(err)
	var group singleflight.Group
	return cache{"ristretto + x/sync", func(key string) string {
		if v, ok := c.Get(key); ok {
			return v.(string)
		}
		v, err, _ := group.Do(key, func() (any, error) {
			v := load(key)
			c.Set(key, v, 1)
			return v, nil
		})
		check(err)
		return v.(string)
		// It puts values later, by a goroutine of its own.
	}, func() { time.Sleep(100 * time.Millisecond) }}
}

type store interface {
	Get(key any) (any, bool)
	Add(key, value any)
}

// LRU's Add returns whether it evicted.
type simple struct{ *lru.Cache }

func (s simple) Add(key, value any) { s.Cache.Add(key, value) }

func over(name string, s store, load func(key string) string) cache {
	var group singleflight.Group
	return cache{name + " + x/sync", func(key string) string {
		if v, ok := s.Get(key); ok {
			return v.(string)
		}
		v, err, _ := group.Do(key, func() (any, error) {
			v := load(key)
			s.Add(key, v)
			return v, nil
		})
		check(err)
		return v.(string)
	}, none}
}

func makeLRU(values int64, load func(key string) string) cache {
	c, err := lru.New(int(values))
	check(err)
	return over("golang-lru", simple{c}, load)
}

func make2Q(values int64, load func(key string) string) cache {
	c, err := lru.New2Q(int(values))
	check(err)
	return over("golang-lru 2Q", c, load)
}

func makeARC(values int64, load func(key string) string) cache {
	c, err := lru.NewARC(int(values))
	check(err)
	return over("golang-lru ARC", c, load)
}

func keyOf(n uint64) string { return fmt.Sprintf("/page-%06d.html", n) }

func zipf(seed int64, keys, draws int) []string {
	draw := rand.NewZipf(rand.New(rand.NewSource(seed)), 1.01, 1, uint64(keys-1))
	names := make([]string, keys)
	for i := range names {
		names[i] = keyOf(uint64(i))
	}
	all := make([]string, draws)
	for i := range all {
		all[i] = names[draw.Uint64()]
	}
	return all
}

// Nanoseconds that all goroutines together take, divided by all their gets.
func round(c cache, lists [][]string) float64 {
	var ready, done sync.WaitGroup
	start := make(chan struct{})
	for _, keys := range lists {
		ready.Add(1)
		done.Add(1)
		go func(keys []string) {
			defer done.Done()
			ready.Done()
			<-start
			for n, at := 0, 0; n < gets; n++ {
				if v := c.get(keys[at]); len(v) != len(page) {
					panic("another value")
				}
				if at++; at == len(keys) {
					at = 0
				}
			}
		}(keys)
	}
	ready.Wait()
	from := time.Now()
	close(start)
	done.Wait()
	return float64(time.Since(from).Nanoseconds()) / float64(gets*len(lists))
}

// The rounds of all caches alternate.
func compare(name string, rounds, goroutines int, caches []cache, lists func(round, goroutine int) []string) {
	times := make([][]float64, len(caches))
	for n := 0; n < rounds; n++ {
		for i, c := range caches {
			each := make([][]string, goroutines)
			for g := range each {
				each[g] = lists(n, g)
			}
			times[i] = append(times[i], round(c, each))
		}
	}
	for i, c := range caches {
		sort.Float64s(times[i])
		fmt.Printf("%-22s %-22s %d goroutines: least %4.0f median %4.0f\n",
			c.name, name, goroutines, times[i][0], times[i][rounds/2])
	}
}

func make1(makers []maker, values int64) (all []cache) {
	for _, m := range makers {
		all = append(all, m(values, func(string) string { return page }))
	}
	return all
}

func main() {
	if len(os.Args) > 2 && os.Args[1] == "write" {
		writeTraces(os.Args[2])
		return
	}
	if len(os.Args) > 1 && os.Args[1] == "traces" {
		ratiosOf(os.Args[2:])
		return
	}
	what := strings.Join(os.Args[1:], " ") + " "
	is := func(part string) bool { return what == " " || strings.Contains(what, part+" ") }
	quick := []maker{makeOurs, makeGroupcache, makeRistretto, makeLRU}
	if is("hits") {
		fmt.Println("A hit: ns, all goroutines together, divided by their gets")
		for _, goroutines := range []int{1, 4} {
			one := [][]string{{keyOf(1)}, {keyOf(1)}, {keyOf(1)}, {keyOf(1)}}
			caches := make1(quick, 4000)
			for _, c := range caches {
				c.get(keyOf(1))
				c.wait()
			}
			compare("one key", rounds, goroutines, caches, func(_, g int) []string { return one[g] })
			var many [4][]string
			for g := range many {
				many[g] = zipf(int64(g), 1000, drawn)
			}
			caches = make1(quick, 4000)
			for _, c := range caches {
				for n := uint64(0); n < 1000; n++ {
					c.get(keyOf(n))
				}
				c.wait()
			}
			compare("1,000 keys by zipf", rounds, goroutines, caches, func(_, g int) []string { return many[g] })
		}
	}
	if is("misses") {
		fmt.Println("A miss with an empty load, in a full cache of 4,000 values: ns")
		for _, goroutines := range []int{1, 4} {
			caches := make1(quick, 4000)
			var each [4][]string
			for g := range each {
				each[g] = make([]string, gets)
				for n := range each[g] {
					each[g][n] = keyOf(uint64(g*gets + n))
				}
			}
			compare("a miss", rounds/5, goroutines, caches, func(_, g int) []string { return each[g] })
		}
	}
	if is("ratios") {
		fmt.Println("Hit ratio of 1,000,000 gets over 100,000 keys by zipf: %")
		ratios(zipf(1, 100000, 1000000), 100000)
	}
}

// ratios tells how many gets hit in caches for 1, 5 and 20 % of so many keys.
func ratios(trace []string, keys int) {
	for _, percent := range []int{1, 5, 20} {
		values := int64(keys * percent / 100)
		for _, m := range []maker{makeOurs, makeGroupcache, makeRistretto, makeLRU, make2Q, makeARC} {
			loads := 0
			c := m(values, func(string) string { loads++; return page })
			for _, key := range trace {
				c.get(key)
			}
			fmt.Printf("%-22s %6d values: %.2f\n", c.name, values, 100-100*float64(loads)/float64(len(trace)))
		}
	}
}

// ratiosOf tells it of the traces in these files, which have a key a line.
func ratiosOf(paths []string) {
	for _, path := range paths {
		text, err := os.ReadFile(path)
		check(err)
		trace := strings.Fields(string(text))
		keys := map[string]bool{}
		for _, key := range trace {
			keys[key] = true
		}
		fmt.Printf("Hit ratio of %d gets over %d keys, %s: %%\n", len(trace), len(keys), filepath.Base(path))
		ratios(trace, len(keys))
	}
}

// writeTraces writes traces of the kinds by which caches are judged into the folder, each of 1,000,000 gets.
func writeTraces(folder string) {
	const gets, ranks = 1000000, 100000
	for name, next := range map[string]func(r *rand.Rand, z *rand.Zipf) func(n int) uint64{
		// Every 1,000 gets a key is away for good, chosen as the gets are, and a new one is asked for as often.
		"drift": func(r *rand.Rand, z *rand.Zipf) func(int) uint64 {
			fresh := uint64(ranks)
			of := map[uint64]uint64{}
			return func(n int) uint64 {
				if n%1000 == 0 {
					of[z.Uint64()] = fresh
					fresh++
				}
				rank := z.Uint64()
				if key, ok := of[rank]; ok {
					return key
				}
				return rank
			}
		},
		// After each 40,000 gets by zipf, 10,000 keys in turn that nobody asks for again.
		"scans": func(r *rand.Rand, z *rand.Zipf) func(int) uint64 {
			return func(n int) uint64 {
				if n%50000 >= 40000 {
					return uint64(ranks + n)
				}
				return z.Uint64()
			}
		},
		// One half of the gets by zipf, and one in a loop over 20,000 other keys.
		"loop": func(r *rand.Rand, z *rand.Zipf) func(int) uint64 {
			at := 0
			return func(int) uint64 {
				if r.Intn(2) == 0 {
					return z.Uint64()
				}
				at++
				return uint64(ranks + at%20000)
			}
		},
	} {
		r := rand.New(rand.NewSource(1))
		key := next(r, rand.NewZipf(r, 1.01, 1, ranks-1))
		var text strings.Builder
		for n := 0; n < gets; n++ {
			text.WriteString(keyOf(key(n)) + "\n")
		}
		check(os.WriteFile(filepath.Join(folder, name), []byte(text.String()), 0o644))
	}
}
