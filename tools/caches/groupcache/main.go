// Times of a hit in groupcache; tools/caches/run runs it.
package main

import (
	"context"
	"fmt"
	"math/rand"
	"sort"
	"sync"
	"time"

	"github.com/golang/groupcache"
)

const (
	rounds = 225
	gets   = 40000
	drawn  = 1 << 16
)

// The keys that a thread gets, by turns: one, or of 1,000 by zipf.
func keys(thread int64, zipf bool) []string {
	if !zipf {
		return []string{"/index.html"}
	}
	draw := rand.NewZipf(rand.New(rand.NewSource(thread)), 1.01, 1, 999)
	var names [1000]string
	for i := range names {
		names[i] = fmt.Sprintf("/page-%03d.html", i)
	}
	all := make([]string, drawn)
	for i := range all {
		all[i] = names[draw.Uint64()]
	}
	return all
}

func measure(g *groupcache.Group, threads int, zipf bool) {
	var times [rounds]float64
	lists := make([][]string, threads)
	for i := range lists {
		lists[i] = keys(int64(i), zipf)
	}
	for round := range times {
		var done sync.WaitGroup
		from := time.Now()
		for i := 0; i < threads; i++ {
			done.Add(1)
			go func(keys []string) {
				defer done.Done()
				var got string
				for n := 0; n < gets; n++ {
					if g.Get(context.Background(), keys[n%len(keys)], groupcache.StringSink(&got)) != nil {
						panic("refused")
					}
				}
			}(lists[i])
		}
		done.Wait()
		times[round] = float64(time.Since(from).Nanoseconds()) / float64(gets*threads)
	}
	sort.Float64s(times[:])
	name := "one key"
	if zipf {
		name = "1,000 keys by zipf"
	}
	fmt.Printf("groupcache  %-20s %d threads: least %.0f median %.0f\n", name, threads, times[0], times[rounds/2])
}

func main() {
	g := groupcache.NewGroup("pages", 1<<20, groupcache.GetterFunc(func(_ context.Context, _ string, dest groupcache.Sink) error {
		return dest.SetString("<html></html>")
	}))
	for _, zipf := range []bool{false, true} {
		for _, threads := range []int{1, 4} {
			measure(g, threads, zipf)
		}
	}
}
