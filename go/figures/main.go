// Times of the package and of golang.org/x/sync/singleflight, side by side; tools/figures runs it.
package main

import (
	"context"
	"fmt"
	"io"
	"os"
	"sort"
	"strconv"
	"sync"
	"sync/atomic"
	"time"

	theirs "golang.org/x/sync/singleflight"
	ours "sf.example/singleflight"
)

// A virtual machine slows down for seconds at a time. With many short rounds by turns that slows all groups alike.
const (
	rounds = 101
	gets   = 50000
)

type group interface {
	Do(key string, fn func() (any, error)) (v any, err error, shared bool)
	Forget(key string)
}

// How long so many goroutines take that begin at one time.
func together(goroutines int, run func(i int)) time.Duration {
	var ready, done sync.WaitGroup
	start := make(chan struct{})
	for i := 0; i < goroutines; i++ {
		ready.Add(1)
		done.Add(1)
		go func(i int) {
			ready.Done()
			<-start
			run(i)
			done.Done()
		}(i)
	}
	ready.Wait()
	from := time.Now()
	close(start)
	done.Wait()
	return time.Since(from)
}

// Nanoseconds a Do of each goroutine, whose function does nothing.
func each(g group, goroutines int, hot bool) float64 {
	took := together(goroutines, func(i int) {
		key := "key-hot"
		if !hot {
			key = fmt.Sprint("key-", i)
		}
		for n := 0; n < gets; n++ {
			g.Do(key, func() (any, error) { return nil, nil })
		}
	})
	return float64(took.Nanoseconds()) / gets
}

// Nanoseconds a Do of all of 4,000 goroutines together, each of which makes 100.
func crowd(g group, keys int) float64 {
	const goroutines, each = 4000, 100
	names := make([]string, keys)
	for i := range names {
		names[i] = fmt.Sprint("key-", i)
	}
	took := together(goroutines, func(i int) {
		for n := 0; n < each; n++ {
			g.Do(names[i%keys], func() (any, error) { return nil, nil })
		}
	})
	return float64(took.Nanoseconds()) / goroutines / each
}

// Of 64 goroutines that want one key over and over, whose function takes so long: the half and 99 of 100 of the Dos take no longer.
func latency(g group, load time.Duration) [2]time.Duration {
	var mu sync.Mutex
	var all []time.Duration
	together(64, func(int) {
		own := make([]time.Duration, 0, 400)
		for n := 0; n < cap(own); n++ {
			from := time.Now()
			g.Do("key-hot", func() (any, error) {
				for begun := time.Now(); time.Since(begun) < load; {
				}
				return nil, nil
			})
			own = append(own, time.Since(from))
		}
		mu.Lock()
		all = append(all, own...)
		mu.Unlock()
	})
	sort.Slice(all, func(i, j int) bool { return all[i] < all[j] })
	return [2]time.Duration{all[len(all)/2], all[len(all)*99/100]}
}

// With so many who wait for one slow key: the Dos of 16 other keys in a second, each by two goroutines with a function that sleeps
// for a millisecond; those of all, and of the key that had fewest.
func besideWaiters(g group, waiters int) [2]int64 {
	const keys = 16
	var counts [keys]atomic.Int64
	var waiting atomic.Int64
	release := make(chan struct{})
	var over sync.Once
	together(2*keys+waiters, func(i int) {
		if i >= 2*keys {
			waiting.Add(1)
			g.Do("slow", func() (any, error) { <-release; return nil, nil })
			return
		}
		for waiting.Load() < int64(waiters) {
			time.Sleep(time.Millisecond)
		}
		time.Sleep(300 * time.Millisecond)
		key := fmt.Sprint("key-", i%keys)
		for until := time.Now().Add(time.Second); time.Now().Before(until); counts[i%keys].Add(1) {
			g.Do(key, func() (any, error) { time.Sleep(time.Millisecond); return nil, nil })
		}
		over.Do(func() { close(release) })
	})
	least := [2]int64{0, 1 << 62}
	for i := range counts {
		n := counts[i].Load()
		least[0] += n
		if n < least[1] {
			least[1] = n
		}
	}
	return least
}

// Nanoseconds of each of so many calls, which so many goroutines make.
func calls(goroutines int, call func()) float64 {
	took := together(goroutines, func(int) {
		for n := 0; n < gets; n++ {
			call()
		}
	})
	return float64(took.Nanoseconds()) / gets
}

// What each tenth of so many different keys costs by four goroutines: nanoseconds a Do of each, the least and the median of batches.
func tenths(g group, keys int) (all [10][2]time.Duration) {
	const batch = 500
	for part := range all {
		var mu sync.Mutex
		var times []time.Duration
		together(4, func(i int) {
			for done := 0; done < keys/40; done += batch {
				from := time.Now()
				for n := 0; n < batch; n++ {
					g.Do(strconv.Itoa((part*keys+done+n)*4+i), func() (any, error) { return nil, nil })
				}
				mu.Lock()
				times = append(times, time.Since(from)/batch)
				mu.Unlock()
			}
		})
		sort.Slice(times, func(i, j int) bool { return times[i] < times[j] })
		all[part] = [2]time.Duration{times[0], times[len(times)/2]}
	}
	return all
}

// The least and the median of the rounds.
func leastAndMedian(run func() float64) string { return leastOf(rounds, run) }

func leastOf(rounds int, run func() float64) string {
	all := make([]float64, rounds)
	for i := range all {
		all[i] = run()
	}
	sort.Float64s(all)
	return fmt.Sprintf("%.0f (%.0f)", all[0], all[len(all)/2])
}

// Two groups that were made, each at its first call.
func pair() (own *ours.Group, other group) {
	own, other = new(ours.Group), new(theirs.Group)
	for _, it := range []group{own, other} {
		it.Do("", func() (any, error) { return nil, nil })
	}
	return own, other
}

// both measures two groups in rounds that alternate, and returns the least and the median of each.
func both(rounds int, run func(g group) float64) (own, other string) {
	g, o := pair()
	defer g.Close()
	return leastOfBoth(rounds, func() (float64, float64) { return run(g), run(o) })
}

// bothAnew measures new groups in each round, since by a group's seeds two keys may have words in one line of memory.
func bothAnew(rounds int, run func(g group) float64) (own, other string) {
	return leastOfBoth(rounds, func() (float64, float64) {
		g, o := pair()
		defer g.Close()
		return run(g), run(o)
	})
}

func leastOfBoth(rounds int, run func() (own, other float64)) (own, other string) {
	var others []float64
	own = leastOf(rounds, func() float64 {
		took, took2 := run()
		others = append(others, took2)
		return took
	})
	other = leastOf(rounds, func() float64 {
		it := others[0]
		others = others[1:]
		return it
	})
	return own, other
}

// What the package alone has: a Do with a result of its type, and IsStill.
func typed() {
	ctx := context.Background()
	var numbers ours.Of[string, int]
	defer numbers.Close()
	load := func(context.Context) (int, error) { return 1, nil }
	got, err := numbers.Do(ctx, "key", load)
	if err != nil {
		panic(err)
	}
	fmt.Printf("Do of an Of, 1 goroutine: %s ns\n", leastAndMedian(func() float64 {
		return calls(1, func() { numbers.Do(ctx, "key", load) })
	}))
	got, _ = numbers.Do(ctx, "key", load)
	for _, goroutines := range []int{1, 4} {
		fmt.Printf("IsStill, %d goroutines: %s ns\n", goroutines, leastAndMedian(func() float64 {
			return calls(goroutines, func() {
				if !numbers.IsStill(got.Stamp) {
					panic("it is current")
				}
			})
		}))
	}
}

// Nanoseconds a Do of each goroutine with its own key, while the group is recorded and while it is not, in rounds that alternate; and
// how many of a hundred events were lost.
func recorded(goroutines int) (with, without string, lost float64) {
	var others []float64
	var all ours.Recorded
	with = leastAndMedian(func() float64 {
		g := new(ours.Group)
		defer g.Close()
		g.Do("", func() (any, error) { return nil, nil })
		others = append(others, each(g, goroutines, false))
		recording, err := g.Record(io.Discard)
		if err != nil {
			panic(err)
		}
		took := each(g, goroutines, false)
		said, err := recording.Stop()
		if err != nil {
			panic(err)
		}
		all.Events += said.Events
		all.Lost += said.Lost
		return took
	})
	without = leastAndMedian(func() float64 {
		it := others[0]
		others = others[1:]
		return it
	})
	return with, without, 100 * float64(all.Lost) / float64(all.Events+all.Lost)
}

func main() {
	fmt.Printf("the least of %d rounds (their median)\n", rounds)
	for _, what := range []string{"own keys", "one hot key"} {
		for _, goroutines := range []int{1, 2, 4, 8} {
			own, other := bothAnew(rounds, func(g group) float64 { return each(g, goroutines, what != "own keys") })
			fmt.Printf("%s, %d goroutines: %s ns a Do; x/sync %s ns\n", what, goroutines, own, other)
		}
	}
	typed()
	for _, goroutines := range []int{1, 4} {
		own, other := both(rounds, func(g group) float64 {
			return calls(goroutines, func() { g.Forget("key") })
		})
		fmt.Printf("Forget, %d goroutines: %s ns; x/sync %s ns\n", goroutines, own, other)
	}
	for _, goroutines := range []int{1, 4} {
		with, without, lost := recorded(goroutines)
		fmt.Printf("recorded, %d goroutines: %s ns a Do; not recorded %s ns; %.1f %% lost\n", goroutines, with, without, lost)
	}
	for _, keys := range []int{1, 40, 4000} {
		own, other := both(rounds/4, func(g group) float64 { return crowd(g, keys) })
		fmt.Printf("4,000 goroutines, %d keys: %s ns a Do of all; x/sync %s ns\n", keys, own, other)
	}
	for _, load := range []time.Duration{time.Microsecond, 10 * time.Microsecond, 100 * time.Microsecond} {
		g := new(ours.Group)
		own, other := latency(g, load), latency(new(theirs.Group), load)
		g.Close()
		fmt.Printf("64 goroutines, one key, a function of %v: p50 %v, p99 %v; x/sync %v, %v\n", load, own[0], own[1], other[0], other[1])
	}
	keys := 200000
	if n, err := strconv.Atoi(os.Getenv("SFLIGHT_KEYS")); err == nil {
		keys = n
	}
	small := new(ours.Group)
	fmt.Printf("%d keys, 4 goroutines, each tenth: %v; x/sync %v\n", keys, tenths(small, keys), tenths(new(theirs.Group), keys))
	small.Close()
	for _, waiters := range []int{0, 3000} {
		g := new(ours.Group)
		own, other := besideWaiters(g, waiters), besideWaiters(new(theirs.Group), waiters)
		g.Close()
		fmt.Printf("%d waiters for one key: %d Dos of 16 others, least of one %d; x/sync %d, %d\n", waiters, own[0], own[1], other[0], other[1])
	}
}
