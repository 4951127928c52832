// Command server puts a Group under load with Forgets, and records what it does in a file.
package main

import (
	"bufio"
	"context"
	"flag"
	"fmt"
	"log"
	"math/rand"
	"os"
	"strconv"
	"sync"
	"time"

	"sf.example/singleflight"
)

var (
	seconds = flag.Float64("seconds", 60, "how long the load lasts")
	clients = flag.Int("clients", 64, "how many goroutines ask and forget")
	keys    = flag.Int("keys", 1000, "how many keys there are")
	forgets = flag.Int("forgets", 10, "how many calls of a hundred are Forgets")
	longest = flag.Duration("load", 2*time.Millisecond, "how long a load takes at most")
)

func main() {
	log.SetFlags(0)
	flag.Parse()
	if flag.NArg() != 1 {
		log.Fatal("usage: server [option..] LOG")
	}
	file, err := os.Create(flag.Arg(0))
	if err != nil {
		log.Fatal("server: ", err)
	}
	out := bufio.NewWriterSize(file, 1<<20)
	var group singleflight.Group
	defer group.Close()
	recording, err := group.Record(out)
	if err != nil {
		log.Fatal("server: ", err)
	}
	calls := serve(&group)
	recorded, err := recording.Stop()
	if err == nil {
		err = out.Flush()
	}
	if err == nil {
		err = file.Close()
	}
	if err != nil {
		log.Fatal("server: ", err)
	}
	fmt.Printf("%d calls, %d events, %d lost, %+v\n", calls, recorded.Events, recorded.Lost, group.Stats())
}

// serve lets the clients ask and forget, some with a context that ends, until the time is over.
func serve(group *singleflight.Group) (calls int) {
	var all sync.WaitGroup
	var mu sync.Mutex
	until := time.Now().Add(time.Duration(*seconds * float64(time.Second)))
	for i := 0; i < *clients; i++ {
		seed := rand.New(rand.NewSource(int64(i)))
		all.Add(1)
		go func() {
			defer all.Done()
			n := 0
			for ; time.Now().Before(until); n++ {
				call(group, seed)
			}
			mu.Lock()
			calls += n
			mu.Unlock()
		}()
	}
	all.Wait()
	return calls
}

func call(group *singleflight.Group, seed *rand.Rand) {
	// Half of the calls are for a hundredth of the keys.
	key := strconv.Itoa(seed.Intn(*keys))
	if seed.Intn(2) == 0 {
		key = strconv.Itoa(seed.Intn(*keys/100 + 1))
	}
	took := time.Duration(seed.Int63n(int64(*longest)))
	load := func(ctx context.Context) (any, error) {
		select {
		case <-time.After(took):
			return key, nil
		case <-ctx.Done():
			return nil, ctx.Err()
		}
	}
	switch what := seed.Intn(100); {
	case what < *forgets:
		group.Forget(key)
	case what < 50:
		ctx, cancel := context.WithTimeout(context.Background(), *longest)
		group.Of.Do(ctx, key, load)
		cancel()
	default:
		group.Of.Do(context.Background(), key, load)
	}
}
