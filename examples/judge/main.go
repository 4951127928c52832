// Command judge runs one cache under a load with Forgets, and writes what it did as records in
// format 4, which sfctl check --timed judges. See README.md.
package main

import (
	"bufio"
	"context"
	"flag"
	"fmt"
	"log"
	"math/rand"
	"os"
	"strconv"
	"strings"
	"sync"
	"sync/atomic"
	"time"
)

var (
	gets    = flag.Int("gets", 1000, "how often each reader gets a value")
	readers = flag.Int("readers", 8, "how many goroutines get values")
	writers = flag.Int("writers", 2, "how many goroutines write to the origin, and forget the key then")
	keys    = flag.Int("keys", 4, "how many keys there are")
	longest = flag.Duration("load", 300*time.Microsecond, "how long a load takes at most")
	pause   = flag.Duration("pause", 500*time.Microsecond, "how long a writer pauses at most")
)

// The origin has a version of each key, which a write changes.
type origin struct{ versions []atomic.Uint64 }

func main() {
	log.SetFlags(0)
	flag.Usage = func() {
		fmt.Fprintf(os.Stderr, "usage: judge [option..] %s\n", strings.Join(names(), " | "))
		flag.PrintDefaults()
	}
	flag.Parse()
	if flag.NArg() != 1 || programs[flag.Arg(0)] == nil {
		flag.Usage()
		os.Exit(2)
	}
	r := &recorder{began: time.Now()}
	from := &origin{make([]atomic.Uint64, *keys)}
	it, err := programs[flag.Arg(0)](func(ctx context.Context, key string) (string, error) {
		return r.load(ctx, key, from)
	})
	if err != nil {
		log.Fatal("judge: ", err)
	}
	if err := drive(it, r, from); err != nil {
		log.Fatal("judge: ", err)
	}
	out := bufio.NewWriter(os.Stdout)
	stale := r.write(out)
	if err := out.Flush(); err != nil {
		log.Fatal("judge: ", err)
	}
	fmt.Fprintf(os.Stderr, "stale answers: %d\n", stale)
}

// drive runs the readers and writers, each of which is a caller of the recording.
func drive(it cache, r *recorder, from *origin) error {
	var readersDone, all sync.WaitGroup
	var failed atomic.Pointer[error]
	over := make(chan struct{})
	for i := 0; i < *readers+*writers; i++ {
		caller := r.caller()
		seed := rand.New(rand.NewSource(int64(i)))
		all.Add(1)
		if i < *readers {
			readersDone.Add(1)
			go func() {
				defer all.Done()
				defer readersDone.Done()
				for n := 0; n < *gets; n++ {
					if err := caller.get(it, strconv.Itoa(seed.Intn(*keys))); err != nil {
						failed.Store(&err)
						return
					}
					time.Sleep(time.Duration(seed.Int63n(int64(*longest) / 4)))
				}
			}()
			continue
		}
		go func() {
			defer all.Done()
			for {
				select {
				case <-over:
					return
				case <-time.After(time.Duration(seed.Int63n(int64(*pause)))):
				}
				key := seed.Intn(*keys)
				from.versions[key].Add(1)
				caller.forget(it, strconv.Itoa(key))
			}
		}()
	}
	readersDone.Wait()
	close(over)
	all.Wait()
	if err := failed.Load(); err != nil {
		return *err
	}
	return nil
}
