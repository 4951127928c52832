package main

import (
	"bufio"
	"context"
	"errors"
	"fmt"
	"math/rand"
	"sort"
	"strconv"
	"strings"
	"sync"
	"time"
)

// A recorder keeps what its callers saw: when each run of the load function, Get and Forget began
// and ended, and which run a value came from, since each value names its run. The cache itself is
// not looked into. See README.md for the history that is made of it.
type recorder struct {
	began   time.Time
	mu      sync.Mutex // protects runs and callers
	runs    []*run
	callers []*caller
}

// A caller of the recording is a goroutine. Its generations count its Gets and loads.
type caller struct {
	r          *recorder
	number     int
	generation int
	asked      int64 // when its Get began
	gets       []got
	forgets    []forgot
}

// A run of the load function is a call of the history.
type run struct {
	number int
	key    string
	by     *caller
	name   name
	asked  int64 // when the Get began that runs it
	begun  int64 // when the load began
	loaded int64 // when it ended
	enters []got
	closed *forgot
	next   *run // of its key
}

type name struct{ caller, generation int }

func (n name) String() string { return fmt.Sprintf("[%d,%d]", n.caller, n.generation) }

// A Get that was answered with the value of a run that it did not run itself.
type got struct {
	key      string
	run      int
	member   name
	from, to int64
}

type forgot struct {
	key      string
	by       int
	from, to int64
}

func (r *recorder) now() int64 { return int64(time.Since(r.began)) }

func (r *recorder) caller() *caller {
	c := &caller{r: r, number: len(r.callers) + 1}
	r.callers = append(r.callers, c)
	return c
}

func (c *caller) name() name {
	c.generation++
	return name{c.number, c.generation}
}

type asker struct{}

// load is the load function: it reads the origin's version, and takes its time.
func (r *recorder) load(ctx context.Context, key string, from *origin) (string, error) {
	c, ok := ctx.Value(asker{}).(*caller)
	if !ok {
		return "", errors.New("a load without the context of a Get")
	}
	it := &run{key: key, by: c, name: c.name(), asked: c.asked, begun: r.now()}
	r.mu.Lock()
	it.number = len(r.runs)
	r.runs = append(r.runs, it)
	r.mu.Unlock()
	at, err := strconv.Atoi(key)
	if err != nil {
		return "", err
	}
	version := from.versions[at].Load()
	time.Sleep(time.Duration(rand.Int63n(int64(*longest))))
	it.loaded = r.now()
	return fmt.Sprintf("%d version %d", it.number, version), nil
}

func (c *caller) get(it cache, key string) error {
	c.asked = c.r.now()
	value, err := it.get(context.WithValue(context.Background(), asker{}, c), key)
	to := c.r.now()
	if err != nil {
		return err
	}
	number, err := strconv.Atoi(strings.Fields(value)[0])
	if err != nil {
		return err
	}
	c.gets = append(c.gets, got{key: key, run: number, from: c.asked, to: to})
	return nil
}

func (c *caller) forget(it cache, key string) {
	from := c.r.now()
	it.forget(key)
	c.forgets = append(c.forgets, forgot{key, c.number, from, c.r.now()})
}

// write writes the history, and returns how many Gets were answered with a value that was loaded
// before a Forget which had returned before the Get began.
func (r *recorder) write(out *bufio.Writer) (stale int) {
	end := r.now()
	forgets := map[string][]*forgot{}
	for _, c := range r.callers {
		for i := range c.forgets {
			f := &c.forgets[i]
			forgets[f.key] = append(forgets[f.key], f)
		}
	}
	for _, of := range forgets {
		sort.Slice(of, func(i, j int) bool { return of[i].from < of[j].from })
	}
	for _, c := range r.callers {
		for _, it := range c.gets {
			of := r.runs[it.run]
			for _, f := range forgets[it.key] {
				if of.begun < f.from && f.to < it.from {
					stale++
					break
				}
			}
			if of.by != c || of.asked != it.from {
				it.member = c.name()
				of.enters = append(of.enters, it)
			}
		}
	}
	runs := map[string][]*run{}
	for _, it := range r.runs {
		runs[it.key] = append(runs[it.key], it)
	}
	for key, of := range runs {
		sort.Slice(of, func(i, j int) bool { return of[i].begun < of[j].begun })
		closeAll(of, forgets[key])
	}
	fmt.Fprintln(out, `{"format":4,"lost":0}`)
	for _, it := range r.runs {
		it.write(out, end)
	}
	closing := map[*forgot]bool{}
	for _, it := range r.runs {
		closing[it.closed] = true
	}
	for _, of := range forgets {
		for _, f := range of {
			if !closing[f] {
				fmt.Fprintf(out, `{"e":"forget","by":%d,"k":%q,"closed":null,"at":[%d,%d]}`+"\n", f.by, f.key, f.from, f.to)
			}
		}
	}
	return stale
}

// closeAll says which Forget closed each run of a key: the first one that came after the run had begun to load, and before the next
// run did. Where two runs load at one time, it was one that came while either of them was asked for: the cache had begun that call,
// and not its load. So that call was the first of the two.
func closeAll(runs []*run, forgets []*forgot) {
	closes := map[*forgot]*run{}
	for i, it := range runs {
		if i+1 < len(runs) {
			it.next = runs[i+1]
		}
		at := sort.Search(len(forgets), func(i int) bool { return forgets[i].from >= it.begun })
		if at < len(forgets) && (it.next == nil || forgets[at].from < it.next.begun) {
			it.closeBy(forgets[at], closes)
		}
	}
	for i := 1; i < len(runs); i++ {
		first, second := runs[i-1], runs[i]
		if first.closed != nil || first.loaded <= second.begun {
			continue
		}
		if f := first.forgotEarly(forgets, closes); f != nil {
			first.closeBy(f, closes)
		} else if f := second.forgotEarly(forgets, closes); f != nil && f.from <= first.begun {
			if later := second.closed; later != nil {
				first.closeBy(later, closes)
			}
			second.closeBy(f, closes)
			runs[i-1], runs[i] = second, first
			first.next, second.next = second.next, first
		}
	}
}

// forgotEarly returns a Forget that came while the run was asked for: the last one that closed no run, or that of a run which had
// ended by itself.
func (it *run) forgotEarly(forgets []*forgot, closes map[*forgot]*run) (found *forgot) {
	for _, f := range forgets {
		if f.to < it.asked || it.begun < f.from {
			continue
		}
		if of := closes[f]; of == nil || found == nil && of.loaded <= it.begun {
			found = f
		}
	}
	return found
}

// closeBy says that the Forget closed this run, and no other.
func (it *run) closeBy(f *forgot, closes map[*forgot]*run) {
	if of := closes[f]; of != nil {
		of.closed = nil
	}
	it.closed, closes[f] = f, it
}

func (it *run) write(out *bufio.Writer, end int64) {
	by := it.by.number
	fmt.Fprintf(out, `{"e":"lead","by":%d,"k":%q,"c":%v,"own":null,"at":[%d,%d]}`+"\n", by, it.key, it.name, it.asked, it.begun)
	for _, e := range it.enters {
		fmt.Fprintf(out, `{"e":"enter","by":%d,"k":%q,"c":%v,"m":%v,"at":[%d,%d]}`+"\n", e.member.caller, it.key, it.name, e.member, e.from, e.to)
	}
	if f := it.closed; f != nil {
		fmt.Fprintf(out, `{"e":"forget","by":%d,"k":%q,"closed":%v,"at":[%d,%d]}`+"\n", f.by, it.key, it.name, f.from, f.to)
	} else if it.next != nil {
		// The cache has lost the value before the next run began.
		end = it.next.begun
	}
	from := it.loaded
	if end < from {
		end = from
	}
	fmt.Fprintf(out, `{"e":"settle","by":%d,"c":%v,"ok":"run %d","joiners":%d,"at":[%d,%d]}`+"\n", by, it.name, it.number, len(it.enters), from, end)
	fmt.Fprintf(out, `{"e":"handed","by":%d,"c":%v,"at":[%d,%d]}`+"\n", by, it.name, from, end)
}
