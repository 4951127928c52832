package singleflight

import (
	"context"
	"errors"
	"fmt"
	"math/rand"
	"os"
	"strconv"
	"sync"
	"sync/atomic"
	"testing"
	"time"
)

// An error of a load, with the version that the origin had then.
type versionError struct{ version int64 }

func (versionError) Error() string { return "the origin is down" }

// A cache with all that it can do, whose origin has a version for each key: a writer counts that up
// before it forgets the key in any way.
type stressOrigin struct {
	*Cache[string, page]
	versions  [64]atomic.Int64
	forgotten [64]atomic.Int64 // the version that each Get is to have that begins now, at least
	loads     atomic.Int64
	old       atomic.Int64
	counts    [4]atomic.Int64 // values, kept errors, panics, cold keys
}

func (s *stressOrigin) read(key string) (Loaded[page], int) {
	it := Loaded[page]{Value: page{key: key}}
	if key[:4] != "key-" {
		return it, -1
	}
	i := numberOf(key)
	it.Value.version = s.versions[i].Load()
	it.Tags = []string{fmt.Sprint("tag-", i%8), "all"}
	return it, i
}

func (s *stressOrigin) load(_ context.Context, key string) (Loaded[page], error) {
	it, i := s.read(key)
	n := s.loads.Add(1)
	if i >= 0 && n%16 == 0 {
		return it, versionError{it.Value.version}
	}
	if i >= 0 && n%101 == 0 {
		panic("as it was told")
	}
	return it, nil
}

func (s *stressOrigin) loadMany(_ context.Context, keys []string) (map[string]Loaded[page], error) {
	values, least := map[string]Loaded[page]{}, int64(1)<<62
	for _, key := range keys {
		it, i := s.read(key)
		if i >= 0 && it.Value.version < least {
			least = it.Value.version
		}
		values[key] = it
	}
	switch n := s.loads.Add(1); {
	case n%31 == 0:
		delete(values, keys[0])
	case n%67 == 0:
		panic("as it was told")
	}
	return values, nil
}

// got looks at what a Get of a key returned, which had this version at least when it began.
func (s *stressOrigin) got(key string, least int64, v page, err error) {
	var failed versionError
	switch {
	case err == nil && (v.key != key || v.version < least):
		s.old.Add(1)
	case errors.As(err, &failed):
		if failed.version < least {
			s.old.Add(1)
		}
		s.counts[1].Add(1)
	case err == nil:
		s.counts[0].Add(1)
	}
}

func (s *stressOrigin) get(random *rand.Rand, n int) {
	defer func() {
		if v := recover(); v != nil {
			s.counts[2].Add(1)
		}
	}()
	key := func() (string, int) {
		i := random.Intn(8)
		if random.Intn(4) == 0 {
			i = random.Intn(64)
		}
		return keyNumber(i), i
	}
	name, i := key()
	least := s.forgotten[i].Load()
	switch n % 8 {
	case 0:
		if v, ok := s.GetIfPresent(name); ok {
			s.got(name, least, v, nil)
		}
	case 1:
		ctx, cancel := context.WithCancel(always)
		defer cancel()
		v, err := s.Get(ctx, name)
		s.got(name, least, v, err)
	case 2:
		other, j := key()
		leasts := []int64{least, s.forgotten[j].Load()}
		for at, it := range s.GetMany(always, []string{name, other}) {
			s.got([]string{name, other}[at], leasts[at], it.Value, it.Err)
		}
	case 3:
		cold := fmt.Sprint("cold-", random.Intn(20000))
		if v, err := s.Get(always, cold); v.key != cold || err != nil {
			s.old.Add(1)
		}
		s.counts[3].Add(1)
	default:
		v, err := s.GetWith(always, name, s.load)
		s.got(name, least, v, err)
	}
}

// write writes a key of this writer, and forgets it in one of the ways.
func (s *stressOrigin) write(random *rand.Rand, writer, n int) {
	i := random.Intn(64)&^1 | writer
	if n%2 == 0 {
		i = i & 7
	}
	name := keyNumber(i)
	token := s.Token(name)
	version := s.versions[i].Add(1)
	switch n % 16 {
	case 0:
		s.ForgetTag(fmt.Sprint("tag-", i%8))
	case 1:
		it, _ := s.read(name)
		s.PutWith(token, it)
	case 2:
		// Without its tags a later ForgetTag would leave the value.
		it, _ := s.read(name)
		s.PutWith(s.Token(name), it)
	case 3:
		if n%512 == 3 {
			s.ForgetAll()
		} else {
			s.ForgetTag(fmt.Sprint("tag-", i%8))
		}
	default:
		s.Forget(name)
	}
	s.forgotten[i].Store(version)
	if n%1024 == 5 {
		s.Resize(int64(200 + random.Intn(400)))
	}
}

// Gets of all kinds beside Forgets of all kinds: none is old. SFLIGHT_GETS says how many Gets there
// are, ten for each Forget.
func TestCacheStress(t *testing.T) {
	gets := 100000
	if isRaceDetected || testing.Short() {
		gets = 20000
	}
	if text := os.Getenv("SFLIGHT_GETS"); text != "" {
		n, err := strconv.Atoi(text)
		if err != nil {
			t.Fatal(err)
		}
		gets = n
	}
	s := &stressOrigin{}
	var told atomic.Int64
	c, err := NewCacheOf(300, s.load, WithTTL(20*time.Millisecond), WithJitter(0.5), WithIdle(15*time.Millisecond), WithRefreshAfter(2*time.Millisecond),
		WithStaleIfError(time.Second), WithErrorTTL(func(error) time.Duration { return 2 * time.Millisecond }),
		WithCost(func(key string, _ page) int64 { return int64(len(key) % 4) }), WithBatchLoader(s.loadMany),
		WithOnPanic(func(any, []byte) {}), WithLoads(1), WithOnEvict(func(string, page) { told.Add(1) }))
	if err != nil {
		t.Fatal(err)
	}
	s.Cache = c
	const getters, writers = 6, 2
	var all sync.WaitGroup
	for g := 0; g < getters; g++ {
		all.Add(1)
		go func(g int) {
			defer all.Done()
			random := rand.New(rand.NewSource(int64(g)))
			for n := 0; n < gets/getters; n++ {
				s.get(random, n)
			}
		}(g)
	}
	for w := 0; w < writers; w++ {
		all.Add(1)
		go func(w int) {
			defer all.Done()
			random := rand.New(rand.NewSource(int64(w)))
			for n := 0; n < gets/10/writers; n++ {
				s.write(random, w, n)
			}
		}(w)
	}
	within(t, 30*time.Minute, "Gets beside Forgets", all.Wait)
	until(t, "loads end", func() bool { return c.Stats().InUse == 0 })
	c.Close()
	until(t, "what has left is told", func() bool { return uint64(told.Load()) == c.Stats().Kept })
	st := c.Stats()
	t.Logf("%d gets, %d writes: %d old; %d values, %d errors, %d panics, %d of cold keys; %+v", gets, gets/10, s.old.Load(),
		s.counts[0].Load(), s.counts[1].Load(), s.counts[2].Load(), s.counts[3].Load(), st)
	if s.old.Load() != 0 {
		t.Error("old values or errors", s.old.Load())
	}
	if st.Hits == 0 || st.Evictions == 0 || st.Weight != 0 {
		t.Error("nothing was tested, or something is left", st)
	}
	// These are rare: few Gets may meet none.
	if gets >= 1_000_000 && (st.Joins == 0 || st.Errors == 0 || s.counts[2].Load() == 0) {
		t.Error("some of it was not tested", st)
	}
}
