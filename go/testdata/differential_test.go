package differential

import (
	"errors"
	"fmt"
	"math/rand"
	"os"
	"runtime"
	"strconv"
	"sync"
	"testing"
	"time"

	theirs "differential/xsync"

	ours "sf.example/singleflight"
)

// A group has the calls that both packages have.
type group interface {
	Do(key string, fn func() (any, error)) (any, error, bool)
	Forget(key string)
	DoChan(key string, fn func() (any, error)) <-chan result
}

type result struct {
	Val    any
	Err    error
	Shared bool
}

type of struct{ ours.Group }

func (g *of) DoChan(key string, fn func() (any, error)) <-chan result {
	to := make(chan result, 1)
	from := g.Group.DoChan(key, fn)
	go func() { r := <-from; to <- result{r.Val, r.Err, r.Shared} }()
	return to
}

type ofX struct{ theirs.Group }

func (g *ofX) DoChan(key string, fn func() (any, error)) <-chan result {
	to := make(chan result, 1)
	from := g.Group.DoChan(key, fn)
	go func() { r := <-from; to <- result{r.Val, r.Err, r.Shared} }()
	return to
}

// What one who asks does, and how its function ends if it leads.
type step struct {
	what   int // 0, 1: Do; 2: DoChan; 3: Forget; 4: the open calls of the key end
	key    int
	ends   int // 0, 1: a value; 2: an error; 3: Goexit; 4: a panic
	leaves bool
}

func script(r *rand.Rand) (steps []step) {
	chans := r.Intn(2) == 0
	for n := 3 + r.Intn(8); n > 0; n-- {
		s := step{what: r.Intn(5), key: r.Intn(2), ends: r.Intn(5)}
		// A panic of a call with channels ends the program.
		if chans && s.ends == 4 {
			s.ends = 0
		} else if !chans && s.what == 2 {
			s.what = 0
		}
		steps = append(steps, s)
	}
	return steps
}

var errLoad = errors.New("the load failed")

// play returns what each step came to. What a step begins has this long to ask, or to end.
func play(g group, steps []step, pause time.Duration) []string {
	came := make([]string, len(steps))
	var mu sync.Mutex
	set := func(i int, format string, args ...any) {
		mu.Lock()
		came[i] += fmt.Sprintf(format, args...)
		mu.Unlock()
	}
	releases := map[int][]chan struct{}{}
	end := func(key int) {
		mu.Lock()
		all := releases[key]
		releases[key] = nil
		mu.Unlock()
		for _, ch := range all {
			close(ch)
		}
		time.Sleep(2 * pause)
	}
	var all sync.WaitGroup
	for i, s := range steps {
		i, s := i, s
		key := fmt.Sprint("key-", s.key)
		fn := func() (any, error) {
			release := make(chan struct{})
			mu.Lock()
			releases[s.key] = append(releases[s.key], release)
			mu.Unlock()
			set(i, "leads ")
			<-release
			switch s.ends {
			case 2:
				return i, errLoad
			case 3:
				runtime.Goexit()
			case 4:
				panic(fmt.Sprint("panic of ", i))
			}
			return i, nil
		}
		switch s.what {
		case 3:
			g.Forget(key)
		case 4:
			end(s.key)
		case 2:
			ch := g.DoChan(key, fn)
			all.Add(1)
			go func() {
				defer all.Done()
				select {
				case r := <-ch:
					set(i, "%v %v %v", r.Val, r.Err, r.Shared)
				case <-time.After(200 * pause):
					set(i, "nothing")
				}
			}()
		default:
			all.Add(1)
			go func() {
				defer all.Done()
				how := "ended"
				defer func() {
					if v := recover(); v != nil {
						how = fmt.Sprint("panic: ", fmt.Sprint(v)[:10])
					}
					set(i, "%s", how)
				}()
				v, err, shared := g.Do(key, fn)
				how = fmt.Sprintf("%v %v %v", v, err, shared)
			}()
		}
		time.Sleep(pause)
	}
	// Whoever was slow to ask may lead yet.
	over := make(chan struct{})
	go func() { all.Wait(); close(over) }()
	for {
		end(0)
		end(1)
		select {
		case <-over:
			return came
		default:
		}
	}
}

// Scripts of Do, DoChan and Forget, with errors, panics and Goexit, come to the same in both packages. A script in which one was not
// in time, on a machine that is busy, is played again with twice the time.
func TestAsXSync(t *testing.T) {
	count := 1000
	if text := os.Getenv("SFLIGHT_SCRIPTS"); text != "" {
		var err error
		if count, err = strconv.Atoi(text); err != nil {
			t.Fatal(err)
		}
	}
	var all sync.WaitGroup
	for worker := 0; worker < 8; worker++ {
		all.Add(1)
		go func(worker int) {
			defer all.Done()
			for seed := worker; seed < count; seed += 8 {
				steps := script(rand.New(rand.NewSource(int64(seed))))
				var own, other []string
				for pause := 500 * time.Microsecond; pause < time.Second; pause *= 2 {
					own, other = play(new(of), steps, pause), play(new(ofX), steps, pause)
					if fmt.Sprint(own) == fmt.Sprint(other) {
						break
					}
				}
				if fmt.Sprint(own) != fmt.Sprint(other) {
					t.Errorf("seed %d: %+v:\n%q\nx/sync:\n%q", seed, steps, own, other)
				}
			}
		}(worker)
	}
	all.Wait()
}
