package singleflight

import (
	"fmt"
	"time"
)

// What New was told.
type sizes struct {
	loads   uint32 // how many loads are expected to run at one time
	slots   uint64 // of stamps, at least
	isSmall bool   // whether few shards are enough
	label   string
	record  func(Load)
	onPanic func(value any, stack []byte)
	refused func() bool // whether there is no memory for the library's group: for tests
	cache   cacheSizes
}

const (
	defaultLoads = 64
	mostLoads    = 1 << 20
)

func defaultSizes() sizes { return sizes{loads: defaultLoads} }

// Option is an option of New, NewGroup and NewCache. Some are for caches alone.
type Option func(*sizes)

// WithLoads tells how many loads are expected to run at one time, 1 to 1,048,576: a group begins
// with room for so many. By default that is 64. A group with more grows by itself.
func WithLoads(n uint32) Option { return func(s *sizes) { s.loads = n } }

// WithOnPanic sets what is called with the value and the stack of a panic that nobody waits for:
// all callers have left when their contexts ended, and their function panics then. It is called in
// the function's goroutine, so a panic of its own ends the program. By default the panic is printed
// to standard error.
func WithOnPanic(do func(value any, stack []byte)) Option {
	return func(s *sizes) { s.onPanic = do }
}

// WithName sets the name of the group, by which metrics and traces tell it from others.
func WithName(name string) Option { return func(s *sizes) { s.label = name } }

// Load is what the function of WithRecorder is told of one run of a load function.
type Load struct {
	Group   string        // the name of the group
	Key     string        // the key of the call
	Took    time.Duration // from the begin of the load function to its end
	Joiners int           // how many joined the call and waited for it; see ResultOf
	Err     error         // what it returned; or an error that tells of its panic or Goexit
}

// WithRecorder sets what is called after each load function has ended, for metrics and logs: once
// for each, also if the load function panicked, or if its callers have left. It is called in the
// goroutine of the load function, when the call has ended and those who have joined have the
// result; the leader gets the result when it returns. It may call the group. A panic of it is a
// panic of the leader alone, or ends the program if the load function had a goroutine of its own. A
// Do with a recorder takes two looks at the clock longer.
func WithRecorder(record func(Load)) Option { return func(s *sizes) { s.record = record } }

func makeCore(options []Option) (*core, error) {
	s := defaultSizes()
	for _, option := range options {
		option(&s)
	}
	if s.cache.option != "" {
		return nil, fmt.Errorf("%w: %s is for a cache", ErrOption, s.cache.option)
	}
	return s.core()
}

// core makes a core. It fails where a number is out of range, or there is no library.
func (s *sizes) core() (*core, error) {
	if s.loads == 0 || s.loads > mostLoads {
		return nil, fmt.Errorf("%w: %d loads, not 1 to %d", ErrSize, s.loads, mostLoads)
	}
	p := newCore(s)
	return p, p.why
}

func newCore(s *sizes) *core {
	p := &core{label: s.label, record: s.record, onPanic: s.onPanic}
	p.why = p.table.open(s)
	return p
}
