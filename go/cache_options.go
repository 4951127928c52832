package singleflight

import (
	"context"
	"fmt"
	"time"
)

// What the options of a cache say. Functions of the cache's types are checked by NewCache.
type cacheSizes struct {
	option        string // the name of an option that is for caches alone
	lives         lifetimes
	err           error // a number that is out of range
	cost, onEvict any
	toBytes       any
	batch         any
}

// forCache returns the sizes of a cache, and notes that the option of this name is for caches alone.
func (s *sizes) forCache(option string) *cacheSizes {
	s.cache.option = option
	return &s.cache
}

// positive sets a time that has to be more than 0.
func (s *cacheSizes) positive(to *time.Duration, time time.Duration) {
	if time <= 0 {
		s.err = fmt.Errorf("%w: %s of %v", ErrSize, s.option, time)
	}
	*to, s.lives.has = time, true
}

// WithCost sets what a value costs, for a cache of these types: the bytes of a page, say. The
// function is called once for each load that returned no error and for each Put, before the value
// is kept, and a panic of it is one of the load or the Put. A Put has forgotten the key by then. A
// value that costs more than the limit, or less than 0, is returned and not kept. By default each
// value costs 1.
func WithCost[K comparable, V any](cost func(key K, value V) int64) Option {
	return func(s *sizes) { s.forCache("WithCost").cost = cost }
}

// WithTTL makes values older than this be loaded again, more than 0. It is a backstop for writes
// without a Forget. A value's age is counted from when its load began. Of the steady clock and the
// wall clock the one counts that says it is older, so a clock that is set back keeps no value, and
// neither does a machine that was stopped. By default values have no end. A load function can
// return another TTL with its value: see Loaded. With a TTL a hit takes a look at the clock longer.
func WithTTL(ttl time.Duration) Option {
	return func(s *sizes) { c := s.forCache("WithTTL"); c.positive(&c.lives.ttl, ttl) }
}

// WithJitter makes each value live a random time between (1-fraction) times its TTL and its TTL, so
// that values which were loaded together do not end together. The fraction is at least 0, and below
// 1. By default it is 0.
func WithJitter(fraction float64) Option {
	return func(s *sizes) {
		c := s.forCache("WithJitter")
		if !(fraction >= 0 && fraction < 1) {
			c.err = fmt.Errorf("%w: WithJitter of %v", ErrSize, fraction)
		}
		c.lives.jitter = fraction
	}
}

// WithIdle makes values be loaded again that no Get has found for this time, more than 0. The time of
// the last look is kept to a sixteenth of that, by the steady clock. So a value may end so much
// earlier, and earlier by what the wall clock was set on since its load. It does not end later.
func WithIdle(idle time.Duration) Option {
	return func(s *sizes) { c := s.forCache("WithIdle"); c.positive(&c.lives.idle, idle) }
}

// WithRefreshAfter makes the first Get that finds a value older than this, more than 0, return the
// value at once and start one load in the background, whose value takes the old one's place. That
// load runs as a load with a deadline does, with the values of the Get's context; nobody waits for
// it, but Gets that come when the old value has ended join it. If it fails, the old value stays, and
// the next Get tries again. A Forget closes it: its value is not kept, and no later Get gets it.
func WithRefreshAfter(age time.Duration) Option {
	return func(s *sizes) { c := s.forCache("WithRefreshAfter"); c.positive(&c.lives.refresh, age) }
}

// WithStaleIfError makes a value stand in for the error of a load for this time after its end, more
// than 0. All who share the load get the value, without an error. One that was forgotten, or has a
// tag that was, never stands in. A panic of a load is not hidden, and neither is ErrNotFound, at
// which the value leaves. An error of a load whose callers had all left is no failure: whoever has
// joined it since loads anew.
func WithStaleIfError(time time.Duration) Option {
	return func(s *sizes) { c := s.forCache("WithStaleIfError"); c.positive(&c.lives.stale, time) }
}

// WithErrorTTL sets how long an error of a load is kept: a Get that finds it returns it, with the
// value that came with it, and loads nothing. Such a Get is a hit. The function is called with each
// error that a load returns, and an error for which it returns 0 or less is not kept. A kept error
// costs 1. Each Forget of its key forgets it, and its tags do. It is not told to the function of
// WithOnEvict, and takes no value's place that may still be returned. By default no error is kept.
func WithErrorTTL(ttl func(err error) time.Duration) Option {
	return func(s *sizes) { s.forCache("WithErrorTTL").lives.errorTTL = ttl }
}

// WithClock sets the clock of a cache, for tests: it is read in place of time.Now. A time without a
// reading of the steady clock is taken for both clocks. It may be called by many goroutines at once.
func WithClock(now func() time.Time) Option {
	return func(s *sizes) {
		if c := s.forCache("WithClock"); now != nil {
			c.lives.clock = func() instant { return instantOfAny(now()) }
		}
	}
}

// WithKey sets how the keys of a cache become bytes, by which its calls know them. Strings, whole
// numbers and arrays of whole numbers need no such function. Different keys are to have different
// bytes: keys with the same bytes wait for each other's loads, and are forgotten together, but none
// gets another's value. The function is called for each Get, and is to return the same bytes each
// time. The bytes are not changed, and may be used again when the next key becomes bytes in the same
// goroutine.
//
// A key that does not equal itself, as NaN, is never found: each Get of it loads, and nothing is kept.
// A key whose comparison panics, since an interface in it has a slice, say, panics as its value is to
// be kept.
func WithKey[K comparable](toBytes func(key K) []byte) Option {
	return func(s *sizes) { s.forCache("WithKey").toBytes = toBytes }
}

// BatchLoad loads the values of several keys, each of which it is given once. A key that is not in
// the map does not exist: its Gets end with ErrNotFound. Other keys in the map are not looked at. If
// it returns an error, each of the keys ends with that.
type BatchLoad[K comparable, V any] func(ctx context.Context, keys []K) (map[K]Loaded[V], error)

// WithBatchLoader sets what GetMany loads keys with. By default GetMany loads one key after the other.
func WithBatchLoader[K comparable, V any](load BatchLoad[K, V]) Option {
	return func(s *sizes) { s.forCache("WithBatchLoader").batch = load }
}

// Reason tells why a value has left a cache.
type Reason uint8

// The values of Reason.
const (
	ReasonRoom      Reason = iota // it made room for another
	ReasonExpired                 // it was too old, or not found for too long
	ReasonForgotten               // it, its tag or all was forgotten; or another key of its hash slot
	ReasonReplaced                // a newer load, or a Put, took its place
	ReasonClosed                  // the cache was closed
	reasons
)

// String returns the name of the Reason, in small letters.
func (r Reason) String() string {
	if r < reasons {
		return [...]string{"room", "expired", "forgotten", "replaced", "closed"}[r]
	}
	return fmt.Sprintf("Reason(%d)", uint8(r))
}

// WithOnEvict sets what is called with each value that leaves a cache, once: if it makes room, is
// replaced, forgotten, found too old or lost, and at Close. The function is a func(K, V, Reason) of
// the cache's types, or a func(K, V). Its goroutine is one that calls the cache, or that of a load
// function. No lock is held, so it may call the cache. All who wait for the load that pushed a value
// out have its result before it is called. It is not called for values that were not kept, nor for
// those of a cache that nobody closes. A panic of it is one of its goroutine; the other values that
// left are told all the same.
func WithOnEvict(do any) Option {
	return func(s *sizes) { s.forCache("WithOnEvict").onEvict = do }
}

// function sets a function of the cache's types, which an option gave. It fails if that has others.
func function[F any](to *F, given any, option string) error {
	if given == nil {
		return nil
	}
	f, ok := given.(F)
	if !ok {
		return fmt.Errorf("%w: %s has a %T, not a %T", ErrOption, option, given, *to)
	}
	*to = f
	return nil
}
