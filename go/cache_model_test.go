package singleflight

import (
	"context"
	"errors"
	"fmt"
	"io"
	"math"
	"math/rand"
	"os"
	"runtime"
	"strconv"
	"sync"
	"testing"
	"time"
)

// A cache beside a model of it: one goroutine makes random calls, with all features on, while both clocks are set at will, also back.
// Functions of the user fail, panic and end their goroutine. A refresh stops in its load until the model lets it go on.
//
// Each value knows when its load began and how long it may live, so what a Get returns is judged by the value itself. What is not
// returned has to have a reason. What leaves is told once, for a reason that is right. The numbers of Stats are those of what happened.

const (
	modelKeys = 6
	modelTags = 3
	sameWall  = time.Duration(sameEra) // so much of what the wall clock gains may not count
)

// What is known of a value or an error that was loaded or put: its number is its place in the list.
type modelValue struct {
	key    int
	begun  int // which event its load's beginning was
	born   instant
	ttl    time.Duration // 0 without end; below 0 of one that is not to be kept
	tags   uint          // bits
	cost   int64
	err    error
	does   modelAct
	told   int
	isKept bool
	lives  time.Duration // its ttl less the jitter, once it is kept
	last   int64         // the latest time when it was found, or its birth, by the steady clock
	used   time.Duration // how old it was when it was last found
}

// What a function of the user does.
type modelAct uint8

const (
	actReturns modelAct = iota
	actPanics
	actExits
	actCostPanics
)

var errModel = errors.New("a function panics as it was told")

// An error of a load.
type modelError struct {
	ttl    time.Duration // how long it is kept
	panics bool
	of     error
}

func (e *modelError) Error() string { return "a load that failed" }
func (e *modelError) Unwrap() error { return e.of }

// A refresh that stops in its load.
type modelJob struct {
	number int
	goOn   chan struct{}
	of     *node[int, int]
	in     *fill[int, int]
}

type modelStamp struct {
	ValueStamp
	number int
}

// What there was before a step.
type modelBefore struct {
	known         int
	weight, limit int64
}

type modelTold struct {
	number int
	why    Reason
}

type modelCache struct {
	*Cache[int, int]
	t      *testing.T
	seed   int64
	mu     sync.Mutex // protects what the functions of the cache use
	random *rand.Rand
	known  []*modelValue
	now    instant
	event  int
	loaded []int // what was loaded in this step
	left   []modelTold
	panics bool   // whether a callback may panic now
	broke  string // which function has panicked or ended its goroutine in this step
	begun  chan *modelJob

	before   modelBefore
	jobs     []*modelJob
	ran      []int          // the numbers of those that went on in this step
	all      [modelKeys]int // the number of what is there of a key, or 0
	ended    [modelKeys]int // the latest Forget of each key
	tags     [modelTags]int // and of each tag
	anyTag   int
	lives    lifetimes
	missing  time.Duration // how long "not found" of a batch is kept
	fails    int           // of how many loads one does not return a value
	stamps   [modelKeys]modelStamp
	want     CacheStats // what is to be counted
	tellings uint64     // how many have left
	records  int        // what a recorder was told of
	recorded int        // and is to be
	counts   map[string]int
}

func (m *modelCache) below(n int) int {
	m.mu.Lock()
	defer m.mu.Unlock()
	return m.random.Intn(n)
}

func (m *modelCache) fail(of string, args ...any) {
	m.t.Helper()
	m.t.Fatalf("SFLIGHT_MODEL=%d, event %d: %s", m.seed, m.event, fmt.Sprintf(of, args...))
}

// time returns a time of any size, above 0. The lock is held.
func (m *modelCache) time() time.Duration {
	switch m.random.Intn(10) {
	case 0:
		return 1
	case 1:
		return time.Duration(1) << m.random.Intn(63)
	case 2:
		return math.MaxInt64 - time.Duration(m.random.Intn(3))
	case 3, 4, 5:
		return time.Duration(1 + m.random.Int63n(int64(time.Hour)))
	}
	return time.Duration(1 + m.random.Int63()>>m.random.Intn(63))
}

// The model's clocks stay within so much of 0, so that no difference of them is too large.
const modelEnd = 1 << 60

func bounded(at int64) int64 {
	if at > modelEnd {
		return modelEnd
	}
	if at < -modelEnd {
		return -modelEnd
	}
	return at
}

// pass lets time pass, or sets a clock.
func (m *modelCache) pass() {
	m.mu.Lock()
	defer m.mu.Unlock()
	by := int64(m.time() >> 3 >> m.random.Intn(40))
	switch m.random.Intn(24) {
	case 0:
		m.now.wall = bounded(m.now.wall + by)
	case 1:
		m.now.wall = bounded(m.now.wall - by)
	case 2:
		m.now.steady = bounded(m.now.steady + by)
	case 3:
		m.now.steady = bounded(m.now.steady - by)
	case 4, 5, 6, 7, 8, 9, 10, 11, 12, 13:
	default:
		by %= int64(time.Minute) << m.random.Intn(20)
		m.now = instant{bounded(m.now.steady + by), bounded(m.now.wall + by)}
	}
}

func (m *modelCache) clock() instant {
	m.mu.Lock()
	defer m.mu.Unlock()
	return m.now
}

// value makes a value, or an error, of the key. The lock is held.
func (m *modelCache) value(key, fails int) (number int) {
	m.event++
	it := &modelValue{key: key, begun: m.event, born: m.now, ttl: m.lives.ttl, cost: 1, last: m.now.steady}
	if m.random.Intn(3) == 0 {
		if it.ttl = m.time(); m.random.Intn(8) == 0 {
			it.ttl = -it.ttl
		}
	}
	if m.random.Intn(2) == 0 {
		it.tags = uint(m.random.Intn(1 << modelTags))
	}
	if m.random.Intn(3) == 0 {
		it.cost = []int64{0, 2, 3, 70_000, 1 << 33, math.MaxInt64, math.MinInt64, -1}[m.random.Intn(8)]
	}
	if fails > 0 && m.random.Intn(fails) == 0 {
		e := &modelError{of: errDown, panics: m.random.Intn(10) == 0}
		if it.err = e; m.random.Intn(3) == 0 {
			e.of = ErrNotFound
		}
		if e.ttl = m.time(); m.random.Intn(3) == 0 {
			e.ttl = -time.Duration(m.random.Intn(2))
		}
		it.does = []modelAct{actReturns, actReturns, actReturns, actPanics, actExits}[m.random.Intn(5)]
	} else if fails > 0 && m.random.Intn(20) == 0 {
		it.does = actCostPanics
	}
	m.known = append(m.known, it)
	return len(m.known) - 1
}

func nameOfTag(tag int) string { return fmt.Sprint("tag ", tag) }

func (it *modelValue) loaded(number int, ttl time.Duration) Loaded[int] {
	of := Loaded[int]{Value: number}
	if it.ttl != ttl {
		of.TTL = it.ttl
	}
	for tag := 0; tag < modelTags; tag++ {
		if it.tags>>tag&1 == 1 {
			of.Tags = append(of.Tags, nameOfTag(tag))
		}
	}
	return of
}

// load is the cache's load function.
func (m *modelCache) load(ctx context.Context, key int) (Loaded[int], error) {
	m.mu.Lock()
	number := m.value(key, m.fails)
	it := m.known[number]
	_, isBehind := ctx.(detached)
	if !isBehind {
		m.loaded = append(m.loaded, number)
	}
	m.mu.Unlock()
	if isBehind {
		job := &modelJob{number: number, goOn: make(chan struct{})}
		m.begun <- job
		<-job.goOn
	}
	m.breaks(it.does)
	return it.loaded(number, m.lives.ttl), it.err
}

// loadMany is the batch loader. All keys may fail together.
func (m *modelCache) loadMany(_ context.Context, keys []int) (map[int]Loaded[int], error) {
	m.mu.Lock()
	values := map[int]Loaded[int]{-1: {}}
	failing := m.known[m.value(0, m.fails)]
	for _, key := range keys {
		number := m.value(key, 0)
		it := m.known[number]
		m.loaded = append(m.loaded, number)
		if it.does, it.err = failing.does, failing.err; it.err == nil && m.random.Intn(6) == 0 {
			it.err, it.does, it.tags = ErrNotFound, actReturns, 0
			continue
		}
		if failing.err != nil {
			it.tags = 0
			continue
		}
		values[key] = it.loaded(number, m.lives.ttl)
	}
	m.mu.Unlock()
	m.breaks(failing.does)
	return values, failing.err
}

// breaks panics, or ends the goroutine, where a load function does.
func (m *modelCache) breaks(does modelAct) {
	switch does {
	case actPanics:
		m.panicsIn("load")
	case actExits:
		m.mu.Lock()
		m.broke = "load"
		m.mu.Unlock()
		runtime.Goexit()
	}
}

func (m *modelCache) panicsIn(what string) {
	m.mu.Lock()
	defer m.mu.Unlock()
	m.broke = what
	panic(errModel)
}

// mayPanic panics now and then where a callback may. The lock is held.
func (m *modelCache) mayPanic(what string, part int) {
	if m.panics && m.random.Intn(part) == 0 {
		m.broke = what
		panic(errModel)
	}
}

func (m *modelCache) onEvict(key, number int, why Reason) {
	m.mu.Lock()
	defer m.mu.Unlock()
	it := m.known[number]
	m.tellings++
	if it.told++; it.key != key || it.told > 1 || it.err != nil {
		m.t.Errorf("SFLIGHT_MODEL=%d: %d of key %d is told of as of key %d, %d times", m.seed, number, it.key, key, it.told)
	}
	m.left = append(m.left, modelTold{number, why})
	m.mayPanic("evict", 6)
}

func (m *modelCache) costOf(_, number int) int64 {
	m.mu.Lock()
	it := m.known[number]
	m.mu.Unlock()
	if it.does == actCostPanics {
		m.panicsIn("cost")
	}
	return it.cost
}

func (m *modelCache) errorTTL(err error) time.Duration {
	if e, ok := err.(*modelError); !ok {
		return m.missing
	} else if e.panics {
		m.panicsIn("error")
	} else {
		return e.ttl
	}
	return 0
}

func (m *modelCache) bytesOf(key int) []byte {
	m.mu.Lock()
	defer m.mu.Unlock()
	m.mayPanic("key", 40)
	return []byte(strconv.Itoa(key))
}

func (m *modelCache) record(Load) {
	m.mu.Lock()
	defer m.mu.Unlock()
	m.records++
	m.mayPanic("record", 20)
}

// options returns the options of a model. Each time is there in some of them.
func (m *modelCache) options() []Option {
	all := []Option{
		WithCost(m.costOf), WithOnEvict(m.onEvict), WithBatchLoader(m.loadMany), WithRecorder(m.record), WithOnPanic(func(any, []byte) {}),
		func(s *sizes) { s.forCache("WithClock").lives.clock = m.clock },
	}
	often := func(with func(time.Duration) Option, part int) (of time.Duration) {
		if m.random.Intn(part) > 0 {
			of = m.time()
			all = append(all, with(of))
		}
		return of
	}
	m.lives.ttl = often(WithTTL, 4)
	m.lives.idle = often(WithIdle, 3)
	m.lives.refresh = often(WithRefreshAfter, 4)
	m.lives.stale = often(WithStaleIfError, 3)
	if m.lives.jitter = []float64{0, 0, 0.3, 0.999}[m.random.Intn(4)]; m.lives.jitter > 0 {
		all = append(all, WithJitter(m.lives.jitter))
	}
	if m.random.Intn(3) > 0 {
		m.lives.errorTTL = m.errorTTL
		all = append(all, WithErrorTTL(m.errorTTL))
	}
	if m.random.Intn(2) == 0 {
		all = append(all, WithKey(m.bytesOf))
	}
	m.fails = 2 + m.random.Intn(8)
	m.missing = m.time() - 2
	return all
}

var modelLimits = []int64{1, 3, 8, 100, 1 << 40, 1 << 40, math.MaxInt64}

func newModel(t *testing.T, seed int64) *modelCache {
	m := &modelCache{t: t, seed: seed, random: rand.New(rand.NewSource(seed)), known: []*modelValue{{}}, begun: make(chan *modelJob), counts: map[string]int{}}
	m.now = instant{m.random.Int63n(1 << 30), 1_700_000_000_000_000_000 >> m.random.Intn(60)}
	c, err := NewCacheOf(modelLimits[m.random.Intn(len(modelLimits))], m.load, append(m.options(), wide)...)
	if err != nil {
		m.fail("%v", err)
	}
	m.Cache = c
	return m
}

// isApart tells whether no two keys share a hash slot, or what counts Puts, and no two tags an age: else one's Forget may end the other's value.
func (m *modelCache) isApart() bool {
	f, slots, classes, ages := m.Cache.now.Load(), map[words]bool{}, map[any]bool{}, map[uint32]bool{}
	for key := 0; key < modelKeys; key++ {
		a := asking{key: m.kind.name(key)}
		f.p.table.ask(&a)
		f.p.ends(&a)
		slots[words{a.stamp.table, a.stamp.slot, 0}] = true
		classes[m.room.begunOf(m.printOf(key))] = true
	}
	for tag := 0; tag < modelTags; tag++ {
		ages[m.room.tags.placeOf(nameOfTag(tag))] = true
	}
	return len(slots) == modelKeys && len(classes) == modelKeys && len(ages) == modelTags
}

// isCurrent tells whether no Forget of its key, and none of its tags, came since its load began.
func (m *modelCache) isCurrent(number int) bool {
	it := m.known[number]
	is := it.begun > m.ended[it.key] && !(it.err != nil && it.tags == 0 && it.begun < m.anyTag)
	for tag, ended := range m.tags {
		is = is && (it.tags>>tag&1 == 0 || it.begun > ended)
	}
	return is
}

func notBelow0(d time.Duration) time.Duration {
	if d < 0 {
		return 0
	}
	return d
}

func sumOf(a, b time.Duration) time.Duration {
	if a > math.MaxInt64-b {
		return math.MaxInt64
	}
	return a + b
}

// ages returns how old it is at least and at most. The cache may leave out a part of what the wall clock gains.
func (m *modelCache) ages(it *modelValue) (least, most time.Duration) {
	steady, wall := time.Duration(m.now.steady-it.born.steady), time.Duration(m.now.wall-it.born.wall)
	least, most = notBelow0(steady), notBelow0(steady)
	if wall > most {
		most = wall
	}
	if wall-sameWall > least {
		least = wall - sameWall
	}
	return least, most
}

// within tells whether a Get may return what is kept, and whether it must; or so late after its end.
func (m *modelCache) within(number int, late time.Duration) (may, must bool) {
	it := m.known[number]
	if number == 0 || !m.isCurrent(number) {
		return false, false
	}
	least, most := m.ages(it)
	may, must = true, true
	if it.lives > 0 {
		end := sumOf(it.lives, late)
		may, must = least < end, most < end
	}
	if idle := m.lives.idle; idle > 0 && it.err == nil {
		end, tick := sumOf(idle, late), idle/idleSteps+1
		may = may && time.Duration(m.now.steady-it.last) < end
		must = must && it.used/tick < math.MaxInt32 && sumOf(notBelow0(most-it.used), tick) < end
	}
	return may, must
}

// node returns the node of what was loaded or put, if it is there.
func (m *modelCache) node(number int) *node[int, int] {
	it := m.known[number]
	n := m.Cache.now.Load().values.find(it.key, m.printOf(it.key))
	if n == nil || n.extras.failed() != it.err || it.err == nil && n.value != number {
		return nil
	}
	return n
}

func (m *modelCache) isTold(number int, why Reason) bool {
	for _, it := range m.left {
		if it == (modelTold{number, why}) {
			return true
		}
	}
	return false
}

// uses notes that it was found, if that is sure.
func (m *modelCache) uses(number int, isSure bool) {
	it := m.known[number]
	if age := notBelow0(time.Duration(m.now.steady - it.born.steady)); isSure || age < it.used {
		it.used = age
	}
	if m.now.steady > it.last {
		it.last = m.now.steady
	}
}

// finds is told that a Get has returned it without a load.
func (m *modelCache) finds(key, number int) {
	if m.all[key] != number {
		m.fail("%d of key %d was returned, and %d is there", number, key, m.all[key])
	}
	if may, _ := m.within(number, 0); !may {
		m.fail("%d of key %d was returned at %v: %+v", number, key, m.now, m.known[number])
	}
	m.uses(number, true)
	m.want.Hits++
}

// misses is told that a Get has not found what is there, also not so late after its end.
func (m *modelCache) misses(key int, late time.Duration) {
	// In a batch, what was loaded before may have needed its room.
	if _, must := m.within(m.all[key], late); must && !m.isTold(m.all[key], ReasonRoom) {
		m.fail("%d of key %d was not found at %v: %+v; %v", m.all[key], key, m.now, m.known[m.all[key]], m.left)
	}
}

// keeps is told that it was kept.
func (m *modelCache) keeps(number int) {
	it := m.known[number]
	n := m.node(number)
	m.all[it.key], it.isKept = number, true
	if n == nil {
		if !m.isShort() || it.err == nil && !m.isTold(number, ReasonRoom) {
			m.fail("%d was not kept: %+v; %v", number, it, m.left)
		}
		return
	}
	ttl, jitter := it.ttl, m.lives.jitter
	if it.err != nil {
		ttl, jitter = m.ttlOf(it.err), 0
	}
	if it.lives = 0; n.hasLife() {
		it.lives = n.mortal().ttl
	}
	if least := ttl - time.Duration(jitter*float64(ttl)) - ttl>>50 - 1; it.lives > ttl || it.lives < least {
		m.fail("%d lives %d, not %d to %d", number, it.lives, least, ttl)
	}
}

// comes is told that a value was loaded or put. It tells whether that is kept.
func (m *modelCache) comes(number int) bool {
	it := m.known[number]
	if m.all[it.key] = 0; it.ttl < 0 || it.cost < 0 || it.cost > m.Limit() {
		return false
	}
	m.keeps(number)
	return true
}

// ttlOf returns how long an error is kept.
func (m *modelCache) ttlOf(err error) time.Duration {
	if m.lives.errorTTL == nil {
		return 0
	} else if e, ok := err.(*modelError); ok {
		return e.ttl
	}
	return m.missing
}

// loads is told what a Get has returned that has loaded this. late tells how long a value stands in for an error.
func (m *modelCache) loads(key, number int, got Got[int]) {
	it, old := m.known[number], m.all[key]
	switch {
	case it.err == nil:
		if got.Value != number || got.Err != nil {
			m.fail("%v was returned, not %d", got, number)
		}
		m.comes(number)
	case got.Err == nil:
		may, _ := m.within(old, m.lives.stale)
		if !may || got.Value != old || m.known[old].err != nil || errors.Is(it.err, ErrNotFound) {
			m.fail("%v stands in for an error of key %d, not %d: %+v", got, key, old, m.known[old])
		}
		m.want.Stale++
		m.counts["stale"]++
	default:
		if got.Err != it.err {
			m.fail("%v was returned, not %v", got, it.err)
		}
		m.errs(number)
	}
}

// errs is told that an error was loaded, for which no value stood in.
func (m *modelCache) errs(number int) {
	it := m.known[number]
	if !errors.Is(it.err, ErrNotFound) && m.known[m.all[it.key]].err == nil {
		m.misses(it.key, m.lives.stale)
	}
	if m.ttlOf(it.err) > 0 {
		m.keeps(number)
		m.counts["kept errors"]++
	} else if errors.Is(it.err, ErrNotFound) {
		m.all[it.key] = 0
	}
}

// got is told what a Get has returned, and what it has loaded.
func (m *modelCache) got(key int, got Got[int], loaded []int, isEnded bool) {
	switch {
	case len(loaded) > 0:
		m.misses(key, 0)
		m.want.Misses++
		m.loads(key, loaded[0], got)
	case isEnded && got.Err == context.Canceled:
		m.misses(key, 0)
		m.want.Misses++
	case got.Err == nil:
		m.finds(key, got.Value)
	default:
		if m.known[m.all[key]].err != got.Err {
			m.fail("an error of key %d that is not kept: %v", key, got.Err)
		}
		m.finds(key, m.all[key])
		m.counts["errors found"]++
	}
}

// does calls do, in which functions of the user may panic or end the goroutine. It tells whether none has.
func (m *modelCache) does(mayPanic bool, do func()) bool {
	m.mu.Lock()
	m.panics, m.broke = mayPanic && m.random.Intn(3) == 0, ""
	m.mu.Unlock()
	done, isOver := make(chan struct{}), false
	go func() {
		defer close(done)
		defer func() {
			if it := recover(); it != nil && !errors.Is(it.(error), errModel) {
				m.t.Errorf("SFLIGHT_MODEL=%d: %v", m.seed, it)
			}
		}()
		do()
		isOver = true
	}()
	<-done
	m.mu.Lock()
	m.panics = false
	m.mu.Unlock()
	if isOver == (m.broke != "") {
		m.fail("a function has panicked: %q; so has the call: %t", m.broke, !isOver)
	}
	if !isOver {
		m.counts["panics of "+m.broke]++
	}
	return isOver
}

// frees lets the refreshes of a key go on for which a Get of it would wait.
func (m *modelCache) frees(key int) {
	for at := 0; at < len(m.jobs); {
		if job := m.jobs[at]; m.known[job.number].key == key {
			m.runs(at)
		} else {
			at++
		}
	}
}

func (m *modelCache) hasJob(n *node[int, int]) bool {
	for _, job := range m.jobs {
		if job.of == n {
			return true
		}
	}
	return false
}

// arrives waits until the refreshes of these nodes have come to their loads, if some have begun.
func (m *modelCache) arrives(nodes ...*node[int, int]) {
	for _, n := range nodes {
		for n != nil && n.isClaimed() && !m.hasJob(n) {
			select {
			case job := <-m.begun:
				// Another refresh may begin now.
				m.mu.Lock()
				key := m.known[job.number].key
				m.mu.Unlock()
				for _, it := range nodes {
					if it != nil && it.key == key {
						job.of = it
					}
				}
				job.in = m.Cache.now.Load()
				m.jobs = append(m.jobs, job)
				m.want.Refreshes++
			default:
				runtime.Gosched()
			}
		}
	}
}

// refreshes judges whether a Get that has found the node has begun a refresh.
func (m *modelCache) refreshes(n *node[int, int], had bool) {
	if n == nil || n.isError() || m.lives.refresh == 0 {
		return
	}
	least, most := m.ages(m.known[n.value])
	if has := m.hasJob(n); least >= m.lives.refresh && !has || most < m.lives.refresh && has != had {
		m.fail("a refresh of %d: %t, at %v: %+v", n.value, has, m.now, m.known[n.value])
	}
}

// runs lets a refresh go on, and waits for its end.
func (m *modelCache) runs(at int) {
	job := m.jobs[at]
	m.jobs = append(m.jobs[:at:at], m.jobs[at+1:]...)
	m.ran = append(m.ran, job.number)
	it := m.known[job.number]
	key, old, isCurrent := it.key, m.all[it.key], m.isCurrent(job.number)
	close(job.goOn)
	for job.of.isClaimed() {
		runtime.Gosched()
	}
	broke := m.broke
	m.broke = ""
	m.want.Loads++
	m.recorded++
	m.counts["refreshes"]++
	isMissing := errors.Is(it.err, ErrNotFound)
	if it.err != nil && !isMissing || broke == "load" || broke == "cost" {
		m.want.Errors++
	}
	may, must := m.within(old, m.lives.stale)
	// What is in a later fill stands in for nothing of an earlier one.
	mayStand := m.known[old].err == nil && job.in == m.Cache.now.Load()
	may, must = may && mayStand, must && mayStand
	stale := m.Stats().Stale - m.want.Stale
	if broke == "" && it.err != nil && !isMissing && (must && stale != 1 || !may && stale != 0) || stale > 1 {
		m.fail("a value of key %d stands in for an error of a refresh %d times: %t, %t", key, stale, may, must)
	}
	m.want.Stale += stale
	switch {
	case broke != "" || stale > 0 || !isCurrent:
		if m.node(job.number) != nil {
			m.fail("%d of a refresh was kept", job.number)
		}
	case it.err == nil:
		m.comes(job.number)
	default:
		m.errs(job.number)
	}
	m.hasLeft(m.isShort(), false)
}

// resyncs looks what there is, after a panic of which nobody knows what came before it.
func (m *modelCache) resyncs() {
	for _, number := range m.loaded {
		if m.node(number) != nil || m.isTold(number, ReasonRoom) {
			m.keeps(number)
		}
	}
	for key, number := range m.all {
		if number == 0 {
			continue
		}
		if m.uses(number, false); m.node(number) == nil {
			m.all[key] = 0
		}
	}
	st := m.Stats()
	m.want.Hits, m.want.Misses, m.want.Errors, m.want.Stale = st.Hits, st.Misses, st.Errors, st.Stale
	m.want.Loads = st.Loads - uint64(len(m.jobs))
	m.recorded = m.records
}

// awaits waits until a goroutine that has loaded has told of that.
func (m *modelCache) awaits(records int) {
	for from := time.Now(); ; runtime.Gosched() {
		m.mu.Lock()
		isOver := m.tellings == m.Stats().Left && m.records == records
		m.mu.Unlock()
		if isOver {
			return
		}
		if time.Since(from) > patience {
			m.fail("it was told of %d, and there are %+v; recorded %d, not %d", m.tellings, m.Stats(), m.records, records)
		}
	}
}

// counted is told what was loaded at once.
func (m *modelCache) counted() {
	if len(m.loaded) == 0 {
		return
	}
	m.want.Loads += uint64(len(m.loaded))
	m.recorded += len(m.loaded)
	if err := m.known[m.loaded[0]].err; err != nil && !errors.Is(err, ErrNotFound) {
		m.want.Errors += uint64(len(m.loaded))
	}
}

func (m *modelCache) peeks(key int) {
	var v int
	var ok bool
	if !m.does(true, func() { v, ok = m.GetIfPresent(key) }) {
		m.resyncs()
	} else if ok {
		m.finds(key, v)
	} else if m.want.Misses++; m.known[m.all[key]].err == nil {
		m.misses(key, 0)
	}
}

func (m *modelCache) gets(key int) {
	f := m.Cache.now.Load()
	if n := f.values.find(key, m.printOf(key)); n == nil || !f.values.isAtLeast(n, isFresh) || m.below(2) == 0 {
		m.frees(key)
	}
	ctx, how, isEnded := always, m.below(8), false
	if how < 2 {
		own, cancel := context.WithCancel(always)
		defer cancel()
		if ctx, isEnded = own, how == 0; isEnded {
			cancel()
		}
	}
	n := f.values.find(key, m.printOf(key))
	var got Got[int]
	var stamp ValueStamp
	isOver := m.does(how > 1, func() {
		if how == 2 {
			got.Value, stamp, got.Err = m.GetStamped(ctx, key)
		} else {
			got.Value, got.Err = m.Get(ctx, key)
		}
	})
	if how == 1 {
		m.awaits(m.recorded + len(m.loaded))
	}
	had := m.hasJob(n)
	m.arrives(n)
	if !isOver {
		m.resyncs()
		return
	}
	m.counted()
	if len(m.loaded) == 0 && got.Err == nil {
		m.refreshes(n, had)
	}
	m.got(key, got, m.loaded, isEnded)
	if how == 2 && got.Err == nil {
		m.stamps[key] = modelStamp{stamp, got.Value}
	}
}

func (m *modelCache) getsMany(key int) {
	keys := []int{key, (key + 1) % modelKeys, key, (key + 3) % modelKeys}
	for _, key := range keys {
		m.frees(key)
	}
	ctx, isAlways := always, m.below(3) > 0
	if !isAlways {
		own, cancel := context.WithCancel(always)
		defer cancel()
		ctx = own
	}
	var nodes []*node[int, int]
	for _, key := range keys {
		nodes = append(nodes, m.Cache.now.Load().values.find(key, m.printOf(key)))
	}
	var all []Got[int]
	isOver := m.does(isAlways, func() { all = m.GetMany(ctx, keys) })
	if !isAlways {
		m.awaits(m.recorded + len(m.loaded))
	}
	m.arrives(nodes...)
	if !isOver {
		m.resyncs()
		return
	}
	m.counted()
	m.counts["batches"]++
	for _, at := range []int{0, 1, 3} {
		var loaded []int
		for _, number := range m.loaded {
			if m.known[number].key == keys[at] {
				loaded = append(loaded, number)
			}
		}
		m.got(keys[at], all[at], loaded, false)
	}
	if all[0] != all[2] {
		m.fail("one key has two values: %v", all)
	}
}

// forgot is told of a Forget of the key, and returns when it was.
func (m *modelCache) forgot(key int) {
	m.want.Forgets++
	m.event++
	m.ended[key], m.all[key] = m.event, 0
}

func (m *modelCache) forgets(key int) {
	if m.does(true, func() { m.Forget(key) }) || m.broke != "key" {
		m.forgot(key)
	}
}

func (m *modelCache) forgetsIf(key int) {
	it := m.stamps[key]
	_, must := m.within(m.all[key], 0)
	is := false
	isOver := m.does(true, func() { is = m.ForgetIf(key, it.ValueStamp) })
	if isOver && must && it.number > 0 && is != (it.number == m.all[key]) {
		m.fail("ForgetIf of %d, where %d of key %d is there: %t", it.number, m.all[key], key, is)
	}
	if is || !isOver && m.broke != "key" {
		m.forgot(key)
	}
}

func (m *modelCache) forgetsTag(tag int) {
	m.ForgetTag(nameOfTag(tag))
	m.want.Forgets++
	m.event++
	m.tags[tag], m.anyTag = m.event, m.event
}

func (m *modelCache) forgetsAll() {
	m.does(true, m.ForgetAll)
	for key := range m.all {
		m.forgot(key)
	}
	m.want.Forgets -= modelKeys - 1
}

// puts puts a value, with a token where that has more.
func (m *modelCache) puts(key int, withToken bool) {
	var token Token[int]
	spoil := 0
	if withToken {
		if !m.does(true, func() { token = m.Token(key) }) {
			return
		}
		spoil = m.below(6)
	}
	born, tag := m.now, m.below(modelTags)
	switch spoil {
	case 1:
		m.Forget(key)
		m.forgot(key)
	case 2:
		m.forgetsTag(tag)
	case 3:
		m.pass()
	case 4:
		if m.below(10) == 0 {
			m.forgetsAll()
			spoil = 1
		}
	}
	m.event++
	ended := m.event
	number := m.value(key, 0)
	it := m.known[number]
	if it.born, it.last = born, born.steady; !withToken {
		it.ttl, it.tags = m.lives.ttl, 0
	}
	if m.below(20) == 0 {
		it.does = actCostPanics
	}
	spoiled, kept := spoil == 1 || spoil == 2 && it.tags>>tag&1 == 1, false
	isOver := m.does(true, func() {
		if withToken {
			kept = m.PutWith(token, it.loaded(number, m.lives.ttl))
		} else {
			kept = m.Put(key, number)
		}
	})
	if m.broke == "key" {
		return
	}
	m.forgot(key)
	m.ended[key] = ended
	if !isOver {
		m.loaded = []int{number}
		m.resyncs()
		return
	}
	if want := !spoiled && m.comes(number); kept != want {
		m.fail("a Put of %d is kept: %t, not %t, after %d: %+v", number, kept, want, spoil, it)
	}
}

func (m *modelCache) looksAtAll() {
	seen := map[int]int{}
	m.All(func(key, number int) bool {
		if may, _ := m.within(number, 0); !may || m.all[key] != number {
			m.fail("All tells of %d of key %d, where %d is", number, key, m.all[key])
		}
		seen[key]++
		return true
	})
	for key, number := range m.all {
		if _, must := m.within(number, 0); must && m.known[number].err == nil && seen[key] != 1 {
			m.fail("All tells %d times of %d", seen[key], number)
		}
	}
}

func (m *modelCache) resizes() {
	limit := modelLimits[m.below(len(modelLimits))]
	m.does(true, func() {
		if err := m.Resize(limit); err != nil {
			m.t.Error(err)
		}
	})
	m.counts["limits"]++
}

func (m *modelCache) step() {
	m.pass()
	m.loaded, m.ran, m.broke = nil, nil, ""
	m.before = modelBefore{len(m.known), m.Weight(), m.Limit()}
	key := m.below(modelKeys)
	switch what := m.below(60); {
	case what < 12:
		m.peeks(key)
	case what < 32:
		m.gets(key)
	case what < 36:
		m.getsMany(key)
	case what < 39:
		m.forgets(key)
	case what < 41:
		m.forgetsTag(m.below(modelTags))
	case what < 43:
		m.forgetsIf(key)
	case what < 46:
		m.puts(key, false)
	case what < 49:
		m.puts(key, true)
	case what < 55 && len(m.jobs) > 0:
		m.runs(m.below(len(m.jobs)))
	case what == 55:
		m.looksAtAll()
	case what == 56 && m.below(4) == 0:
		m.resizes()
	case what == 57 && m.below(12) == 0:
		m.forgetsAll()
	}
	m.check()
}

// hasLeft judges what was told in this step.
func (m *modelCache) hasLeft(mayMakeRoom, isEnd bool) {
	for _, told := range m.left {
		it := m.known[told.number]
		_, must := m.within(told.number, m.lives.stale)
		isThere := m.all[it.key] == told.number
		isRight := isEnd
		switch told.why {
		case ReasonRoom:
			isRight = mayMakeRoom
		case ReasonExpired:
			isRight = !must
		case ReasonForgotten:
			isRight = !m.isCurrent(told.number)
		case ReasonReplaced:
			isRight = !isThere
		}
		if !isRight || !it.isKept {
			m.fail("%d of key %d leaves at %v for the reason %v: %+v", told.number, it.key, m.now, told.why, it)
		}
		if isThere {
			m.all[it.key] = 0
		}
		m.want.LeftFor[told.why]++
	}
	m.left = nil
	for key, number := range m.all {
		// A kept error is told to nobody.
		if number > 0 && m.known[number].err != nil && m.node(number) == nil {
			if !mayMakeRoom && !isEnd {
				m.misses(key, 0)
			}
			m.all[key] = 0
		}
	}
}

// check compares what the cache has with what it is to have.
func (m *modelCache) check() {
	m.hasLeft(m.isShort(), false)
	st, want := m.Stats(), m.want
	if st.Hits != want.Hits || st.Misses != want.Misses || st.Loads != want.Loads+uint64(len(m.jobs)) || st.Errors != want.Errors ||
		st.Refreshes != want.Refreshes || st.Stale != want.Stale || st.Forgets != want.Forgets || st.LeftFor != want.LeftFor ||
		st.Joins != 0 || st.InUse != uint64(len(m.jobs)) || m.records != m.recorded {
		m.fail("its numbers: %+v, not %+v; %d jobs; recorded %d, %d", st, want, len(m.jobs), m.records, m.recorded)
	}
	m.weighs(st)
}

// isShort tells whether what came in this step may need the room of others.
func (m *modelCache) isShort() bool {
	need, came := uint64(m.before.weight), m.known[m.before.known:]
	for _, number := range m.ran {
		came = append(came[:len(came):len(came)], m.known[number])
	}
	for _, it := range came {
		cost := it.cost
		if it.err != nil {
			cost = 1
		}
		if cost > 0 && need <= math.MaxInt64 {
			need += uint64(cost)
		}
	}
	return need > uint64(m.before.limit) || m.before.limit != m.Limit()
}

// weighs compares what the shards say of themselves with what is in them.
func (m *modelCache) weighs(st CacheStats) {
	values, weight := uint64(0), int64(0)
	t := &m.Cache.now.Load().values
	for i := range t.shards {
		s := &t.shards[i]
		nodes, cost := 0, int64(0)
		for _, q := range s.queues {
			queued := int64(0)
			for n := q.head; n != nil; n = n.after {
				if nodes, queued = nodes+1, queued+n.cost(); !n.isError() {
					values++
				}
				if t.find(n.key, n.print) != n {
					m.fail("a node is not found")
				}
			}
			if cost += queued; queued != q.weight {
				m.fail("a queue weighs %d, not %d", q.weight, queued)
			}
		}
		if weight += cost; nodes != s.nodes || cost != s.weight {
			m.fail("a shard has %d of %d, not %d of %d", s.nodes, s.weight, nodes, cost)
		}
	}
	if weight != st.Weight || weight > m.Limit() || values != st.Values {
		m.fail("%d values of %d, not %d of %d; within %d", st.Values, st.Weight, values, weight, m.Limit())
	}
}

// ends closes the cache: each value that was kept has been told once then.
func (m *modelCache) ends() {
	m.Close()
	m.hasLeft(false, true)
	for key := range m.all {
		m.all[key] = 0
		m.event++
		m.ended[key] = m.event
	}
	for len(m.jobs) > 0 {
		m.runs(0)
	}
	for number, it := range m.known {
		if want := it.isKept && it.err == nil; want != (it.told == 1) {
			m.fail("%d was told %d times: %+v", number, it.told, it)
		}
	}
	if m.Weight() != 0 || m.Stats().InUse != 0 {
		m.fail("it is empty: %+v", m.Stats())
	}
}

func playModel(t *testing.T, seed int64, steps int, counts map[string]int) (played int) {
	m := newModel(t, seed)
	var recording *Recording
	if seed%5 == 4 {
		recording, _ = m.Record(io.Discard)
	}
	for from := m.Cache.now.Load(); played < steps && m.isApart(); from = m.Cache.now.Load() {
		// A ForgetAll has other slots.
		for ; played < steps && m.Cache.now.Load() == from; played++ {
			m.step()
		}
	}
	m.ends()
	if recording != nil {
		if _, err := recording.Stop(); err != nil {
			t.Error(err)
		}
	}
	for what, n := range m.counts {
		counts[what] += n
	}
	return played
}

// SFLIGHT_MODELS says how many models there are, and SFLIGHT_MODEL which is the first.
func TestCacheModel(t *testing.T) {
	number := func(name string, or int) int {
		if text := os.Getenv(name); text != "" {
			or, _ = strconv.Atoi(text)
		}
		return or
	}
	models := 40
	if testing.Short() {
		models = 10
	}
	models, first := number("SFLIGHT_MODELS", models), number("SFLIGHT_MODEL", 0)
	counts, played := map[string]int{}, 0
	for seed := first; seed < first+models; seed++ {
		played += playModel(t, int64(seed), 1000, counts)
	}
	t.Logf("%d steps: %v", played, counts)
	for _, what := range []string{"batches", "refreshes", "stale", "kept errors", "errors found", "limits", "panics of evict"} {
		if models >= 40 && counts[what] == 0 {
			t.Error("the models had none of these:", what)
		}
	}
}
