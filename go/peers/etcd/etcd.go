// Package etcd is a Coordinator of package peers over etcd. It has a list of peers that all agree
// on, a lease for each peer, so that a dead peer does not stop Forgets, and a place for Forgets
// that some peer did not acknowledge.
//
// Below a prefix, etcd has a key for each member, which ends with its lease, and one for each such
// Forget:
//
//	PREFIX/epoch          a number that grows where etcd's data was lost or restored
//	PREFIX/begun          the epoch whose predecessors' leases have all ended
//	PREFIX/members/NAME   EPOCH.TEXT: the epoch in which it joined, and a random text
//	PREFIX/guards/NAME    the same, under a lease of its own
//	PREFIX/forgets/ID     a Forget, until all members have it
//
// A process is a member while it has one of its two keys, and renews both leases or none. So one that
// loses one of them, as where an operator revokes a lease or deletes a key, ends while the others
// still wait for it.
//
// A member's start is the epoch, and then the create revision of its key. Where etcd's revision is
// less than one that a process has seen, etcd has lost what came after it: the process begins another
// epoch. A process without an epoch's number cannot tell whether the pool is a new one or etcd has
// lost it. So nobody joins in an epoch before the leases of the one before have ended.
package etcd

import (
	"context"
	"crypto/rand"
	"encoding/hex"
	"errors"
	"fmt"
	"net/url"
	"reflect"
	"sort"
	"strconv"
	"strings"
	"sync"
	"sync/atomic"
	"time"

	"go.etcd.io/etcd/clientv3"
	"go.etcd.io/etcd/etcdserver/api/v3rpc/rpctypes"
	"go.etcd.io/etcd/etcdserver/etcdserverpb"
	"go.etcd.io/etcd/mvcc/mvccpb"
	"sf.example/singleflight/peers"
)

// Coordinator is a peers.Coordinator.
type Coordinator struct {
	client *clientv3.Client
	prefix string
	ttl    time.Duration
	ctx    context.Context
	cancel context.CancelFunc

	mu      sync.Mutex // protects the rest
	most    uint64     // the latest epoch and revision that this process has seen, as a start
	epoch   uint64     // the epoch that was read last
	epochAt time.Time  // when it was read first
	lost    time.Time  // when this process found out that etcd had lost data
}

// A start has the epoch above so many bits of a revision.
const revisionBits = 42

const (
	mostEpoch = 1<<(62-revisionBits) - 1
	// An epoch may be so much later than the hours since 1970 by this machine's clock.
	aheadEpoch = 24 * 366
)

func startAt(epoch uint64, revision int64) uint64 { return epoch<<revisionBits | uint64(revision) }

// saw notes what etcd has shown.
func (c *Coordinator) saw(start uint64) {
	c.mu.Lock()
	defer c.mu.Unlock()
	if c.most < start {
		c.most = start
	}
}

// Notice returns what an operator should know, or an empty text: that etcd has lost data, so that
// the pool began anew.
func (c *Coordinator) Notice() string {
	c.mu.Lock()
	defer c.mu.Unlock()
	if c.lost.IsZero() {
		return ""
	}
	return "etcd: its data was lost or restored, so the pool began anew at " + c.lost.UTC().Format(time.RFC3339)
}

// Option is an option of New, the same at each peer.
type Option func(*Coordinator) error

// WithTTL sets how long a lease runs after it was renewed last: whole seconds, 2 s to 60 s, by
// default 5 s. A Forget waits that long for a dead peer, and a peer goes on without etcd for nine
// tenths of it. etcd rounds a TTL up to a little more than its own election timeout.
func WithTTL(ttl time.Duration) Option {
	return func(c *Coordinator) error {
		if ttl < 2*time.Second || ttl > time.Minute || ttl%time.Second != 0 {
			return fmt.Errorf("etcd: a TTL is 2s to 1m, in whole seconds: %v", ttl)
		}
		c.ttl = ttl
		return nil
	}
}

// New returns the Coordinator of the pool that has this prefix: 1 to 255 bytes, the last of which
// is not a slash. The client stays the caller's, who closes it after the pool. New returns an error
// if an option or the prefix is not allowed.
func New(client *clientv3.Client, prefix string, options ...Option) (*Coordinator, error) {
	if client == nil {
		return nil, errors.New("etcd: no client")
	}
	if prefix == "" || len(prefix) > 255 || strings.HasSuffix(prefix, "/") {
		return nil, fmt.Errorf("etcd: a prefix has 1 to 255 bytes, and ends without a slash: %.300q", prefix)
	}
	c := &Coordinator{client: client, prefix: prefix, ttl: 5 * time.Second}
	for _, option := range options {
		if err := option(c); err != nil {
			return nil, err
		}
	}
	c.ctx, c.cancel = context.WithCancel(context.Background())
	return c, nil
}

func (c *Coordinator) members() string { return c.prefix + "/members/" }
func (c *Coordinator) guards() string  { return c.prefix + "/guards/" }
func (c *Coordinator) forgets() string { return c.prefix + "/forgets/" }
func (c *Coordinator) epochs() string  { return c.prefix + "/epoch" }
func (c *Coordinator) begun() string   { return c.prefix + "/begun" }

// Close ends what Join began. The leases run out by themselves.
func (c *Coordinator) Close() error {
	c.cancel()
	return nil
}

// A member is a peers.Membership.
type member struct {
	*Coordinator
	name   string
	id     string // the random text of its key
	epoch  uint64
	leases []clientv3.LeaseID // of its key and its guard
	start  uint64
	ctx    context.Context
	cancel context.CancelFunc
	done   chan struct{}
	change chan struct{}

	until atomic.Pointer[time.Time] // when the lease ends unless it is renewed

	lock     sync.Mutex        // protects the rest
	revision int64             // to which the two are as etcd has them
	now      uint64            // the epoch
	keys     map[string]uint64 // the starts of the keys and the guards of this epoch, by etcd's keys
	kept     map[string][]byte
	isDone   bool
}

// Join takes a lease, and the key of the name once no other process has it. Where the pool is new, or
// etcd has lost its data, it waits for the length of a lease first. An earlier process that
// ended without Leave has it until its lease runs out.
func (c *Coordinator) Join(ctx context.Context, self string, after uint64) (peers.Membership, error) {
	random := make([]byte, 16)
	if _, err := rand.Read(random); err != nil {
		return nil, err
	}
	m := &member{Coordinator: c, name: self, id: hex.EncodeToString(random), done: make(chan struct{}), change: make(chan struct{}, 1)}
	for {
		if err := m.agree(ctx, after); err != nil {
			return nil, err
		}
		if err := m.await(ctx); err != nil {
			return nil, err
		}
		within, cancel := context.WithTimeout(ctx, m.ttl)
		taken, err := m.take(within)
		cancel()
		if err != nil {
			return nil, err
		}
		if taken {
			break
		}
	}
	m.ctx, m.cancel = context.WithCancel(c.ctx)
	within, cancel := context.WithTimeout(ctx, m.ttl)
	defer cancel()
	revision, err := m.read(within)
	if err != nil {
		m.end()
		m.revoke(c.ctx)
		return nil, err
	}
	go m.renew()
	go m.watch(revision)
	return m, nil
}

// agree takes the epoch, once no process can have a lease of an earlier one. It begins another where
// there is none, or where etcd's revision is less than one that was seen, or than the start that
// this process has to exceed.
func (m *member) agree(ctx context.Context, after uint64) error {
	m.saw(after)
	for {
		within, cancel := context.WithTimeout(ctx, m.ttl)
		got, err := m.client.Txn(within).Then(clientv3.OpGet(m.epochs()), clientv3.OpGet(m.begun())).Commit()
		cancel()
		if err != nil {
			return err
		}
		epoch, modified := numberOf(got.Responses[0].GetResponseRange())
		begun, _ := numberOf(got.Responses[1].GetResponseRange())
		most, since := m.epochIs(epoch)
		hours := uint64(time.Now().Unix() / 3600)
		switch {
		case epoch > hours+aheadEpoch:
			return fmt.Errorf("etcd: %s has %d, which is not of this time: delete the key", m.epochs(), epoch)
		case epoch == 0 || startAt(epoch, got.Header.Revision) < most:
			next := hours
			if epoch > 0 && next <= epoch {
				next = epoch + 1
			}
			if known := most >> revisionBits; most > 0 && next <= known {
				next = known + 1
			}
			if next > mostEpoch {
				return fmt.Errorf("etcd: no epoch is later than that of the start %d", most)
			}
			err = m.set(ctx, m.epochs(), modified, next)
		case begun == epoch:
			if m.epoch = epoch; most > 0 && epoch != most>>revisionBits {
				m.mu.Lock()
				m.lost = time.Now()
				m.mu.Unlock()
			}
			return nil
		default:
			// A process with a lease of the epoch before extends that only once it has read that epoch.
			select {
			case <-ctx.Done():
				return ctx.Err()
			case <-time.After(time.Until(since.Add(m.ttl))):
			}
			err = m.set(ctx, m.begun(), modified, epoch)
		}
		if err != nil {
			return err
		}
	}
}

// set stores a number while the epoch's key is still the one that was read.
func (m *member) set(ctx context.Context, key string, modified int64, to uint64) error {
	ctx, cancel := context.WithTimeout(ctx, m.ttl)
	defer cancel()
	_, err := m.client.Txn(ctx).If(clientv3.Compare(clientv3.ModRevision(m.epochs()), "=", modified)).
		Then(clientv3.OpPut(key, strconv.FormatUint(to, 10))).Commit()
	return err
}

// epochIs notes the epoch, and returns the latest start that was seen, and since when this is the
// epoch.
func (c *Coordinator) epochIs(epoch uint64) (most uint64, since time.Time) {
	c.mu.Lock()
	defer c.mu.Unlock()
	if c.epoch != epoch || c.epochAt.IsZero() {
		c.epoch, c.epochAt = epoch, time.Now()
	}
	return c.most, c.epochAt
}

// numberOf returns the number that a key holds, or 0, and the revision at which it was stored.
func numberOf(got *etcdserverpb.RangeResponse) (number uint64, modified int64) {
	if len(got.Kvs) == 0 {
		return 0, 0
	}
	return parse(string(got.Kvs[0].Value)), got.Kvs[0].ModRevision
}

func parse(text string) uint64 {
	number, err := strconv.ParseUint(text, 10, 64)
	if err != nil {
		return 0
	}
	return number
}

func (m *member) key() string   { return m.members() + url.PathEscape(m.name) }
func (m *member) guard() string { return m.guards() + url.PathEscape(m.name) }

// await returns once no process has the name.
func (m *member) await(ctx context.Context) error {
	ctx, cancel := context.WithTimeout(clientv3.WithRequireLeader(ctx), m.ttl)
	defer cancel()
	for _, key := range []string{m.key(), m.guard()} {
		if err := m.awaitNo(ctx, key); err != nil {
			return err
		}
	}
	return nil
}

// awaitNo returns once etcd has no such key.
func (m *member) awaitNo(ctx context.Context, key string) error {
	got, err := m.client.Get(ctx, key)
	if err != nil || len(got.Kvs) == 0 {
		return err
	}
	for w := range m.client.Watch(ctx, key, clientv3.WithRev(got.Header.Revision+1), clientv3.WithFilterPut()) {
		if err := w.Err(); err != nil {
			return err
		}
		for _, event := range w.Events {
			if event.Type == mvccpb.DELETE {
				return nil
			}
		}
	}
	return fmt.Errorf("etcd: another process has the name %s", m.name)
}

// take takes two leases, and the key and its guard, and tells whether nobody was faster.
func (m *member) take(ctx context.Context) (bool, error) {
	begun := time.Now()
	m.leases = nil
	for len(m.leases) < 2 {
		lease, err := m.client.Grant(ctx, int64(m.ttl/time.Second))
		if err != nil {
			m.revoke(ctx)
			return false, err
		}
		m.leases = append(m.leases, lease.ID)
	}
	epoch := strconv.FormatUint(m.epoch, 10)
	isNew := func(key string) clientv3.Cmp { return clientv3.Compare(clientv3.CreateRevision(key), "=", 0) }
	put := func(key string, by clientv3.LeaseID) clientv3.Op {
		return clientv3.OpPut(key, epoch+"."+m.id, clientv3.WithLease(by))
	}
	got, err := m.client.Txn(ctx).If(isNew(m.key()), isNew(m.guard()), clientv3.Compare(clientv3.Value(m.epochs()), "=", epoch)).
		Then(put(m.key(), m.leases[0]), put(m.guard(), m.leases[1])).Commit()
	if err != nil || !got.Succeeded {
		m.revoke(ctx)
		return false, err
	}
	m.start = startAt(m.epoch, got.Header.Revision)
	m.saw(m.start)
	m.extend(begun)
	return true, nil
}

// revoke ends the leases.
func (m *member) revoke(ctx context.Context) (err error) {
	for _, lease := range m.leases {
		if _, bad := m.client.Revoke(ctx, lease); bad != nil && !errors.Is(bad, rpctypes.ErrLeaseNotFound) {
			err = bad
		}
	}
	return err
}

// extend takes the lease as renewed at a time before etcd renewed it. A tenth of it is for clocks
// that do not run alike.
func (m *member) extend(at time.Time) {
	m.lock.Lock()
	defer m.lock.Unlock()
	if !m.isDone {
		until := at.Add(m.ttl - m.ttl/10)
		m.until.Store(&until)
	}
}

// renew renews the lease until the membership ends.
func (m *member) renew() {
	tick := time.NewTicker(m.ttl / 5)
	defer tick.Stop()
	for {
		select {
		case <-m.ctx.Done():
			return
		case <-tick.C:
		}
		begun := time.Now()
		ctx, cancel := context.WithTimeout(m.ctx, m.ttl/5)
		switch gone, err := m.renewAll(ctx); {
		case m.ctx.Err() != nil:
		case gone:
			m.end()
		case err == nil:
			// A watch can miss that a key was removed in the revision that was compacted last. And the
			// lease counts in the epoch alone: one that is restored from a backup may be renewed.
			if _, err := m.read(ctx); err == nil {
				m.extend(begun)
			}
		}
		cancel()
	}
}

// renewAll renews the leases, and tells whether one is gone. Then the other one is not renewed, which
// the other members wait for.
func (m *member) renewAll(ctx context.Context) (gone bool, err error) {
	for _, lease := range m.leases {
		got, err := m.client.KeepAliveOnce(ctx, lease)
		if errors.Is(err, rpctypes.ErrLeaseNotFound) || err == nil && got.TTL <= 0 {
			return true, nil
		}
		if err != nil {
			return false, err
		}
	}
	return false, nil
}

// end ends the membership.
func (m *member) end() {
	m.lock.Lock()
	defer m.lock.Unlock()
	if !m.isDone {
		m.isDone = true
		now := time.Now().Add(-time.Nanosecond)
		m.until.Store(&now)
		close(m.done)
		m.cancel()
	}
}

// read takes the members and the Forgets as etcd has them, and returns to which revision. The
// membership ends where etcd has lost what was read before.
func (m *member) read(ctx context.Context) (int64, error) {
	m.lock.Lock()
	before := m.revision
	m.lock.Unlock()
	got, err := m.client.Get(ctx, m.prefix+"/", clientv3.WithPrefix())
	if err != nil {
		return 0, err
	}
	if got.Header.Revision < before || !m.replace(got) {
		m.end()
		return 0, errEnded
	}
	return got.Header.Revision, nil
}

var errEnded = errors.New("etcd: the membership has ended")

// replace takes what was read, and tells whether this process is among the members.
func (m *member) replace(got *clientv3.GetResponse) bool {
	m.lock.Lock()
	defer m.lock.Unlock()
	if got.Header.Revision >= m.revision {
		keys, kept := m.keys, m.kept
		m.revision, m.now, m.keys, m.kept = got.Header.Revision, 0, map[string]uint64{}, map[string][]byte{}
		m.saw(startAt(m.epoch, m.revision))
		for _, kv := range got.Kvs {
			m.put(kv)
		}
		if !reflect.DeepEqual(keys, m.keys) || !reflect.DeepEqual(kept, m.kept) {
			m.changed()
		}
	}
	return m.isThere()
}

// isThere tells whether etcd has both keys of this process. The lock is held.
func (m *member) isThere() bool {
	return m.keys[m.key()] == m.start && m.keys[m.guard()] == m.start && m.now == m.epoch
}

// nameOf returns the member whose key or guard this is.
func (m *member) nameOf(key string) (name string, ok bool) {
	for _, prefix := range []string{m.members(), m.guards()} {
		if strings.HasPrefix(key, prefix) {
			name, err := url.PathUnescape(key[len(prefix):])
			return name, err == nil
		}
	}
	return "", false
}

// put takes a key that etcd has. The lock is held.
func (m *member) put(kv *mvccpb.KeyValue) {
	key := string(kv.Key)
	if _, ok := m.nameOf(key); ok {
		epoch, _, _ := strings.Cut(string(kv.Value), ".")
		if parse(epoch) == m.epoch {
			m.keys[key] = startAt(m.epoch, kv.CreateRevision)
		}
	} else if key == m.epochs() {
		m.now = parse(string(kv.Value))
	} else if id := strings.TrimPrefix(key, m.forgets()); id != key {
		// The process that stored it had joined before. A later start, which a stranger wrote, would
		// leave a peer none that is later.
		start, _, _ := strings.Cut(id, "-")
		if n, err := strconv.ParseUint(start, 10, 64); err == nil && n < startAt(m.epoch, kv.ModRevision) {
			m.kept[id] = kv.Value
		}
	}
}

// remove takes away a key that etcd does not have any more. The lock is held.
func (m *member) remove(key string) {
	delete(m.keys, key)
	if key == m.epochs() {
		m.now = 0
	}
	delete(m.kept, strings.TrimPrefix(key, m.forgets()))
}

func (m *member) changed() {
	select {
	case m.change <- struct{}{}:
	default:
	}
}

// again is how long a watch that failed waits before it begins anew.
const again = 100 * time.Millisecond

// watch follows etcd after a revision until the membership ends.
func (m *member) watch(revision int64) {
	for m.ctx.Err() == nil {
		ctx, cancel := context.WithCancel(clientv3.WithRequireLeader(m.ctx))
		for w := range m.client.Watch(ctx, m.prefix+"/", clientv3.WithPrefix(), clientv3.WithRev(revision+1)) {
			if w.Err() != nil {
				break
			}
			revision = m.follow(w.Events, revision)
		}
		cancel()
		select {
		case <-m.ctx.Done():
			return
		case <-time.After(again):
		}
		// What was missed may be compacted.
		ctx, cancel = context.WithTimeout(m.ctx, m.ttl)
		if now, err := m.read(ctx); err == nil {
			revision = now
		}
		cancel()
	}
}

// follow takes events, and returns the revision of the last.
func (m *member) follow(events []*clientv3.Event, revision int64) int64 {
	m.lock.Lock()
	before := m.revision // events up to this one are in what was read
	for _, event := range events {
		if at := event.Kv.ModRevision; at > revision {
			revision = at
		}
		if event.Kv.ModRevision <= before {
			continue
		}
		if event.Type == mvccpb.DELETE {
			m.remove(string(event.Kv.Key))
		} else {
			m.put(event.Kv)
		}
	}
	if m.revision < revision {
		m.revision = revision
		m.saw(startAt(m.epoch, revision))
	}
	mine := m.isThere()
	m.changed()
	m.lock.Unlock()
	if !mine {
		m.end()
	}
	return revision
}

func (m *member) Start() uint64 { return m.start }

func (m *member) Members() []peers.Member {
	m.lock.Lock()
	defer m.lock.Unlock()
	starts := map[string]uint64{}
	for key, start := range m.keys {
		if name, ok := m.nameOf(key); ok && starts[name] < start {
			starts[name] = start
		}
	}
	all := make([]peers.Member, 0, len(starts))
	for name, start := range starts {
		all = append(all, peers.Member{Name: name, Start: start})
	}
	sort.Slice(all, func(i, j int) bool { return all[i].Name < all[j].Name })
	return all
}

func (m *member) Refresh(ctx context.Context) error {
	_, err := m.read(ctx)
	return err
}

func (m *member) Changed() <-chan struct{} { return m.change }

func (m *member) Until() time.Time { return *m.until.Load() }

func (m *member) Done() <-chan struct{} { return m.done }

func (m *member) Keep(ctx context.Context, id string, forget []byte) error {
	_, err := m.client.Put(ctx, m.forgets()+id, string(forget))
	return err
}

func (m *member) Kept() map[string][]byte {
	m.lock.Lock()
	defer m.lock.Unlock()
	all := make(map[string][]byte, len(m.kept))
	for id, forget := range m.kept {
		all[id] = forget
	}
	return all
}

// mostOperations is how many operations a transaction of etcd may have, by its default.
const mostOperations = 128

func (m *member) Drop(ctx context.Context, ids ...string) error {
	for len(ids) > 0 {
		var some []clientv3.Op
		for ; len(ids) > 0 && len(some) < mostOperations; ids = ids[1:] {
			some = append(some, clientv3.OpDelete(m.forgets()+ids[0]))
		}
		if _, err := m.client.Txn(ctx).Then(some...).Commit(); err != nil {
			return err
		}
	}
	return nil
}

func (m *member) Leave(ctx context.Context) error {
	m.end()
	return m.revoke(ctx)
}
