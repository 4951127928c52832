package etcd

import (
	"context"
	"fmt"
	"io"
	"log"
	"math/rand"
	"net"
	"os"
	"os/exec"
	"reflect"
	"strings"
	"sync/atomic"
	"testing"
	"time"

	"go.etcd.io/etcd/clientv3"
	"go.uber.org/zap"
	"sf.example/singleflight/peers"
	"sf.example/singleflight/peers/internal/pooltest"
)

func TestMain(m *testing.M) {
	pooltest.Main(m, pooltest.Hooks{Coordinator: func(s pooltest.Setting) (peers.Coordinator, error) {
		client, err := connect(s.Coordinators)
		if err != nil {
			return nil, err
		}
		return New(client, "/test", WithTTL(ttl))
	}})
}

// ttl is the shortest that a server of these tests takes.
const ttl = 3 * time.Second

func connect(endpoints []string) (*clientv3.Client, error) {
	quiet := zap.NewProductionConfig()
	quiet.Level = zap.NewAtomicLevelAt(zap.PanicLevel)
	return clientv3.New(clientv3.Config{Endpoints: endpoints, DialTimeout: 5 * time.Second, DialKeepAliveTime: 2 * time.Second,
		DialKeepAliveTimeout: 2 * time.Second, LogConfig: &quiet})
}

// A cluster is so many servers of etcd.
type cluster struct {
	t         *testing.T
	endpoints []string
	commands  []*exec.Cmd
	arguments [][]string
}

func newCluster(t *testing.T, count int) *cluster {
	program, err := exec.LookPath("etcd")
	if err != nil {
		t.Skip("there is no etcd")
	}
	c := &cluster{t: t}
	var each, others []string
	for i := 0; i < count; i++ {
		c.endpoints = append(c.endpoints, "http://"+pooltest.FreeAddress(t))
		others = append(others, "http://"+pooltest.FreeAddress(t))
		each = append(each, fmt.Sprintf("n%d=%s", i, others[i]))
	}
	for i := range c.endpoints {
		c.arguments = append(c.arguments, []string{program, "--name", fmt.Sprint("n", i), "--data-dir", t.TempDir(),
			"--listen-client-urls", c.endpoints[i], "--advertise-client-urls", c.endpoints[i],
			"--listen-peer-urls", others[i], "--initial-advertise-peer-urls", others[i],
			"--initial-cluster", strings.Join(each, ","), "--log-level", "panic", "--logger", "zap", "--unsafe-no-fsync"})
		c.commands = append(c.commands, nil)
	}
	t.Cleanup(func() {
		for i := range c.commands {
			c.kill(i)
		}
	})
	for i := range c.commands {
		c.start(i)
	}
	client := c.client()
	for end := time.Now().Add(2 * time.Minute); ; time.Sleep(50 * time.Millisecond) {
		ctx, cancel := context.WithTimeout(context.Background(), time.Second)
		_, err := client.Get(ctx, "none")
		cancel()
		if err == nil {
			return c
		} else if time.Now().After(end) {
			t.Fatal(err)
		}
	}
}

func (c *cluster) start(i int) {
	arguments := c.arguments[i]
	c.commands[i] = exec.Command(arguments[0], arguments[1:]...)
	if os.Getenv("PEERS_TEST_LOG") != "" {
		c.commands[i].Stderr = os.Stderr
	}
	if err := c.commands[i].Start(); err != nil {
		c.t.Fatal(err)
	}
}

func (c *cluster) kill(i int) {
	if c.commands[i] != nil && c.commands[i].Process != nil {
		c.commands[i].Process.Kill()
		c.commands[i].Wait()
		c.commands[i] = nil
	}
}

func (c *cluster) client() *clientv3.Client {
	client, err := connect(c.endpoints)
	if err != nil {
		c.t.Fatal(err)
	}
	c.t.Cleanup(func() { client.Close() })
	return client
}

func (c *cluster) coordinator() *Coordinator {
	made, err := New(c.client(), "/test", WithTTL(ttl))
	if err != nil {
		c.t.Fatal(err)
	}
	c.t.Cleanup(func() { made.Close() })
	return made
}

func soon(t *testing.T) context.Context {
	ctx, cancel := context.WithTimeout(context.Background(), 2*time.Minute)
	t.Cleanup(cancel)
	return ctx
}

func join(t *testing.T, c *Coordinator, name string) peers.Membership {
	t.Helper()
	m, err := c.Join(soon(t), name, 0)
	if err != nil {
		t.Fatal(err)
	}
	return m
}

func names(m peers.Membership) (all []string) {
	for _, member := range m.Members() {
		all = append(all, member.Name)
	}
	return all
}

func until(t *testing.T, is func() bool, what string) {
	t.Helper()
	for end := time.Now().Add(2 * time.Minute); !is(); time.Sleep(5 * time.Millisecond) {
		if time.Now().After(end) {
			t.Fatal(what)
		}
	}
}

func TestOptions(t *testing.T) {
	client := &clientv3.Client{}
	for _, prefix := range []string{"", "/a/", strings.Repeat("a", 256)} {
		if _, err := New(client, prefix); err == nil {
			t.Errorf("a prefix may be %q", prefix)
		}
	}
	for _, ttl := range []time.Duration{0, time.Second, 2500 * time.Millisecond, 61 * time.Second} {
		if _, err := New(client, "/a", WithTTL(ttl)); err == nil {
			t.Errorf("a TTL may be %v", ttl)
		}
	}
	if _, err := New(nil, "/a"); err == nil {
		t.Error("there may be no client")
	}
	if c, err := New(client, "/a"); err != nil || c.ttl != 5*time.Second {
		t.Error(c, err)
	}
}

// Members are those that have a lease, in the same list for all. Starts grow, and a name has one
// process.
func TestMembers(t *testing.T) {
	t.Parallel()
	servers := newCluster(t, 1)
	one, two := servers.coordinator(), servers.coordinator()
	a := join(t, one, "http://a:1")
	b := join(t, two, "http://b:1/x")
	if got := names(b); !reflect.DeepEqual(got, []string{"http://a:1", "http://b:1/x"}) {
		t.Errorf("b has %v", got)
	}
	if a.Start() >= b.Start() || a.Start() == 0 {
		t.Errorf("a has the start %d, and b, which joined after it, %d", a.Start(), b.Start())
	}
	// a knows of b by then.
	if err := a.Refresh(soon(t)); err != nil || !reflect.DeepEqual(a.Members(), b.Members()) {
		t.Errorf("%v and %v, %v", a.Members(), b.Members(), err)
	}
	until(t, func() bool { return len(a.Changed()) > 0 }, "a does not hear of b")
	// The name is taken while the lease runs, however often that is asked.
	short, cancel := context.WithTimeout(context.Background(), ttl/2)
	defer cancel()
	if _, err := two.Join(short, "http://a:1", 0); err == nil {
		t.Fatal("two processes have one name")
	}
	left := time.Until(a.Until())
	if left <= 0 || left > ttl-ttl/10 {
		t.Errorf("a has its lease for %v, of %v", left, ttl)
	}
	time.Sleep(2 * ttl)
	if !time.Now().Before(a.Until()) || len(names(b)) != 2 {
		t.Errorf("a has not renewed its lease: %v", names(b))
	}
	// A process that leaves is off the list at once, and the next has a later start.
	if err := a.Leave(soon(t)); err != nil {
		t.Fatal(err)
	}
	if time.Now().Before(a.Until()) {
		t.Error("it has a lease after it left")
	}
	select {
	case <-a.Done():
	default:
		t.Error("its membership has not ended")
	}
	until(t, func() bool { return len(names(b)) == 1 }, "b does not hear that a left")
	again := join(t, one, "http://a:1")
	if again.Start() <= b.Start() {
		t.Errorf("the next a has the start %d, after %d", again.Start(), b.Start())
	}
	until(t, func() bool { return len(names(b)) == 2 }, "b does not hear of the next a")
	// One that ends without a word is off the list once its lease has run out, and not before it
	// knows that itself.
	one.Close()
	until(t, func() bool { return len(names(b)) == 1 }, "b does not hear that a ended")
	if time.Now().Before(again.Until()) {
		t.Errorf("etcd has no lease of a's any more, and a has one for %v", time.Until(again.Until()))
	}
	// A start that is known and that etcd has not reached begins another epoch, for all.
	after := b.Start() + 1<<40
	if again, err := two.Join(soon(t), "http://a:1", after); err != nil || again.Start() <= after {
		t.Errorf("after %d: %v, %v", after, again, err)
	}
	select {
	case <-b.Done():
	case <-time.After(2 * time.Minute):
		t.Error("a membership of an earlier epoch does not end")
	}
}

// Of processes of one name that join at one time, one has it.
func TestOneNameAtOneTime(t *testing.T) {
	t.Parallel()
	servers := newCluster(t, 1)
	join(t, servers.coordinator(), "http://first:1")
	for round := 0; round < 5; round++ {
		ctx, cancel := context.WithTimeout(context.Background(), ttl/2)
		joined := make(chan peers.Membership)
		const many = 8
		for i := 0; i < many; i++ {
			go func(c *Coordinator) {
				m, err := c.Join(ctx, fmt.Sprint("http://a:", round), 0)
				if err != nil {
					m = nil
				}
				joined <- m
			}(servers.coordinator())
		}
		count := 0
		for i := 0; i < many; i++ {
			if m := <-joined; m != nil {
				count++
			}
		}
		cancel()
		if count != 1 {
			t.Errorf("%d processes have one name", count)
		}
	}
}

// A member whose lease is gone at etcd joins no more than it answers.
func TestALeaseThatIsGone(t *testing.T) {
	t.Parallel()
	servers := newCluster(t, 1)
	c, client := servers.coordinator(), servers.client()
	for name, end := range map[string]func(m *member){
		"revoked":       func(m *member) { client.Revoke(soon(t), m.leases[0]) },
		"guard-revoked": func(m *member) { client.Revoke(soon(t), m.leases[1]) },
		"deleted":       func(m *member) { client.Delete(soon(t), m.key()) },
		"guard-deleted": func(m *member) { client.Delete(soon(t), m.guard()) },
		// Another process has begun another epoch: the lease of one that joined before counts no more.
		"of-before": func(m *member) { client.Put(soon(t), m.epochs(), fmt.Sprint(m.epoch+1)) },
		"of-none":   func(m *member) { client.Delete(soon(t), m.epochs()) },
	} {
		m := join(t, c, "http://"+name+":1")
		end(m.(*member))
		begun := time.Now()
		select {
		case <-m.Done():
		case <-time.After(2 * time.Minute):
			t.Fatalf("%s: its membership does not end", name)
		}
		if time.Now().Before(m.Until()) {
			t.Errorf("%s: it has a lease", name)
		}
		t.Logf("%s: its membership ends after %v", name, time.Since(begun))
	}
}

// An operator revokes a lease of a member, or deletes a key of it, which that does not hear: the others
// wait for it until its lease has run out, as where it had died.
func TestALeaseThatAnOperatorRevokes(t *testing.T) {
	t.Parallel()
	servers := newCluster(t, 1)
	client := servers.client()
	a := join(t, servers.coordinator(), "http://a:1")
	for name, end := range map[string]func(m *member){
		"revoked":       func(m *member) { client.Revoke(soon(t), m.leases[0]) },
		"guard-revoked": func(m *member) { client.Revoke(soon(t), m.leases[1]) },
		"deleted":       func(m *member) { client.Delete(soon(t), m.key()) },
		"guard-deleted": func(m *member) { client.Delete(soon(t), m.guard()) },
	} {
		cut := servers.client()
		silent, err := New(cut, "/test", WithTTL(ttl))
		if err != nil {
			t.Fatal(err)
		}
		b := join(t, silent, "http://"+name+":1").(*member)
		until(t, func() bool { return len(names(a)) == 2 }, "a does not hear of it")
		cut.Close()
		end(b)
		time.Sleep(100 * time.Millisecond)
		if err := a.Refresh(soon(t)); err != nil {
			t.Fatal(err)
		}
		if len(names(a)) != 2 && time.Now().Before(b.Until()) {
			t.Errorf("%s: a Forget does not wait for it, and it has its lease for %v", name, time.Until(b.Until()))
		}
		until(t, func() bool { return len(names(a)) == 1 }, "its lease does not end")
		if time.Now().Before(b.Until()) {
			t.Errorf("%s: etcd has no lease of it any more, and it has one for %v", name, time.Until(b.Until()))
		}
	}
}

func TestKeptForgets(t *testing.T) {
	t.Parallel()
	servers := newCluster(t, 1)
	a := join(t, servers.coordinator(), "http://a:1")
	if err := a.Keep(soon(t), "1-2-3", []byte("a forget")); err != nil {
		t.Fatal(err)
	}
	b := join(t, servers.coordinator(), "http://b:1")
	if got := b.Kept(); len(got) != 1 || string(got["1-2-3"]) != "a forget" {
		t.Errorf("one that joins has %q", got)
	}
	if err := b.Keep(soon(t), "4-5-6", []byte("another")); err != nil {
		t.Fatal(err)
	}
	until(t, func() bool { return len(a.Kept()) == 2 }, "a does not hear of a Forget that is kept")
	if err := b.Drop(soon(t), "1-2-3"); err != nil {
		t.Fatal(err)
	}
	until(t, func() bool { return len(a.Kept()) == 1 }, "a does not hear that it is dropped")
	// What is of a process that has not joined yet is none.
	for _, id := range []string{"2305843009213693952-1-1", fmt.Sprintf("%d-1-1", a.Start()+1<<20), "x", "-1"} {
		if err := b.Keep(soon(t), id, nil); err != nil {
			t.Fatal(err)
		}
	}
	if err := a.Refresh(soon(t)); err != nil || len(a.Kept()) != 1 {
		t.Errorf("%v, %v", a.Kept(), err)
	}
	own := fmt.Sprintf("%d-1-1", b.Start())
	if err := b.Keep(soon(t), own, nil); err != nil {
		t.Fatal(err)
	}
	until(t, func() bool { return a.Kept()[own] != nil || len(a.Kept()) == 2 }, "a does not hear of one of b")
	// More than a transaction of etcd has.
	var many []string
	for i := 0; i < 2*mostOperations+1; i++ {
		many = append(many, fmt.Sprintf("1-%d-1", i))
		if err := b.Keep(soon(t), many[i], nil); err != nil {
			t.Fatal(err)
		}
	}
	until(t, func() bool { return len(a.Kept()) > len(many) }, "a does not hear of many")
	if err := b.Drop(soon(t), many...); err != nil {
		t.Fatal(err)
	}
	until(t, func() bool { return len(a.Kept()) <= 3 }, "a does not hear that many are dropped")
	if got := names(a); len(got) != 2 {
		t.Errorf("the members are %v", got)
	}
}

// What a watch missed while it was cut off, and etcd has compacted, is read anew.
func TestAWatchThatFails(t *testing.T) {
	t.Parallel()
	servers := newCluster(t, 1)
	join(t, servers.coordinator(), "http://first:1") // it begins the epoch
	// A renewal, which reads all as well, comes after this test.
	long := servers.coordinator()
	long.ttl = 20 * time.Minute
	a := join(t, long, "http://a:1").(*member)
	for i := 0; i < 3; i++ {
		if err := a.Keep(soon(t), fmt.Sprint(i), nil); err != nil {
			t.Fatal(err)
		}
	}
	until(t, func() bool { return len(a.Kept()) == 3 }, "it does not follow")
	servers.kill(0)
	time.Sleep(time.Second)
	servers.start(0)
	client := servers.client()
	until(t, func() bool {
		ctx, cancel := context.WithTimeout(context.Background(), time.Second)
		defer cancel()
		if _, err := client.Delete(ctx, a.forgets()+"0"); err != nil {
			return false
		}
		// A watch after the revision that is compacted last would go on, and miss what that removed.
		for i := 0; i < 2; i++ {
			if _, err := client.Put(ctx, "other", ""); err != nil {
				return false
			}
		}
		got, err := client.Get(ctx, "other")
		if err != nil {
			return false
		}
		_, err = client.Compact(ctx, got.Header.Revision)
		return err == nil
	}, "the server does not come back")
	until(t, func() bool { return len(a.Kept()) == 2 }, "it does not follow after the server was away")
}

// slowly passes on what etcd answers after a while.
func slowly(t *testing.T, to string, after *atomic.Int64) (endpoint string) {
	l, err := net.Listen("tcp", "127.0.0.1:0")
	if err != nil {
		t.Fatal(err)
	}
	t.Cleanup(func() { l.Close() })
	go func() {
		for {
			from, err := l.Accept()
			if err != nil {
				return
			}
			back, err := net.Dial("tcp", strings.TrimPrefix(to, "http://"))
			if err != nil {
				from.Close()
				continue
			}
			go func() {
				io.Copy(back, from)
				back.Close()
			}()
			go func() {
				defer from.Close()
				for buffer := make([]byte, 64<<10); ; {
					n, err := back.Read(buffer)
					if err != nil {
						return
					}
					time.Sleep(time.Duration(after.Load()))
					from.Write(buffer[:n])
				}
			}()
		}
	}()
	return "http://" + l.Addr().String()
}

// A lease counts from before it was asked for: the answer may take long.
func TestALeaseCountsFromBefore(t *testing.T) {
	t.Parallel()
	servers := newCluster(t, 1)
	join(t, servers.coordinator(), "http://first:1")
	const ttl, after = 10 * time.Second, 300 * time.Millisecond
	var delay atomic.Int64
	client, err := connect([]string{slowly(t, servers.endpoints[0], &delay)})
	if err != nil {
		t.Fatal(err)
	}
	t.Cleanup(func() { client.Close() })
	if _, err := client.Get(soon(t), "none"); err != nil {
		t.Fatal(err)
	}
	c, err := New(client, "/test", WithTTL(ttl))
	if err != nil {
		t.Fatal(err)
	}
	t.Cleanup(func() { c.Close() })
	delay.Store(int64(after))
	m := join(t, c, "http://a:1")
	// After the grant of the first lease came those of the second one, the keys, and a read.
	if left := time.Until(m.Until()); left > ttl-ttl/10-3*after {
		t.Errorf("it has its lease for %v, of %v, when four answers have taken %v each", left, ttl, after)
	}
	granted := m.Until()
	until(t, func() bool { return m.Until() != granted }, "it does not renew its lease")
	if left := time.Until(m.Until()); left > ttl-ttl/10-2*after {
		t.Errorf("once it is renewed it has it for %v, when three answers have taken %v each", left, after)
	}
}

// A read that was on its way while a watch went on is not taken.
func TestAnOldReadIsNotTaken(t *testing.T) {
	t.Parallel()
	servers := newCluster(t, 1)
	a := join(t, servers.coordinator(), "http://a:1").(*member)
	old, err := a.client.Get(soon(t), a.prefix+"/", clientv3.WithPrefix())
	if err != nil {
		t.Fatal(err)
	}
	b := join(t, servers.coordinator(), "http://b:1")
	if err := b.Keep(soon(t), "1-1-1", nil); err != nil {
		t.Fatal(err)
	}
	until(t, func() bool { return len(a.Kept()) == 1 }, "a does not hear of a Forget that is kept")
	if !a.replace(old) || len(a.Kept()) != 1 || len(names(a)) != 2 {
		t.Errorf("after an old read it has %v and %v", names(a), a.Kept())
	}
}

// wipe replaces the data of the only server: by none, or by a copy.
func (c *cluster) wipe(from string) {
	at := c.dataDir()
	c.kill(0)
	if err := os.RemoveAll(at); err != nil {
		c.t.Fatal(err)
	}
	if from != "" {
		if out, err := exec.Command("cp", "-r", from, at).CombinedOutput(); err != nil {
			c.t.Fatal(string(out))
		}
	}
	c.start(0)
}

func (c *cluster) dataDir() string { return c.arguments[0][4] }

// etcd comes back without its data, or with that of a backup. Nobody joins while one that joined
// before may have a lease; starts grow; and the members end, and join again.
func TestDataThatIsLost(t *testing.T) {
	for _, restored := range []bool{false, true} {
		restored := restored
		t.Run(fmt.Sprint("restored ", restored), func(t *testing.T) {
			t.Parallel()
			servers := newCluster(t, 1)
			a := servers.coordinator()
			first := join(t, a, "http://a:1")
			cut := servers.client()
			silent, err := New(cut, "/test", WithTTL(ttl))
			if err != nil {
				t.Fatal(err)
			}
			second := join(t, silent, "http://b:1").(*member)
			backup := ""
			if restored {
				backup = t.TempDir() + "/backup"
				servers.kill(0)
				if out, err := exec.Command("cp", "-r", servers.dataDir(), backup).CombinedOutput(); err != nil {
					t.Fatal(string(out))
				}
				servers.start(0)
			}
			for i := 0; i < 20; i++ {
				until(t, func() bool {
					ctx, cancel := context.WithTimeout(context.Background(), time.Second)
					defer cancel()
					_, err := servers.client().Put(ctx, "/test/forgets/"+fmt.Sprint(i), "")
					return err == nil
				}, "etcd does not come back")
			}
			if restored {
				until(t, func() bool { return len(first.Kept()) == 20 }, "a does not hear of them")
			}
			// b hears nothing any more, and has its lease until that ends.
			servers.kill(0)
			second.extend(time.Now())
			cut.Close()
			lease := second.Until()
			servers.wipe(backup)
			var third peers.Membership
			c := servers.coordinator()
			until(t, func() bool {
				ctx, cancel := context.WithTimeout(context.Background(), time.Minute)
				defer cancel()
				third, err = c.Join(ctx, "http://c:1", 0)
				return err == nil
			}, "nobody joins")
			if !restored && time.Now().Before(lease) {
				t.Error("one joins while another that it does not know has a lease")
			}
			select {
			case <-first.Done():
			case <-time.After(2 * time.Minute):
				t.Fatal("the membership of a does not end")
			}
			again := join(t, a, "http://a:1")
			if again.Start() <= first.Start() || again.Start() <= second.Start() {
				t.Errorf("the next start is %d, after %d and %d", again.Start(), first.Start(), second.Start())
			}
			if a.Notice() == "" || c.Notice() != "" && !restored {
				t.Errorf("an operator reads %q and %q", a.Notice(), c.Notice())
			}
			until(t, func() bool {
				select {
				case <-third.Done():
					third = join(t, c, "http://c:1")
				default:
				}
				return len(third.Members()) == 2 && len(again.Members()) == 2
			}, "two members do not know each other")
		})
	}
}

// A pool whose etcd loses its data goes on by itself, with starts that etcd's revision alone would
// not give.
func TestAPoolWhoseDataIsLost(t *testing.T) {
	t.Parallel()
	servers := newCluster(t, 1)
	for i := 0; i < 50; i++ {
		if _, err := servers.client().Put(soon(t), "other", ""); err != nil {
			t.Fatal(err)
		}
	}
	p := pooltest.New(t, 3, func(s *pooltest.Setting) { s.Coordinators = servers.endpoints })
	for key := 0; key < pooltest.Keys; key++ {
		for _, c := range p.Children {
			p.Get(c, key)
		}
	}
	servers.wipe("")
	time.Sleep(2 * ttl) // until no lease of before is left
	for key, c := range p.Children {
		until(t, func() bool { return p.Forget(c, key) == nil }, "the pool does not answer any more")
		for _, other := range p.Children {
			until(t, func() bool { _, err := p.Get(other, key); return err == nil }, "a peer does not answer any more")
		}
	}
	p.CheckStale()
}

// Processes over three servers of etcd, of which one is killed: nobody gets an answer that is too
// old, and a dead peer stops no Forget for longer than its lease.
func testProcesses(t *testing.T, count int) {
	t.Parallel()
	servers := newCluster(t, 3)
	p := pooltest.New(t, count, func(s *pooltest.Setting) { s.Coordinators = servers.endpoints })
	p.Run("etcd, at rest", nil)
	p.Losses.Store(15)
	p.Run("etcd, 15 % of the messages lost or late", nil)
	p.Losses.Store(0)
	p.Run("etcd, one paused for 2 s", func() {
		c := p.Children[rand.Intn(count)]
		p.Pause(c)
		time.Sleep(2 * time.Second)
		p.GoOn(c)
	})
	p.Run("etcd, one server of three killed", func() { servers.kill(rand.Intn(3)) })
	p.Run("etcd, one killed and started again", func() {
		c := p.Children[rand.Intn(count)]
		p.Kill(c)
		p.Restart(c)
	})
	p.Run("etcd, one paused for longer than its lease", func() {
		c := p.Children[rand.Intn(count)]
		p.Pause(c)
		time.Sleep(2 * ttl)
		p.GoOn(c)
		p.Await(c)
	})
	p.CheckStale()
	for key := 0; key < pooltest.Keys; key++ {
		p.ForgetAtRest(p.Children[key%count], key)
		for _, c := range p.Children {
			p.GetAtRest(c, key)
		}
	}
	p.CheckStale()
}

func TestThreeProcesses(t *testing.T) { testProcesses(t, 3) }
func TestFiveProcesses(t *testing.T)  { testProcesses(t, 5) }

// A dead peer makes a Forget wait for its lease, once, and the next take no longer than with that
// peer. One that does not wait for so long is finished by the pool, also where its own peer dies.
func TestADeadPeer(t *testing.T) {
	t.Parallel()
	servers := newCluster(t, 1)
	p := pooltest.New(t, 3, func(s *pooltest.Setting) { s.Coordinators = servers.endpoints })
	dead := p.Children[2]
	for key := 0; key < pooltest.Keys; key++ {
		p.Get(p.Children[1], key)
	}
	p.Kill(dead)
	begun := time.Now()
	tries := 0
	for ; p.Forget(p.Children[0], 1) != nil; tries++ {
		if time.Since(begun) > 2*time.Minute {
			t.Fatal("a Forget waits for a dead peer for more than its lease")
		}
	}
	took, again := time.Since(begun), time.Now()
	p.ForgetAtRest(p.Children[0], 2)
	t.Logf("with a dead peer: nil after %v, %d tries before it; the next in %v", took, tries, time.Since(again))
	if number := p.GetAtRest(p.Children[1], 1); number != tries+1 {
		t.Errorf("%d after %d Forgets", number, tries+1)
	}
	p.Restart(dead)
	if number := p.GetAtRest(dead, 1); number != tries+1 {
		t.Errorf("the peer that is back: %d after %d Forgets", number, tries+1)
	}
	// A Forget that is not answered, by a peer that dies with it; the one that did not answer was
	// paused.
	paused, dies := p.Children[1], p.Children[0]
	p.Pause(paused)
	if err := p.Forget(dies, 3); err == nil {
		t.Error("a Forget while a peer is paused returns nil at once")
	}
	p.Kill(dies)
	p.GoOn(paused)
	until(t, func() bool {
		number, err := p.Get(paused, 3)
		other, bad := p.Get(p.Children[2], 3)
		return err == nil && bad == nil && number == 1 && other == 1
	}, "a Forget that was not answered is lost")
	p.CheckStale()
}

func TestForgetsPerSecond(t *testing.T) {
	servers := newCluster(t, 3)
	for _, count := range []int{3, 5} {
		pooltest.New(t, count, func(s *pooltest.Setting) { s.Coordinators = servers.endpoints }).Throughput("etcd")
	}
}

func init() { log.SetFlags(log.Lmicroseconds) }
