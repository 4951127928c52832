package etcd

import (
	"flag"
	"math/rand"
	"sync"
	"testing"
	"time"

	"sf.example/singleflight/peers/internal/pooltest"
)

var chaos = flag.Duration("chaos", 5*time.Second, "how long TestChaos takes")

// Peers die, are paused and lose messages, servers of etcd die, all at random and at one time, but
// for the servers, of which two of three run. Gets and Forgets go on all the time.
func TestChaos(t *testing.T) {
	t.Parallel()
	servers := newCluster(t, 3)
	p := pooltest.New(t, 5, func(s *pooltest.Setting) { s.Coordinators = servers.endpoints })
	end := time.Now().Add(*chaos)
	var all sync.WaitGroup
	happens := func(what func()) {
		all.Add(1)
		go func() {
			defer all.Done()
			for time.Now().Before(end) {
				time.Sleep(time.Duration(rand.Int63n(int64(4 * time.Second))))
				what()
			}
		}()
	}
	var kills, pauses, servs int
	var mu sync.Mutex
	count := func(of *int) {
		mu.Lock()
		defer mu.Unlock()
		*of++
	}
	for _, c := range p.Children[:4] {
		c := c
		happens(func() {
			switch rand.Intn(3) {
			case 0:
				count(&kills)
				p.Kill(c)
				time.Sleep(time.Duration(rand.Int63n(int64(2 * ttl))))
				p.Restart(c)
			case 1:
				count(&pauses)
				p.Pause(c)
				time.Sleep(time.Duration(rand.Int63n(int64(2 * ttl))))
				p.GoOn(c)
			}
		})
	}
	happens(func() {
		count(&servs)
		i := rand.Intn(3)
		servers.kill(i)
		time.Sleep(time.Duration(rand.Int63n(int64(5 * time.Second))))
		servers.start(i)
		time.Sleep(5 * time.Second)
	})
	happens(func() { p.Losses.Store(int64(rand.Intn(30))) })
	p.Run("chaos", all.Wait)
	t.Logf("%d peers were killed, %d paused, %d servers killed; %d messages lost or late", kills, pauses, servs, p.Lost.Load())
	p.CheckStale()
}

// Peers come and go all the time, each with a name that none had before; they leave or die. Others are
// paused and lose messages, and one server of etcd is killed.
func TestChaosWhilePeersComeAndGo(t *testing.T) {
	t.Parallel()
	servers := newCluster(t, 3)
	p := pooltest.New(t, 5, func(s *pooltest.Setting) { s.Coordinators = servers.endpoints })
	end := time.Now().Add(*chaos)
	var busy [5]sync.Mutex
	var all sync.WaitGroup
	var came, left, pauses int
	again := func(most time.Duration, what func()) {
		all.Add(1)
		go func() {
			defer all.Done()
			for time.Now().Before(end) {
				time.Sleep(time.Duration(rand.Int63n(int64(most))))
				what()
			}
		}()
	}
	again(4*time.Second, func() {
		place, leaves := rand.Intn(5), rand.Intn(2) == 0
		busy[place].Lock()
		defer busy[place].Unlock()
		p.Replace(place, leaves)
		if came++; leaves {
			left++
		}
	})
	again(8*time.Second, func() {
		place := rand.Intn(5)
		busy[place].Lock()
		defer busy[place].Unlock()
		c := p.At(place)
		pauses++
		p.Pause(c)
		time.Sleep(time.Duration(rand.Int63n(int64(2 * ttl))))
		p.GoOn(c)
	})
	again(10*time.Second, func() { p.Losses.Store(int64(rand.Intn(15))) })
	all.Add(1)
	time.AfterFunc(*chaos/3, func() {
		defer all.Done()
		servers.kill(rand.Intn(3))
	})
	p.Run("peers come and go", all.Wait)
	t.Logf("%d peers came, of whose predecessors %d left and the others died; %d were paused; %d messages lost or late", came, left,
		pauses, p.Lost.Load())
	p.CheckStale()
}
