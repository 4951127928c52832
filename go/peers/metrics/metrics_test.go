package metrics

import (
	"context"
	"net/http/httptest"
	"testing"
	"time"

	"github.com/golang/groupcache"
	"github.com/prometheus/client_golang/prometheus"
	"github.com/prometheus/client_golang/prometheus/testutil"
	"sf.example/singleflight/peers"
)

func TestCollector(t *testing.T) {
	server := httptest.NewUnstartedServer(nil)
	self := "http://" + server.Listener.Addr().String()
	pool, err := peers.New(peers.Options{Self: self, Peers: []string{self, "http://127.0.0.1:1"}, Insecure: true})
	if err != nil {
		t.Fatal(err)
	}
	server.Config.Handler = pool
	server.Start()
	defer server.Close()
	defer pool.Close()
	cache, err := pool.Cache("pages", 1<<20, groupcache.GetterFunc(func(ctx context.Context, key string, dest groupcache.Sink) error {
		return dest.SetString("value")
	}))
	if err != nil {
		t.Fatal(err)
	}
	ctx, cancel := context.WithTimeout(context.Background(), 20*time.Second)
	defer cancel()
	var value string
	for i := 0; i < 3; i++ {
		if err := cache.Get(ctx, "7", groupcache.StringSink(&value)); err != nil {
			t.Fatal(err)
		}
	}
	short, cancel := context.WithTimeout(ctx, 50*time.Millisecond)
	defer cancel()
	if err := cache.Forget(short, "7"); err == nil {
		t.Fatal("a Forget with a peer that is not there returns nil")
	}
	c := New(pool, cache)
	problems, err := testutil.CollectAndLint(c)
	if err != nil || len(problems) > 0 {
		t.Errorf("%v, %v", problems, err)
	}
	registry := prometheus.NewPedanticRegistry()
	registry.MustRegister(c)
	families, err := registry.Gather()
	if err != nil {
		t.Fatal(err)
	}
	got := map[string]float64{}
	for _, family := range families {
		for _, m := range family.Metric {
			name := family.GetName()
			for _, label := range m.Label {
				name += " " + label.GetValue()
			}
			switch {
			case m.Gauge != nil:
				got[name] = m.Gauge.GetValue()
			case m.Counter != nil:
				got[name] = m.Counter.GetValue()
			case m.Summary != nil:
				got[name] = float64(m.Summary.GetSampleCount())
			}
		}
	}
	for name, want := range map[string]float64{
		"peers_serving": 1, "peers_lease_seconds": 0, "peers_forgets_total": 1, "peers_forgets_unanswered_total": 1,
		"peers_forgotten_keys": 1, "peers_forgotten_all_total": 1, "peers_forgotten_buckets_total": 0, "peers_strangers_total": 0,
		"peers_peer_seen_timestamp_seconds http://127.0.0.1:1": 0, "peers_peer_other_list http://127.0.0.1:1": 0,
		"peers_peer_acknowledge_seconds http://127.0.0.1:1": 0,
		"peers_cache_gets_total pages":                      3, "peers_cache_hits_total pages": 2, "peers_cache_local_loads_total pages": 1,
	} {
		if value, there := got[name]; !there || value != want {
			t.Errorf("%s is %v, not %v", name, value, want)
		}
	}
	if got["peers_peer_retries_total http://127.0.0.1:1"] < 1 || got["peers_names_changed_total"] < 1 {
		t.Errorf("%v", got)
	}
	if want := len(figures) + len(peerFigures) + 1 + len(cacheFigures); len(families) != want {
		t.Errorf("%d families, not %d", len(families), want)
	}
}
