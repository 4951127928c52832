// Package metrics is a Prometheus collector of a peer's numbers: those of its pool, those of each
// other peer as this one sees it, and groupcache's for each cache.
package metrics

import (
	"github.com/golang/groupcache"
	"github.com/prometheus/client_golang/prometheus"
	"sf.example/singleflight/peers"
)

// A figure is one number and how it is read.
type figure struct {
	desc *prometheus.Desc
	kind prometheus.ValueType
	of   func(peers.Stats) float64
}

type peerFigure struct {
	desc *prometheus.Desc
	kind prometheus.ValueType
	of   func(peers.PeerStats) float64
}

type cacheFigure struct {
	desc *prometheus.Desc
	kind prometheus.ValueType
	of   func(*groupcache.Group) float64
}

func desc(name, help string, labels ...string) *prometheus.Desc {
	return prometheus.NewDesc("peers_"+name, help, labels, nil)
}

func oneIf(is bool) float64 {
	if is {
		return 1
	}
	return 0
}

var figures = []figure{
	{desc("serving", "Whether this peer serves Gets."), prometheus.GaugeValue,
		func(s peers.Stats) float64 { return oneIf(s.Serving) }},
	{desc("lease_seconds", "How long this peer's lease runs yet, or 0 without leases."), prometheus.GaugeValue,
		func(s peers.Stats) float64 { return s.Lease.Seconds() }},
	{desc("forgets_total", "Forgets that were asked for at this peer."), prometheus.CounterValue,
		func(s peers.Stats) float64 { return float64(s.Forgets) }},
	{desc("forgets_unanswered_total", "Forgets at this peer that returned an error."), prometheus.CounterValue,
		func(s peers.Stats) float64 { return float64(s.Unanswered) }},
	{desc("forgotten_keys", "Forgotten keys that are kept."), prometheus.GaugeValue,
		func(s peers.Stats) float64 { return float64(s.Keys) }},
	{desc("names_changed_total", "How often names of keys have changed, by Forgets of any peer."), prometheus.CounterValue,
		func(s peers.Stats) float64 { return float64(s.Names) }},
	{desc("forgotten_buckets_total", "How often a 256th of a cache's keys was forgotten for want of room."), prometheus.CounterValue,
		func(s peers.Stats) float64 { return float64(s.Buckets) }},
	{desc("forgotten_all_total", "How often this peer forgot all keys, as it may have missed a Forget."), prometheus.CounterValue,
		func(s peers.Stats) float64 { return float64(s.Alls) }},
	{desc("strangers_total", "Requests that no peer of the pool had signed."), prometheus.CounterValue,
		func(s peers.Stats) float64 { return float64(s.Strangers) }},
}

var peerFigures = []peerFigure{
	{desc("peer_seen_timestamp_seconds", "When another peer answered last, or 0.", "peer"), prometheus.GaugeValue,
		func(s peers.PeerStats) float64 {
			if s.Seen.IsZero() {
				return 0
			}
			return float64(s.Seen.UnixNano()) / 1e9
		}},
	{desc("peer_retries_total", "Tries of a Forget that another peer did not answer.", "peer"), prometheus.CounterValue,
		func(s peers.PeerStats) float64 { return float64(s.Retries) }},
	{desc("peer_other_list", "Whether another peer has another list of peers.", "peer"), prometheus.GaugeValue,
		func(s peers.PeerStats) float64 { return oneIf(s.OtherList) }},
}

var acknowledged = desc("peer_acknowledge_seconds", "How long another peer took to acknowledge a Forget, from the first try.", "peer")

func count(name, help string, of func(*groupcache.Stats) *groupcache.AtomicInt) cacheFigure {
	return cacheFigure{desc("cache_"+name, help, "cache"), prometheus.CounterValue,
		func(g *groupcache.Group) float64 { return float64(of(&g.Stats).Get()) }}
}

func size(name, help string, which groupcache.CacheType, of func(groupcache.CacheStats) int64) cacheFigure {
	return cacheFigure{desc("cache_"+name, help, "cache"), prometheus.GaugeValue,
		func(g *groupcache.Group) float64 { return float64(of(g.CacheStats(which))) }}
}

var cacheFigures = []cacheFigure{
	count("gets_total", "Gets, those of other peers included.", func(s *groupcache.Stats) *groupcache.AtomicInt { return &s.Gets }),
	count("hits_total", "Gets that a cache here answered.", func(s *groupcache.Stats) *groupcache.AtomicInt { return &s.CacheHits }),
	count("loads_total", "Gets that no cache here answered.", func(s *groupcache.Stats) *groupcache.AtomicInt { return &s.Loads }),
	count("loads_deduped_total", "Loads after those that joined one are taken away.",
		func(s *groupcache.Stats) *groupcache.AtomicInt { return &s.LoadsDeduped }),
	count("peer_loads_total", "Loads that the owner answered.", func(s *groupcache.Stats) *groupcache.AtomicInt { return &s.PeerLoads }),
	count("peer_errors_total", "Loads that the owner did not answer.", func(s *groupcache.Stats) *groupcache.AtomicInt { return &s.PeerErrors }),
	count("local_loads_total", "Loads here that succeeded.", func(s *groupcache.Stats) *groupcache.AtomicInt { return &s.LocalLoads }),
	count("local_load_errors_total", "Loads here that failed.", func(s *groupcache.Stats) *groupcache.AtomicInt { return &s.LocalLoadErrs }),
	count("server_requests_total", "Gets of other peers.", func(s *groupcache.Stats) *groupcache.AtomicInt { return &s.ServerRequests }),
	size("main_bytes", "Bytes of keys and values that this peer owns.", groupcache.MainCache, func(s groupcache.CacheStats) int64 { return s.Bytes }),
	size("main_items", "Values that this peer owns.", groupcache.MainCache, func(s groupcache.CacheStats) int64 { return s.Items }),
	size("hot_bytes", "Bytes of keys and values of other owners.", groupcache.HotCache, func(s groupcache.CacheStats) int64 { return s.Bytes }),
	size("hot_items", "Values of other owners.", groupcache.HotCache, func(s groupcache.CacheStats) int64 { return s.Items }),
}

type collector struct {
	pool   *peers.Pool
	caches []*peers.Cache
}

// New returns the collector of a pool and of some of its caches. Its labels hold the other peers'
// names, which are their base URLs: serve it where strangers cannot read it.
func New(pool *peers.Pool, caches ...*peers.Cache) prometheus.Collector {
	return &collector{pool, caches}
}

// Describe sends what Collect may send.
func (c *collector) Describe(to chan<- *prometheus.Desc) {
	for _, f := range figures {
		to <- f.desc
	}
	for _, f := range peerFigures {
		to <- f.desc
	}
	to <- acknowledged
	for _, f := range cacheFigures {
		to <- f.desc
	}
}

// Collect sends the numbers as they are now.
func (c *collector) Collect(to chan<- prometheus.Metric) {
	stats := c.pool.Stats()
	for _, f := range figures {
		to <- prometheus.MustNewConstMetric(f.desc, f.kind, f.of(stats))
	}
	for _, peer := range stats.Peers {
		for _, f := range peerFigures {
			to <- prometheus.MustNewConstMetric(f.desc, f.kind, f.of(peer), peer.Name)
		}
		to <- prometheus.MustNewConstSummary(acknowledged, peer.Acknowledged, peer.Took.Seconds(), nil, peer.Name)
	}
	for _, cache := range c.caches {
		for _, f := range cacheFigures {
			to <- prometheus.MustNewConstMetric(f.desc, f.kind, f.of(cache.Group()), cache.Name())
		}
	}
}
