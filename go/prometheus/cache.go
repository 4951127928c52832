package prometheus

import (
	"github.com/prometheus/client_golang/prometheus"

	"sf.example/singleflight"
)

// CacheSource is what a collector of a cache reads: a singleflight.Cache.
type CacheSource interface {
	Name() string
	Stats() singleflight.CacheStats
}

type cacheCollector struct {
	source    CacheSource
	metrics   []cacheMetric
	evictions *prometheus.Desc
	seconds   *prometheus.Desc
}

type cacheMetric struct {
	desc *prometheus.Desc
	kind prometheus.ValueType
	of   func(singleflight.CacheStats) float64
}

// NewCacheCollector returns a collector of the cache's numbers. The name of the cache is the value of
// the label cache. So each registered cache needs a name of its own: a registry does not take two
// collectors of one name. It has:
//
//	singleflight_cache_hits_total       Gets that found a value, or a kept error
//	singleflight_cache_misses_total     Gets that found none
//	singleflight_cache_loads_total      keys that were loaded
//	singleflight_cache_errors_total     keys whose load failed or panicked
//	singleflight_cache_joins_total      Gets that waited for the load of another
//	singleflight_cache_forgets_total    Forgets of keys, values, tags and all, and Puts
//	singleflight_cache_refreshes_total  loads that were begun behind a Get
//	singleflight_cache_stale_total      loads that failed, in whose place an old value was returned
//	singleflight_cache_evictions_total  values that left, by the label reason
//	singleflight_cache_entries          values that are in the cache
//	singleflight_cache_weight           what they cost together
//	singleflight_cache_limit            the most that they may cost
//	singleflight_cache_open_loads       load functions that run
//	singleflight_cache_load_seconds     how long load functions took, as a histogram
func NewCacheCollector(source CacheSource) prometheus.Collector {
	labels := prometheus.Labels{"cache": source.Name()}
	describe := func(name, help string, variable ...string) *prometheus.Desc {
		return prometheus.NewDesc("singleflight_cache_"+name, help, variable, labels)
	}
	c := &cacheCollector{
		source:    source,
		evictions: describe("evictions_total", "Values that left, by reason.", "reason"),
		seconds:   describe("load_seconds", "How long load functions took."),
	}
	counter := func(name, help string, of func(singleflight.CacheStats) uint64) {
		c.metrics = append(c.metrics, cacheMetric{describe(name+"_total", help), prometheus.CounterValue,
			func(n singleflight.CacheStats) float64 { return float64(of(n)) }})
	}
	gauge := func(name, help string, of func(singleflight.CacheStats) float64) {
		c.metrics = append(c.metrics, cacheMetric{describe(name, help), prometheus.GaugeValue, of})
	}
	counter("hits", "Gets that found a value, or a kept error.",
		func(n singleflight.CacheStats) uint64 { return n.Hits })
	counter("misses", "Gets that found none.", func(n singleflight.CacheStats) uint64 { return n.Misses })
	counter("loads", "Keys that were loaded.", func(n singleflight.CacheStats) uint64 { return n.Loads })
	counter("errors", "Keys whose load failed or panicked.",
		func(n singleflight.CacheStats) uint64 { return n.Errors })
	counter("joins", "Gets that waited for the load of another.",
		func(n singleflight.CacheStats) uint64 { return n.Joins })
	counter("forgets", "Forgets of keys, values, tags and all, and Puts.",
		func(n singleflight.CacheStats) uint64 { return n.Forgets })
	counter("refreshes", "Loads that were begun behind a Get.",
		func(n singleflight.CacheStats) uint64 { return n.Refreshes })
	counter("stale", "Loads that failed, in whose place an old value was returned.",
		func(n singleflight.CacheStats) uint64 { return n.Stale })
	gauge("entries", "Values that are in the cache.",
		func(n singleflight.CacheStats) float64 { return float64(n.Values) })
	gauge("weight", "What the values cost together.",
		func(n singleflight.CacheStats) float64 { return float64(n.Weight) })
	gauge("limit", "The most that they may cost.",
		func(n singleflight.CacheStats) float64 { return float64(n.Limit) })
	gauge("open_loads", "Load functions that run.",
		func(n singleflight.CacheStats) float64 { return float64(n.InUse) })
	return c
}

func (c *cacheCollector) Describe(ch chan<- *prometheus.Desc) {
	for _, m := range c.metrics {
		ch <- m.desc
	}
	ch <- c.evictions
	ch <- c.seconds
}

func (c *cacheCollector) Collect(ch chan<- prometheus.Metric) {
	n := c.source.Stats()
	for _, m := range c.metrics {
		ch <- prometheus.MustNewConstMetric(m.desc, m.kind, m.of(n))
	}
	for reason, count := range n.LeftFor {
		ch <- prometheus.MustNewConstMetric(c.evictions, prometheus.CounterValue, float64(count),
			singleflight.Reason(reason).String())
	}
	// A histogram of Prometheus counts in each bucket those before it too.
	sum, buckets := uint64(0), map[float64]uint64{}
	for i, count := range n.LoadTimes {
		sum += count
		if bound := singleflight.LoadTimeBound(i); bound > 0 {
			buckets[bound.Seconds()] = sum
		}
	}
	ch <- prometheus.MustNewConstHistogram(c.seconds, sum, n.LoadTime.Seconds(), buckets)
}
