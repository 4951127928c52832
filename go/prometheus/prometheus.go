// Package prometheus exports the numbers of singleflight's groups to Prometheus: a collector of
// what a group counts itself, and a recorder of the times of its loads. Keys are no labels, because
// there can be any number of them.
package prometheus

import (
	"github.com/prometheus/client_golang/prometheus"

	"sf.example/singleflight"
)

// Source is what a collector reads: a singleflight.Of or Group.
type Source interface {
	Name() string
	Stats() singleflight.Stats
}

type metric struct {
	desc *prometheus.Desc
	kind prometheus.ValueType
	of   func(singleflight.Stats) float64
}

type collector struct {
	source  Source
	metrics []metric
}

// NewCollector returns a collector of the source's numbers. The name of the source is the value of
// the label group. So each registered source needs a name of its own: a registry does not take two
// collectors of one name. It has:
//
//	singleflight_loads_total    calls that were led, each of which ran a load function
//	singleflight_joins_total    calls that joined another's
//	singleflight_forgets_total  Forgets of keys
//	singleflight_in_use         load functions that run
//	singleflight_proved         1 if the proved library runs, 0 if plain Go does
func NewCollector(source Source) prometheus.Collector {
	c := &collector{source: source}
	add := func(kind prometheus.ValueType, name, help string, of func(singleflight.Stats) float64) {
		labels := prometheus.Labels{"group": source.Name()}
		desc := prometheus.NewDesc("singleflight_"+name, help, nil, labels)
		c.metrics = append(c.metrics, metric{desc, kind, of})
	}
	counter := func(name, help string, of func(singleflight.Stats) uint64) {
		add(prometheus.CounterValue, name+"_total", help, func(n singleflight.Stats) float64 {
			return float64(of(n))
		})
	}
	counter("loads", "Calls that were led, each of which ran a load function.",
		func(n singleflight.Stats) uint64 { return n.Loads })
	counter("joins", "Calls that joined another's.",
		func(n singleflight.Stats) uint64 { return n.Joins })
	counter("forgets", "Forgets of keys.",
		func(n singleflight.Stats) uint64 { return n.Forgets })
	add(prometheus.GaugeValue, "in_use", "Load functions that run.",
		func(n singleflight.Stats) float64 { return float64(n.InUse) })
	add(prometheus.GaugeValue, "proved", "Whether the proved library runs.",
		func(n singleflight.Stats) float64 {
			if n.Proved {
				return 1
			}
			return 0
		})
	return c
}

func (c *collector) Describe(ch chan<- *prometheus.Desc) {
	for _, m := range c.metrics {
		ch <- m.desc
	}
}

func (c *collector) Collect(ch chan<- prometheus.Metric) {
	n := c.source.Stats()
	for _, m := range c.metrics {
		ch <- prometheus.MustNewConstMetric(m.desc, m.kind, m.of(n))
	}
}

// Recorder is a collector of what singleflight.WithRecorder reports. One Recorder can serve any
// number of groups. It has, with the label group:
//
//	singleflight_load_seconds        how long load functions took
//	singleflight_load_joiners        how many joined the call of a load function
//	singleflight_load_errors_total   load functions that returned an error, panicked or called Goexit
type Recorder struct {
	seconds, joiners *prometheus.HistogramVec
	errors           *prometheus.CounterVec
}

// NewRecorder makes a Recorder whose times have these buckets, in seconds, or prometheus.DefBuckets
// if there are none. It panics if the buckets do not increase, as prometheus.NewHistogram does.
func NewRecorder(buckets ...float64) *Recorder {
	seconds := prometheus.HistogramOpts{
		Name:    "singleflight_load_seconds",
		Help:    "How long load functions took.",
		Buckets: buckets,
	}
	// A vector would panic at the first load.
	prometheus.NewHistogram(seconds)
	group := []string{"group"}
	return &Recorder{
		seconds: prometheus.NewHistogramVec(seconds, group),
		joiners: prometheus.NewHistogramVec(prometheus.HistogramOpts{
			Name:    "singleflight_load_joiners",
			Help:    "How many joined the call of a load function.",
			Buckets: []float64{0, 1, 10, 100, 1000, 10000},
		}, group),
		errors: prometheus.NewCounterVec(prometheus.CounterOpts{
			Name: "singleflight_load_errors_total",
			Help: "Load functions that returned an error, panicked or called Goexit.",
		}, group),
	}
}

// Record records one load. Give it to singleflight.WithRecorder.
func (r *Recorder) Record(load singleflight.Load) {
	r.seconds.WithLabelValues(load.Group).Observe(load.Took.Seconds())
	r.joiners.WithLabelValues(load.Group).Observe(float64(load.Joiners))
	errors := r.errors.WithLabelValues(load.Group)
	if load.Err != nil {
		errors.Inc()
	}
}

// Describe implements prometheus.Collector.
func (r *Recorder) Describe(ch chan<- *prometheus.Desc) {
	r.seconds.Describe(ch)
	r.joiners.Describe(ch)
	r.errors.Describe(ch)
}

// Collect implements prometheus.Collector.
func (r *Recorder) Collect(ch chan<- prometheus.Metric) {
	r.seconds.Collect(ch)
	r.joiners.Collect(ch)
	r.errors.Collect(ch)
}
