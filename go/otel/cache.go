package otel

import (
	"go.opentelemetry.io/otel/attribute"

	"sf.example/singleflight"
)

// The attributes of measurements of caches.
const (
	CacheKey  = attribute.Key("singleflight.cache")  // the name of the cache
	ReasonKey = attribute.Key("singleflight.reason") // why values have left
	BoundKey  = attribute.Key("le")                  // the longest time that a bucket counts, in seconds
)

// CacheSource is what measurements of a cache are read from: a singleflight.Cache.
type CacheSource interface {
	Name() string
	Stats() singleflight.CacheStats
}

// Measurement is one number of a cache, for an asynchronous instrument: a counter, whose number is the
// sum since the cache was made, or a gauge.
type Measurement struct {
	Name        string
	Unit        string // as OpenTelemetry has it: 1, or s for seconds
	Description string
	IsCounter   bool
	Value       float64
	Attributes  []attribute.KeyValue
}

// MeasureCache returns the numbers of the cache, to be observed in the callback of asynchronous
// instruments. It needs no API for metrics, of which there are several versions: the instruments are
// the program's. The names are those that the package prometheus has, with dots:
//
//	singleflight.cache.hits, .misses, .loads, .errors, .joins, .forgets, .refreshes, .stale
//	singleflight.cache.evictions     by ReasonKey
//	singleflight.cache.load.time     how long all loads took together, in seconds
//	singleflight.cache.load.buckets  loads by BoundKey, each with those of the buckets before it
//	singleflight.cache.entries, .weight, .limit, .open_loads, which are gauges
func MeasureCache(source CacheSource) (all []Measurement) {
	n := source.Stats()
	name := CacheKey.String(source.Name())
	add := func(it Measurement, more ...attribute.KeyValue) {
		it.Name = "singleflight.cache." + it.Name
		if it.Unit == "" {
			it.Unit = "1"
		}
		it.Attributes = append([]attribute.KeyValue{name}, more...)
		all = append(all, it)
	}
	for _, it := range []Measurement{
		{Name: "hits", Description: "Gets that found a value, or a kept error.", Value: float64(n.Hits)},
		{Name: "misses", Description: "Gets that found none.", Value: float64(n.Misses)},
		{Name: "loads", Description: "Keys that were loaded.", Value: float64(n.Loads)},
		{Name: "errors", Description: "Keys whose load failed or panicked.", Value: float64(n.Errors)},
		{Name: "joins", Description: "Gets that waited for the load of another.", Value: float64(n.Joins)},
		{Name: "forgets", Description: "Forgets of keys, values, tags and all, and Puts.", Value: float64(n.Forgets)},
		{Name: "refreshes", Description: "Loads that were begun behind a Get.", Value: float64(n.Refreshes)},
		{Name: "stale", Description: "Loads that failed, in whose place an old value was returned.", Value: float64(n.Stale)},
		{Name: "load.time", Unit: "s", Description: "How long load functions took together.",
			Value: n.LoadTime.Seconds()},
	} {
		it.IsCounter = true
		add(it)
	}
	for _, it := range []Measurement{
		{Name: "entries", Description: "Values that are in the cache.", Value: float64(n.Values)},
		{Name: "weight", Description: "What the values cost together.", Value: float64(n.Weight)},
		{Name: "limit", Description: "The most that they may cost.", Value: float64(n.Limit)},
		{Name: "open_loads", Description: "Load functions that run.", Value: float64(n.InUse)},
	} {
		add(it)
	}
	for reason, count := range n.LeftFor {
		add(Measurement{Name: "evictions", Description: "Values that left, by reason.", IsCounter: true,
			Value: float64(count)}, ReasonKey.String(singleflight.Reason(reason).String()))
	}
	sum := uint64(0)
	for i, count := range n.LoadTimes {
		sum += count
		if bound := singleflight.LoadTimeBound(i); bound > 0 {
			add(Measurement{Name: "load.buckets", Description: "Loads that took no longer.", IsCounter: true,
				Value: float64(sum)}, BoundKey.Float64(bound.Seconds()))
		}
	}
	return all
}
