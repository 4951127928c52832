package otel_test

import (
	"context"
	"errors"
	"fmt"
	"testing"
	"time"

	"sf.example/singleflight"
	"sf.example/singleflight/otel"
)

// The measurements of a cache are its numbers.
func TestMeasureCache(t *testing.T) {
	now := time.Unix(1700000000, 0)
	pages, err := singleflight.NewCache(2, func(_ context.Context, took int) (int, error) {
		now = now.Add(time.Duration(took) * time.Millisecond)
		if took == 9 {
			return 0, errors.New("as it was told")
		}
		return took, nil
	}, singleflight.WithName("pages"), singleflight.WithClock(func() time.Time { return now }))
	if err != nil {
		t.Fatal(err)
	}
	defer pages.Close()
	for _, took := range []int{0, 0, 3, 1000, 9} {
		pages.Get(always, took)
	}
	pages.Forget(1000)
	got := map[string]float64{}
	for _, it := range otel.MeasureCache(pages) {
		name := it.Name
		for _, attribute := range it.Attributes[1:] {
			name += " " + attribute.Value.Emit()
		}
		if _, isAgain := got[name]; isAgain || it.Attributes[0] != otel.CacheKey.String("pages") || it.Description == "" {
			t.Error("a measurement", it)
		}
		if isGauge := it.Name == "singleflight.cache.entries" || it.Name == "singleflight.cache.weight" ||
			it.Name == "singleflight.cache.limit" || it.Name == "singleflight.cache.open_loads"; isGauge == it.IsCounter {
			t.Error("its kind", it)
		}
		got[name] = it.Value
	}
	for name, want := range map[string]float64{
		"hits": 1, "misses": 4, "loads": 4, "errors": 1, "joins": 0, "forgets": 1, "refreshes": 0, "stale": 0,
		"load.time": 1.012, "entries": 1, "weight": 1, "limit": 2, "open_loads": 0,
		"evictions room": 1, "evictions forgotten": 1, "evictions closed": 0,
		"load.buckets 1e-06": 1, "load.buckets 0.004096": 2, "load.buckets 0.016384": 3, "load.buckets 1.048576": 4,
		"load.buckets 67.108864": 4,
	} {
		if there, ok := got["singleflight.cache."+name]; !ok || there != want {
			t.Error(name, there, ok, "not", want)
		}
	}
	if len(got) != 13+5+14 {
		t.Error("as many as these", got)
	}
}

func ExampleMeasureCache() {
	pages, err := singleflight.NewCache(1000, func(ctx context.Context, path string) (string, error) {
		return "the page " + path, nil
	}, singleflight.WithName("pages"))
	if err != nil {
		panic(err)
	}
	defer pages.Close()
	var source otel.CacheSource = pages
	pages.Get(context.Background(), "/")
	// In the callback of the program's instruments:
	for _, it := range otel.MeasureCache(source) {
		var number otel.Measurement = it
		if number.Name == "singleflight.cache.misses" {
			fmt.Println(number.Value, number.Unit, number.IsCounter, number.Description)
			fmt.Println(number.Attributes[0].Key == otel.CacheKey, otel.ReasonKey, otel.BoundKey)
		}
	}
	// Output:
	// 1 1 true Gets that found none.
	// true singleflight.reason le
}
