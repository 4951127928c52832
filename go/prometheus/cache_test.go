package prometheus_test

import (
	"context"
	"errors"
	"fmt"
	"os"
	"regexp"
	"strings"
	"testing"
	"time"

	"github.com/prometheus/client_golang/prometheus"

	"sf.example/singleflight"
	ours "sf.example/singleflight/prometheus"
)

// A collector of a cache has its numbers, by the names that the guide and the dashboard use.
func TestCacheCollector(t *testing.T) {
	now := time.Unix(1700000000, 0)
	pages, err := singleflight.NewCache(2, func(_ context.Context, key string) (string, error) {
		switch key {
		case "slow":
			now = now.Add(3 * time.Millisecond)
		case "none":
			return "", errors.New("as it was told")
		}
		return key, nil
	}, singleflight.WithName("pages"), singleflight.WithTTL(time.Hour), singleflight.WithRefreshAfter(30*time.Minute),
		singleflight.WithStaleIfError(time.Hour), singleflight.WithClock(func() time.Time { return now }))
	if err != nil {
		t.Fatal(err)
	}
	defer pages.Close()
	for _, key := range []string{"slow", "slow", "b", "c", "none", "c"} {
		pages.Get(ctx, key)
	}
	pages.Forget("c")
	pages.Put("slow", "new")
	pages.ForgetTag("tag")
	got := gather(t, ours.NewCacheCollector(pages))
	st := pages.Stats()
	want := map[string]float64{
		"cache_hits_total": 2, "cache_misses_total": 4, "cache_loads_total": 4, "cache_errors_total": 1,
		"cache_joins_total": 0, "cache_forgets_total": 3, "cache_refreshes_total": 0, "cache_stale_total": 0,
		"cache_entries": 1, "cache_weight": 1, "cache_limit": 2, "cache_open_loads": 0,
		"cache_load_seconds": 0.003, "cache_load_seconds count": 4,
		"cache_evictions_total reason=room": 1, "cache_evictions_total reason=expired": 0,
		"cache_evictions_total reason=forgotten": 1, "cache_evictions_total reason=replaced": 1,
		"cache_evictions_total reason=closed": 0,
	}
	for name, value := range want {
		var found bool
		for there, number := range got {
			if same(there, name) && number == value {
				found = true
			}
		}
		if !found {
			t.Error(name, "is not", value)
		}
	}
	if len(got) != len(want) {
		t.Errorf("as many as these: %v, of %+v", got, st)
	}
}

// Whether the name is that one with the cache's label.
func same(there, name string) bool {
	for i := range name + " " {
		if i == len(name) || name[i] == ' ' {
			return there == name[:i]+" cache=pages"+name[i:]
		}
	}
	return false
}

// The buckets of a histogram count those before them too.
func TestCacheCollectorBuckets(t *testing.T) {
	now := time.Unix(1700000000, 0)
	pages, err := singleflight.NewCache(10, func(_ context.Context, took int) (int, error) {
		now = now.Add(time.Duration(took) * time.Millisecond)
		return took, nil
	}, singleflight.WithClock(func() time.Time { return now }))
	if err != nil {
		t.Fatal(err)
	}
	defer pages.Close()
	for _, took := range []int{0, 3, 1000, 100000} {
		pages.Get(ctx, took)
	}
	registry := prometheus.NewRegistry()
	registry.MustRegister(ours.NewCacheCollector(pages))
	families, err := registry.Gather()
	if err != nil {
		t.Fatal(err)
	}
	counts := map[float64]uint64{}
	for _, family := range families {
		if h := family.Metric[0].Histogram; h != nil {
			for _, bucket := range h.Bucket {
				counts[bucket.GetUpperBound()] = bucket.GetCumulativeCount()
			}
		}
	}
	if counts[0.000001] != 1 || counts[0.001024] != 1 || counts[0.004096] != 2 || counts[1.048576] != 3 || counts[67.108864] != 3 {
		t.Error("buckets", counts)
	}
}

func ExampleNewCacheCollector() {
	pages, err := singleflight.NewCache(1000, func(ctx context.Context, path string) (string, error) {
		return "the page " + path, nil
	}, singleflight.WithName("pages"))
	if err != nil {
		panic(err)
	}
	defer pages.Close()
	var source ours.CacheSource = pages
	registry := prometheus.NewRegistry()
	registry.MustRegister(ours.NewCacheCollector(source))
	pages.Get(context.Background(), "/")
	families, err := registry.Gather()
	for _, family := range families {
		if family.GetName() == "singleflight_cache_entries" {
			fmt.Println(family.Metric[0].Gauge.GetValue(), err)
		}
	}
	// Output:
	// 1 <nil>
}

// The dashboard and the queries of docs/operations.md name what the collector has, and all of it stands in the dashboard.
func TestCacheDashboard(t *testing.T) {
	pages, err := singleflight.NewCache(2, func(_ context.Context, key string) (string, error) { return key, nil },
		singleflight.WithName("pages"))
	if err != nil {
		t.Fatal(err)
	}
	defer pages.Close()
	has := map[string]bool{}
	for name := range gather(t, ours.NewCacheCollector(pages)) {
		has[strings.Fields(name)[0]] = true
	}
	for _, path := range []string{"../../examples/grafana-cache.json", "../../docs/operations.md"} {
		text, err := os.ReadFile(path)
		if err != nil {
			t.Skip("it is not here:", path)
		}
		seen := map[string]bool{}
		for _, found := range regexp.MustCompile(`singleflight_(cache_\w+)`).FindAllStringSubmatch(string(text), -1) {
			name := strings.TrimSuffix(found[1], "_bucket")
			if seen[name] = true; !has[name] {
				t.Error(path, "has a name of no metric:", name)
			}
		}
		for name := range has {
			if strings.HasSuffix(path, ".json") && !seen[name] {
				t.Error("the dashboard lacks", name)
			}
		}
	}
}
