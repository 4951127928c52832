package prometheus_test

import (
	"context"
	"errors"
	"fmt"
	"strings"
	"sync"
	"testing"
	"time"

	"github.com/prometheus/client_golang/prometheus"

	"sf.example/singleflight"
	ours "sf.example/singleflight/prometheus"
)

var ctx = context.Background()

// What a registry gathers: the value of each metric, and of a histogram its count and sum.
func gather(t *testing.T, collectors ...prometheus.Collector) map[string]float64 {
	t.Helper()
	registry := prometheus.NewPedanticRegistry()
	for _, c := range collectors {
		if err := registry.Register(c); err != nil {
			t.Fatal(err)
		}
	}
	families, err := registry.Gather()
	if err != nil {
		t.Fatal(err)
	}
	values := map[string]float64{}
	for _, family := range families {
		if family.GetHelp() == "" {
			t.Error("no help", family.GetName())
		}
		for _, m := range family.Metric {
			name := strings.TrimPrefix(family.GetName(), "singleflight_")
			for _, label := range m.Label {
				name += " " + label.GetName() + "=" + label.GetValue()
			}
			switch {
			case m.Counter != nil:
				values[name] = m.Counter.GetValue()
				if !strings.HasSuffix(family.GetName(), "_total") {
					t.Error("a counter's name", family.GetName())
				}
			case m.Gauge != nil:
				values[name] = m.Gauge.GetValue()
			default:
				values[name] = m.Histogram.GetSampleSum()
				values[name+" count"] = float64(m.Histogram.GetSampleCount())
			}
		}
	}
	return values
}

func receive(t *testing.T, ch <-chan singleflight.ResultOf[int]) {
	t.Helper()
	select {
	case <-ch:
	case <-time.After(time.Minute):
		t.Fatal("it hangs")
	}
}

func TestCollector(t *testing.T) {
	users, err := singleflight.New[string, int](singleflight.WithName("users"))
	if err != nil {
		t.Fatal(err)
	}
	defer users.Close()
	pages, err := singleflight.NewGroup(singleflight.WithName("pages"))
	if err != nil {
		t.Fatal(err)
	}
	pages.Close()
	load := func(context.Context) (int, error) { return 1, nil }
	for i := 0; i < 3; i++ {
		users.Do(ctx, "ada", load)
	}
	users.Forget("ada")
	users.Forget("ada")
	started, release := make(chan struct{}), make(chan struct{})
	open := users.DoChan(ctx, "grace", func(context.Context) (int, error) {
		close(started)
		<-release
		return 2, nil
	})
	<-started
	joined := users.DoChan(ctx, "grace", load)
	users.Forget("grace")
	pages.Do("page", func() (any, error) { return nil, nil })
	proved := 0.0
	if users.Stats().Proved {
		proved = 1
	}
	got := gather(t, ours.NewCollector(users), ours.NewCollector(pages))
	want := map[string]float64{
		"loads_total group=users": 4, "joins_total group=users": 1, "forgets_total group=users": 3,
		"in_use group=users": 1, "proved group=users": proved,

		"loads_total group=pages": 1, "joins_total group=pages": 0, "forgets_total group=pages": 0,
		"in_use group=pages": 0, "proved group=pages": proved,
	}
	for name, value := range want {
		if there, ok := got[name]; !ok || there != value {
			t.Error(name, there, ok, "not", value)
		}
	}
	if len(got) != len(want) {
		t.Error("as many as these", got)
	}
	close(release)
	receive(t, open)
	receive(t, joined)
	if got := gather(t, ours.NewCollector(users)); got["in_use group=users"] != 0 {
		t.Error("a call has ended", got)
	}
	registry := prometheus.NewRegistry()
	registry.MustRegister(ours.NewCollector(users))
	if err := registry.Register(ours.NewCollector(users)); err == nil {
		t.Error("two of one name")
	}
}

// Collections beside calls, which the race detector looks at.
func TestCollectorBesideCalls(t *testing.T) {
	var users singleflight.Of[string, int]
	defer users.Close()
	registry := prometheus.NewRegistry()
	registry.MustRegister(ours.NewCollector(&users))
	var all sync.WaitGroup
	for i := 0; i < 4; i++ {
		all.Add(1)
		go func() {
			defer all.Done()
			for n := 0; n < 100; n++ {
				users.Do(ctx, fmt.Sprint(n%7), func(context.Context) (int, error) { return n, nil })
				if _, err := registry.Gather(); err != nil {
					t.Error(err)
				}
			}
		}()
	}
	all.Wait()
}

func TestRecorder(t *testing.T) {
	r := ours.NewRecorder(1, 10)
	failed := errors.New("failed")
	for _, load := range []singleflight.Load{
		{Group: "users", Took: 2 * time.Second, Joiners: 3},
		{Group: "users", Took: 500 * time.Millisecond, Err: failed},
		{Group: "pages", Took: time.Second},
	} {
		r.Record(load)
	}
	got := gather(t, r)
	want := map[string]float64{
		"load_seconds group=users": 2.5, "load_seconds group=users count": 2,
		"load_joiners group=users": 3, "load_joiners group=users count": 2,
		"load_errors_total group=users": 1,
		"load_seconds group=pages":      1, "load_seconds group=pages count": 1,
		"load_joiners group=pages": 0, "load_joiners group=pages count": 1,
		"load_errors_total group=pages": 0,
	}
	for name, value := range want {
		if there, ok := got[name]; !ok || there != value {
			t.Error(name, there, ok, "not", value)
		}
	}
	if len(got) != len(want) {
		t.Error("as many as these", got)
	}
	// Of a group.
	users, err := singleflight.New[string, int](
		singleflight.WithName("users"), singleflight.WithRecorder(r.Record))
	if err != nil {
		t.Fatal(err)
	}
	defer users.Close()
	users.Do(ctx, "ada", func(context.Context) (int, error) { return 0, failed })
	got = gather(t, r)
	if got["load_seconds group=users count"] != 3 || got["load_errors_total group=users"] != 2 {
		t.Error("a load of the group", got)
	}
	func() {
		defer func() {
			if recover() == nil {
				t.Error("buckets that do not increase")
			}
		}()
		ours.NewRecorder(2, 1)
	}()
}

func ExampleNewCollector() {
	users, err := singleflight.New[string, string](singleflight.WithName("users"))
	if err != nil {
		panic(err)
	}
	defer users.Close()
	var source ours.Source = users
	registry := prometheus.NewRegistry()
	registry.MustRegister(ours.NewCollector(source))
	users.Do(ctx, "user-7", func(context.Context) (string, error) { return "Ada", nil })
	families, err := registry.Gather()
	for _, family := range families {
		if family.GetName() == "singleflight_in_use" {
			fmt.Println(family.Metric[0].GetGauge().GetValue(), err)
		}
	}
	// Output: 0 <nil>
}

func ExampleNewRecorder() {
	var loads *ours.Recorder = ours.NewRecorder()
	users, err := singleflight.New[string, string](
		singleflight.WithName("users"), singleflight.WithRecorder(loads.Record))
	if err != nil {
		panic(err)
	}
	defer users.Close()
	registry := prometheus.NewRegistry()
	registry.MustRegister(loads)
	users.Do(ctx, "user-7", func(context.Context) (string, error) { return "Ada", nil })
	families, err := registry.Gather()
	for _, family := range families {
		if family.GetName() == "singleflight_load_seconds" {
			fmt.Println(family.Metric[0].GetHistogram().GetSampleCount(), err)
		}
	}
	// Output: 1 <nil>
}
