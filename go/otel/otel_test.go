package otel_test

import (
	"context"
	"errors"
	"fmt"
	"runtime"
	"testing"
	"time"

	"go.opentelemetry.io/otel/attribute"
	"go.opentelemetry.io/otel/codes"
	"go.opentelemetry.io/otel/sdk/trace"
	"go.opentelemetry.io/otel/sdk/trace/tracetest"

	"sf.example/singleflight"
	"sf.example/singleflight/otel"
)

var always = context.Background()

func valueOf(span trace.ReadOnlySpan, key attribute.Key) any {
	for _, it := range span.Attributes() {
		if it.Key == key {
			return it.Value.AsInterface()
		}
	}
	return nil
}

// The spans that have ended with this name.
func named(recorder *tracetest.SpanRecorder, name string) (spans []trace.ReadOnlySpan) {
	for _, span := range recorder.Ended() {
		if span.Name() == name {
			spans = append(spans, span)
		}
	}
	return spans
}

func receive(t *testing.T, ch <-chan struct{}) {
	t.Helper()
	select {
	case <-ch:
	case <-time.After(time.Minute):
		t.Fatal("it hangs")
	}
}

func usersOf(t *testing.T) *singleflight.Of[string, int] {
	users, err := singleflight.New[string, int](singleflight.WithName("users"))
	if err != nil {
		t.Fatal(err)
	}
	t.Cleanup(users.Close)
	return users
}

// One leads, one joins and one joins and leaves: a span for each, and one for the function.
func TestDo(t *testing.T) {
	recorder := tracetest.NewSpanRecorder()
	tracer := trace.NewTracerProvider(trace.WithSpanProcessor(recorder)).Tracer("test")
	users := usersOf(t)
	started, release := make(chan struct{}), make(chan struct{})
	failed := errors.New("failed")
	do := func(ctx context.Context, fn func(context.Context) (int, error)) <-chan struct{} {
		done := make(chan struct{})
		go func() {
			defer close(done)
			otel.Do(ctx, tracer, users, "ada", fn)
		}()
		return done
	}
	other := func(context.Context) (int, error) { t.Error("it joins"); return 2, nil }
	joins := func(n uint64) {
		t.Helper()
		for from := time.Now(); users.Stats().Joins < n; time.Sleep(time.Millisecond) {
			if time.Since(from) > time.Minute {
				t.Fatal("it does not join")
			}
		}
	}
	leader := do(always, func(ctx context.Context) (int, error) {
		close(started)
		<-release
		return 1, failed
	})
	receive(t, started)
	ctx, cancel := context.WithCancel(always)
	leaves := do(ctx, other)
	joins(1)
	cancel()
	receive(t, leaves)
	joiner := do(always, other)
	joins(2)
	close(release)
	receive(t, leader)
	receive(t, joiner)

	loads, dos := named(recorder, otel.LoadSpan), named(recorder, otel.DoSpan)
	if len(loads) != 1 || len(dos) != 3 || len(recorder.Ended()) != 4 {
		t.Fatal("as many spans", len(loads), len(dos), len(recorder.Ended()))
	}
	left, parents := dos[0], 0
	if left.Status().Description != context.Canceled.Error() || valueOf(left, otel.CallKey) != nil {
		t.Error("one that has left", left.Status(), left.Attributes())
	}
	for _, span := range []trace.ReadOnlySpan{loads[0], dos[1], dos[2]} {
		status := span.Status()
		if status.Code != codes.Error || status.Description != "failed" || len(span.Events()) != 1 {
			t.Error("its error", span.Name(), status, span.Events())
		}
		if valueOf(span, otel.GroupKey) != "users" {
			t.Error("its group", span.Attributes())
		}
	}
	for _, span := range dos[1:] {
		if span.SpanContext().SpanID() == loads[0].Parent().SpanID() {
			parents++
		}
		if valueOf(span, otel.SharedKey) != true || valueOf(span, otel.JoinersKey) != int64(1) {
			t.Error("its numbers", span.Attributes())
		}
		if call := valueOf(span, otel.CallKey); call == nil || call != valueOf(dos[1], otel.CallKey) {
			t.Error("one call", call)
		}
	}
	if parents != 1 || left.SpanContext().SpanID() == loads[0].Parent().SpanID() {
		t.Error("the function is in the leader's span", parents)
	}
}

// A call that goes well has no error, and an own value of CallKey.
func TestNoError(t *testing.T) {
	recorder := tracetest.NewSpanRecorder()
	tracer := trace.NewTracerProvider(trace.WithSpanProcessor(recorder)).Tracer("test")
	users := usersOf(t)
	for i := 0; i < 2; i++ {
		got, err := otel.Do(always, tracer, users, "ada", func(context.Context) (int, error) {
			return i, nil
		})
		if got.Val != i || err != nil || !users.IsStill(got.Stamp) {
			t.Error("its result", got, err)
		}
	}
	dos := named(recorder, otel.DoSpan)
	for _, span := range recorder.Ended() {
		if span.Status().Code != codes.Unset || len(span.Events()) != 0 {
			t.Error("an error", span.Name(), span.Status())
		}
	}
	if len(dos) != 2 || valueOf(dos[0], otel.CallKey) == valueOf(dos[1], otel.CallKey) {
		t.Error("two calls", dos)
	}
	if valueOf(dos[0], otel.SharedKey) != false || valueOf(dos[0], otel.JoinersKey) != int64(0) {
		t.Error("its numbers", dos[0].Attributes())
	}
}

// Spans end where the function does not return.
func TestSpansEnd(t *testing.T) {
	recorder := tracetest.NewSpanRecorder()
	tracer := trace.NewTracerProvider(trace.WithSpanProcessor(recorder)).Tracer("test")
	users := usersOf(t)
	for i, fn := range []func(){func() { panic("load") }, runtime.Goexit} {
		ended := make(chan struct{})
		go func() {
			defer close(ended)
			defer func() { recover() }()
			otel.Do(always, tracer, users, "ada", func(context.Context) (int, error) {
				fn()
				return 0, nil
			})
		}()
		receive(t, ended)
		begun, done := len(recorder.Started()), len(recorder.Ended())
		if begun != 2*i+2 || done != begun {
			t.Error("spans", i, begun, done)
		}
	}
}

func ExampleDo() {
	tracer := trace.NewTracerProvider().Tracer("users")
	var users singleflight.Of[string, string]
	defer users.Close()
	load := func(context.Context) (string, error) { return "Ada", nil }
	got, err := otel.Do(always, tracer, &users, "user-7", load)
	fmt.Println(got.Val, err)
	// Output: Ada <nil>
}

func ExampleLoad() {
	recorder := tracetest.NewSpanRecorder()
	tracer := trace.NewTracerProvider(trace.WithSpanProcessor(recorder)).Tracer("users")
	var users singleflight.Of[string, string]
	defer users.Close()
	load := otel.Load(tracer, "users", func(context.Context) (string, error) { return "Ada", nil })
	got := <-users.DoChan(always, "user-7", load)
	fmt.Println(got.Val, got.Err)
	for _, span := range recorder.Ended() {
		fmt.Println(span.Name() == otel.LoadSpan, valueOf(span, otel.GroupKey))
	}
	// Output:
	// Ada <nil>
	// true users
}

// What the span of a Do has.
func Example_attributes() {
	recorder := tracetest.NewSpanRecorder()
	tracer := trace.NewTracerProvider(trace.WithSpanProcessor(recorder)).Tracer("users")
	var users singleflight.Of[string, string]
	defer users.Close()
	load := func(context.Context) (string, error) { return "Ada", nil }
	otel.Do(always, tracer, &users, "user-7", load)
	for _, span := range recorder.Ended() {
		if span.Name() == otel.DoSpan {
			fmt.Println(valueOf(span, otel.SharedKey), valueOf(span, otel.JoinersKey))
			fmt.Println(valueOf(span, otel.CallKey) != nil)
		}
	}
	// Output:
	// false 0
	// true
}
