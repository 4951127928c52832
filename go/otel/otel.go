// Package otel traces the calls of singleflight's groups with OpenTelemetry. It uses only the API
// for traces, which is stable since version 1.0. Keys are not recorded, because they may be
// private; a span of the caller's own can have them.
package otel

import (
	"context"
	"fmt"

	"go.opentelemetry.io/otel/attribute"
	"go.opentelemetry.io/otel/codes"
	"go.opentelemetry.io/otel/trace"

	"sf.example/singleflight"
)

// The names of the spans.
const (
	DoSpan   = "singleflight.Do"   // of each caller, as long as it waits
	LoadSpan = "singleflight.load" // of the load function; its parent is the span of the leader
)

// The attributes of the spans. Both have GroupKey, and the span of Do has the others. All callers of
// a call have the same value of CallKey in one group. It is absent if the caller left before the call
// had a result.
const (
	GroupKey   = attribute.Key("singleflight.group")
	SharedKey  = attribute.Key("singleflight.shared")
	JoinersKey = attribute.Key("singleflight.joiners")
	CallKey    = attribute.Key("singleflight.call")
)

// Do calls Do of the Of in a span DoSpan of the tracer. The function runs in a span LoadSpan. An
// error is recorded in the spans of all callers that get it.
func Do[K singleflight.Key, V any](
	ctx context.Context, tracer trace.Tracer, of *singleflight.Of[K, V], key K,
	fn func(context.Context) (V, error),
) (singleflight.ResultOf[V], error) {
	group := GroupKey.String(of.Name())
	ctx, span := tracer.Start(ctx, DoSpan, trace.WithAttributes(group))
	// Also if the function panics or ends its goroutine.
	defer span.End()
	got, err := of.Do(ctx, key, Load(tracer, of.Name(), fn))
	span.SetAttributes(SharedKey.Bool(got.Shared), JoinersKey.Int(got.Joiners))
	if got.Call != (singleflight.Call{}) {
		span.SetAttributes(CallKey.String(fmt.Sprint(got.Call)))
	}
	record(span, err)
	return got, err
}

// Load returns the function in a span LoadSpan of the tracer, for a Do or DoChan that is called
// without this package. The span also ends if the function panics or calls runtime.Goexit.
func Load[V any](
	tracer trace.Tracer, group string, fn func(context.Context) (V, error),
) func(context.Context) (V, error) {
	return func(ctx context.Context) (V, error) {
		ctx, span := tracer.Start(ctx, LoadSpan, trace.WithAttributes(GroupKey.String(group)))
		defer span.End()
		v, err := fn(ctx)
		record(span, err)
		return v, err
	}
}

func record(span trace.Span, err error) {
	if err != nil {
		span.RecordError(err)
		span.SetStatus(codes.Error, err.Error())
	}
}
