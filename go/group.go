package singleflight

import "context"

// Group is a drop-in for the Group of golang.org/x/sync/singleflight: Do and DoChan have x/sync's
// signatures, and the other methods are those of Of. A program changes the import path and nothing
// else. The embedded Of shares the calls of the Group, with deadlines and stamps:
//
//	group.Of.Do(ctx, key, fn)
//
// The zero Group is ready for use, and NewGroup makes one with options. It may not be copied once
// it is used.
type Group struct{ Of[string, any] }

// NewGroup makes a Group. It fails as New does.
func NewGroup(options ...Option) (*Group, error) {
	g := &Group{}
	if err := g.begin(options); err != nil {
		return nil, err
	}
	return g, nil
}

// Do joins the key's open call, or leads a new call and runs fn for it. It returns what the
// function of that call returned. If fn panics or calls runtime.Goexit, so do all callers that
// joined. As in x/sync, shared tells whether another caller joined the call.
func (g *Group) Do(key string, fn func() (any, error)) (v any, err error, shared bool) {
	a := asking{key: key}
	p := g.made.core()
	if p.asks(&a); a.leads || !p.hasJoined(&a) {
		p.lead(&a, fn)
	}
	return a.got.Val, a.got.Err, a.got.Shared
}

// DoChan is like Do but returns a channel that receives the result. The channel is not closed. The
// call is open as soon as DoChan returns. As in x/sync, a panic of the function ends the program,
// and the channel receives nothing if the function calls runtime.Goexit.
func (g *Group) DoChan(key string, fn func() (any, error)) <-chan Result {
	return g.Of.DoChan(always, key, func(context.Context) (any, error) { return fn() })
}

// Forget is Of's Forget: it closes the key's open call, and ends the stamp of a call that has ended.
func (g *Group) Forget(key string) {
	if p := g.made.Load(); p != nil {
		p.forgets(key)
	}
}

var always = context.Background()
