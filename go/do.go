package singleflight

import (
	"context"
	"fmt"
	"os"
	"runtime"
	"time"
)

// hasJoined waits for the result of the call that was joined, where the context never ends. It returns false where it leads instead.
func (p *core) hasJoined(a *asking) bool {
	for !a.leads {
		if p.joins(a, nil) == settled {
			end(a.got.Err)
			return true
		}
		p.asks(a)
	}
	return false
}

// end goes on in one who has joined a function that panicked or ended its goroutine: so does this one.
func end(err error) {
	goOnPanic(err)
	if err == errGoexit {
		runtime.Goexit()
	}
}

// goOnPanic panics where the function has.
func goOnPanic(err error) {
	if e, ok := err.(*panicError); ok {
		panic(e)
	}
}

// lead calls fn, and settles the call that was led, also where fn panics or ends its goroutine. A panic goes on in this
// goroutine, and where the leader waits in another, in that.
func (p *core) lead(a *asking, fn func() (any, error)) {
	returned := false
	if p.record != nil {
		a.took = now()
	}
	if rec := a.record(); rec != nil && rec.value == nil {
		rec.begins()
	}
	defer func() {
		if !returned {
			a.got.Err = errGoexit
		}
		if p.record != nil {
			a.took = now() - a.took
		}
		p.ends(a)
		if p.record != nil || a.after != nil || a.over != nil {
			p.led(a)
		} else {
			goOnPanic(a.got.Err)
		}
	}()
	calls(&a.got, fn)
	returned = true
}

// calls calls fn. It does not return where fn ends the goroutine. Before Go 1.21 a panic of nil is as if fn had returned nothing, as in x/sync.
func calls(r *ending, fn func() (any, error)) {
	returned := false
	defer func() {
		if !returned {
			if it := recover(); it != nil {
				r.Err = newPanicError(it)
			}
		}
	}()
	r.Val, r.Err = fn()
	returned = true
}

// led tells whoever else is to be told of a load that has ended, after those who have joined.
func (p *core) led(a *asking) {
	if a.after != nil {
		// Also where it goes on to panic.
		defer a.after()
	}
	// Also where the recorder panics or ends the goroutine.
	defer func() {
		if a.over == nil {
			goOnPanic(a.got.Err)
		} else {
			close(a.over)
		}
	}()
	if p.record != nil {
		p.record(Load{p.label, a.key, time.Duration(a.took), a.got.Joiners, a.got.Err})
	}
}

// lost tells of a panic that nobody waits for.
func (p *core) lost(err error) {
	e, ok := err.(*panicError)
	switch {
	case !ok:
	case p.onPanic != nil:
		p.onPanic(e.value, e.stack)
	default:
		fmt.Fprintf(os.Stderr, "singleflight: a function panicked, and nobody waits for it: %v\n\n%s\n", e.value, e.stack)
	}
}

// The values of a context without its end.
type detached struct{ context.Context }

func (detached) Deadline() (time.Time, bool) { return time.Time{}, false }
func (detached) Done() <-chan struct{}       { return nil }
func (detached) Err() error                  { return nil }

type loadFunc = func(context.Context, *asking) (any, error)

// What is returned in place of an asking that has ended: nobody changes it.
var nothing = asking{asked: asked{stamp: noStamp}}

// doContext is Do for a caller that waits no longer than its context. If the context never ends, nobody has the asking when it returns.
func (p *core) doContext(ctx context.Context, a *asking, fn loadFunc) (*asking, error) {
	if err := ctx.Err(); err != nil {
		return &nothing, err
	}
	a.stop = ctx.Done()
	p.asks(a)
	return p.goOn(ctx, a, fn)
}

// goOn goes on with an asking until there is a result, or the context ends.
func (p *core) goOn(ctx context.Context, a *asking, fn loadFunc) (*asking, error) {
	for !a.leads {
		how := left
		if !a.isCrowded {
			how = p.joins(a, ctx.Done())
		}
		if how == settled {
			end(a.got.Err)
			return a, a.got.Err
		}
		if err := ctx.Err(); err != nil || how == left {
			return &nothing, err
		}
		p.asks(a)
	}
	if ctx.Done() != nil {
		return p.leadContext(ctx, a, fn)
	}
	p.lead(a, func() (any, error) { return fn(ctx, a) })
	return a, a.got.Err
}

// leadContext runs fn in a goroutine of its own, and waits for it no longer than the context.
func (p *core) leadContext(ctx context.Context, a *asking, fn loadFunc) (*asking, error) {
	own, cancel := context.WithCancel(detached{ctx})
	p.apart(a, cancel)
	spawn(func() {
		defer cancel()
		p.lead(a, func() (any, error) { return fn(own, a) })
	})
	if !await(a.over, ctx.Done()) && p.gives(a) {
		return &nothing, ctx.Err()
	}
	await(a.over, nil)
	end(a.got.Err)
	return a, a.got.Err
}

// apart has a call that is led run apart from its leader, who may leave; or for nobody, where there is no cancel.
func (p *core) apart(a *asking, cancel context.CancelFunc) {
	a.over = make(chan struct{})
	p.table.share(a)
	c := a.call
	acquire(&c.mu)
	c.isApart, c.waits, c.cancel = true, cancel != nil, cancel
	c.mu.Unlock()
}

// doBehind is Do for nobody: it runs fn in this goroutine, unless the key has an open call. A panic of fn is told as one that
// nobody waits for, unless somebody has joined.
func (p *core) doBehind(ctx context.Context, key string, fn loadFunc) (joined bool) {
	a := &asking{key: key, stop: ended}
	p.asks(a)
	if !a.leads {
		return p.parts(a)
	}
	p.apart(a, nil)
	p.lead(a, func() (any, error) { return fn(ctx, a) })
	return false
}

// parts lets go of a call that was joined, whose result nobody wants. It returns false where none was, since the call was crowded.
func (p *core) parts(a *asking) bool {
	if a.call == nil {
		return false
	}
	if !p.gives(a) {
		p.takes(a)
		a.enters(false)
	}
	return true
}

// doChan is Do for a caller that does not wait: it has asked when this returns. What tell is called with is the result. As in
// x/sync, a panic of the function ends the program, and one who joins needs no goroutine.
func (p *core) doChan(ctx context.Context, key string, fn loadFunc, tell func(*asking, error)) {
	a := &asking{key: key, stop: ctx.Done()}
	p.asks(a)
	goOn := func() { tell(p.goOn(ctx, a, fn)) }
	if a.leads || ctx.Done() != nil {
		spawn(goOn)
		return
	}
	a.call.whenTold(func() {
		if p.takes(a) == again {
			spawn(func() {
				p.asks(a)
				goOn()
			})
		} else if e, ok := a.got.Err.(*panicError); ok {
			go panic(e)
		} else if a.got.Err != errGoexit {
			tell(a, a.got.Err)
		}
	})
}
