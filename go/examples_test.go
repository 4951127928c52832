package singleflight_test

import (
	"context"
	"errors"
	"fmt"
	"sync"
	"time"

	"sf.example/singleflight"
)

func load(key string) func(context.Context) (string, error) {
	return func(context.Context) (string, error) { return "load of " + key, nil }
}

func ExampleOf_Do() {
	var users singleflight.Of[string, string]
	defer users.Close()
	ctx, cancel := context.WithTimeout(context.Background(), time.Minute)
	defer cancel()
	var got singleflight.ResultOf[string]
	got, err := users.Do(ctx, "user-7", load("user-7"))
	fmt.Println(got.Val, err, got.Shared, got.Joiners)
	// Output: load of user-7 <nil> false 0
}

// Keys may be byte slices too.
func ExampleNew() {
	pages, err := singleflight.New[[]byte, string](
		singleflight.WithName("pages"),
		singleflight.WithLoads(1000),
	)
	if err != nil {
		panic(err)
	}
	defer pages.Close()
	got := <-pages.DoChan(context.Background(), []byte("page-1"), load("page-1"))
	fmt.Println(pages.Name(), got.Val, got.Err)
	// Output: pages load of page-1 <nil>
}

func ExampleOf_Err() {
	users, err := singleflight.New[string, int](singleflight.WithLoads(0))
	fmt.Println(users, errors.Is(err, singleflight.ErrSize), errors.Is(err, singleflight.ErrMemory))
	var closed singleflight.Of[string, int]
	closed.Close()
	fmt.Println(errors.Is(closed.Err(), singleflight.ErrClosed), errors.Is(closed.Err(), singleflight.ErrProcessor))
	// Output:
	// <nil> true false
	// true false
}

func ExampleOf_InFlight() {
	var users singleflight.Of[string, int]
	defer users.Close()
	started, release := make(chan struct{}), make(chan struct{})
	first := users.DoChan(context.Background(), "ada", func(context.Context) (int, error) {
		close(started)
		<-release
		return 1, nil
	})
	<-started
	fmt.Println(users.InFlight())
	close(release)
	fmt.Println((<-first).Val)
	// Output:
	// 1
	// 1
}

// Of two that throw one stale result away, the later does not end the call that the first made.
func ExampleOf_ForgetCall() {
	var users singleflight.Of[string, string]
	defer users.Close()
	ctx := context.Background()
	got, _ := users.Do(ctx, "ada", load("ada"))
	var stale singleflight.Call = got.Call
	first := users.ForgetCall("ada", stale)
	users.Do(ctx, "ada", load("ada"))
	later := users.ForgetCall("ada", stale)
	fmt.Println(first == singleflight.Cleared, later == singleflight.Missed)
	var hit singleflight.Hit = singleflight.Closed
	fmt.Println(first, later, hit.String())
	// Output:
	// true true
	// Cleared Missed Closed
}

func ExampleOf_Stats() {
	var users singleflight.Of[string, string]
	defer users.Close()
	users.Do(context.Background(), "ada", load("ada"))
	users.Do(context.Background(), "ada", load("ada"))
	users.Forget("ada")
	var st singleflight.Stats = users.Stats()
	fmt.Println(st.Loads, st.Joins, st.Forgets)
	// Output: 2 0 1
}

// A program that has used x/sync changes the import path.
func ExampleGroup() {
	var group singleflight.Group
	defer group.Close()
	v, err, shared := group.Do("ada", func() (any, error) { return 1, nil })
	fmt.Println(v, err, shared)
	var r singleflight.Result = <-group.DoChan("ada", func() (any, error) { return 2, nil })
	fmt.Println(r.Val, r.Err, r.Shared)
	// group.Of has the same calls with a context, and with a stamp.
	got, err := group.Of.Do(context.Background(), "ada", func(context.Context) (any, error) {
		return 3, nil
	})
	fmt.Println(got.Val, err, group.IsStill(got.Stamp), group.IsStill(singleflight.Stamp{}))
	// Output:
	// 1 <nil> false
	// 2 <nil> false
	// 3 <nil> true false
}

func ExampleNewGroup() {
	var option singleflight.Option = singleflight.WithName("users")
	group, err := singleflight.NewGroup(option)
	if err != nil {
		panic(err)
	}
	defer group.Close()
	fmt.Println(group.Name())
	// Output: users
}

func ExampleWithOnPanic() {
	told := make(chan any)
	users, err := singleflight.New[string, int](
		singleflight.WithOnPanic(func(value any, stack []byte) { told <- value }),
	)
	if err != nil {
		panic(err)
	}
	defer users.Close()
	ctx, leave := context.WithCancel(context.Background())
	_, err = users.Do(ctx, "ada", func(own context.Context) (int, error) {
		leave()
		<-own.Done()
		panic("nobody waits")
	})
	fmt.Println(err, <-told)
	// Output: context canceled nobody waits
}

func ExampleWithRecorder() {
	users, err := singleflight.New[string, string](
		singleflight.WithName("users"),
		singleflight.WithRecorder(func(load singleflight.Load) {
			fmt.Println(load.Group, load.Key, load.Took > time.Hour, load.Joiners, load.Err)
		}),
	)
	if err != nil {
		panic(err)
	}
	defer users.Close()
	users.Do(context.Background(), "ada", load("ada"))
	// Output: users ada false 0 <nil>
}

// A function over Ofs of any types names Key.
func ExampleKey() {
	var users singleflight.Of[string, string]
	defer users.Close()
	got, err := all(&users, "ada", "grace")
	fmt.Println(got, err)
	// Output: [load of ada load of grace] <nil>
}

func all[K singleflight.Key](of *singleflight.Of[K, string], keys ...K) ([]string, error) {
	got := make([]string, len(keys))
	errs := make([]error, len(keys))
	var each sync.WaitGroup
	for i, key := range keys {
		each.Add(1)
		go func(i int, key K) {
			defer each.Done()
			r, err := of.Do(context.Background(), key, load(string(key)))
			got[i], errs[i] = r.Val, err
		}(i, key)
	}
	each.Wait()
	for _, err := range errs {
		if err != nil {
			return nil, err
		}
	}
	return got, nil
}
