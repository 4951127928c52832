package singleflight_test

import (
	"context"
	"errors"
	"fmt"
	"time"

	"sf.example/singleflight"
)

// A cache of users. After each write of a user its key is forgotten.
func ExampleCache() {
	names := map[string]string{"user-7": "Ada"} // the origin; a database, say
	users, err := singleflight.NewCache(10_000,
		func(ctx context.Context, key string) (string, error) { return names[key], nil })
	if err != nil {
		panic(err)
	}
	defer users.Close()
	ctx := context.Background()
	fmt.Println(users.Get(ctx, "user-7"))
	fmt.Println(users.GetIfPresent("user-7"))

	// Nobody who asks later gets what was loaded before.
	names["user-7"] = "Grace"
	users.Forget("user-7")
	fmt.Println(users.GetIfPresent("user-7"))
	fmt.Println(users.Get(ctx, "user-7"))
	// Output:
	// Ada <nil>
	// Ada true
	//  false
	// Grace <nil>
}

// A cache of pages, of 64 MB together, each at most an hour old.
func ExampleNewCache() {
	pages, err := singleflight.NewCache(64<<20,
		func(ctx context.Context, path string) ([]byte, error) { return []byte("<html></html>"), nil },
		singleflight.WithCost(func(path string, page []byte) int64 {
			return int64(len(path) + len(page))
		}),
		singleflight.WithTTL(time.Hour),
		singleflight.WithName("pages"),
	)
	if err != nil {
		panic(err)
	}
	defer pages.Close()
	page, err := pages.Get(context.Background(), "/index.html")
	fmt.Println(string(page), err, pages.Name(), pages.Err())
	var st singleflight.CacheStats = pages.Stats()
	fmt.Println(st.Loads, st.Values, st.Weight)
	// Output:
	// <html></html> <nil> pages <nil>
	// 1 1 24
}

// What NewCache refuses.
func ExampleNewCache_errors() {
	load := func(ctx context.Context, key string) (int, error) { return len(key), nil }
	_, err := singleflight.NewCache(0, load)
	fmt.Println(errors.Is(err, singleflight.ErrSize))
	// The function has other types than the cache.
	_, err = singleflight.NewCache(10, load,
		singleflight.WithCost(func(key, value string) int64 { return 1 }))
	fmt.Println(errors.Is(err, singleflight.ErrOption))
	// Output:
	// true
	// true
}

// A value that was written is kept at once, in the place of the older one.
func ExampleCache_Put() {
	counts, err := singleflight.NewCache(100,
		func(ctx context.Context, key string) (int, error) { return 0, nil })
	if err != nil {
		panic(err)
	}
	defer counts.Close()
	ctx := context.Background()
	fmt.Println(counts.Get(ctx, "visits"))
	fmt.Println(counts.Put("visits", 1))
	fmt.Println(counts.Get(ctx, "visits"))
	// Output:
	// 0 <nil>
	// true
	// 1 <nil>
}

// All values are loaded anew, as after a new version of the origin.
func ExampleCache_ForgetAll() {
	version := 1
	pages, err := singleflight.NewCache(100,
		func(ctx context.Context, key string) (string, error) { return fmt.Sprint(key, version), nil },
		singleflight.WithOnEvict(func(key, page string) { fmt.Println(page, "has left") }))
	if err != nil {
		panic(err)
	}
	defer pages.Close()
	ctx := context.Background()
	fmt.Println(pages.Get(ctx, "a"))
	version = 2
	pages.ForgetAll()
	fmt.Println(pages.Get(ctx, "a"))
	// Output:
	// a1 <nil>
	// a1 has left
	// a2 <nil>
	// a2 has left
}

// A load function returns how long its value lives, and the tags by which it is forgotten.
func ExampleNewCacheOf() {
	var load singleflight.LoadFunc[string, string] = func(
		ctx context.Context, path string,
	) (singleflight.Loaded[string], error) {
		return singleflight.Loaded[string]{
			Value: "the page " + path, TTL: time.Minute, Tags: []string{"article-7", "author-3"},
		}, nil
	}
	pages, err := singleflight.NewCacheOf(1000, load)
	if err != nil {
		panic(err)
	}
	defer pages.Close()
	ctx := context.Background()
	for _, path := range []string{"/", "/article/7"} {
		page, _ := pages.Get(ctx, path)
		fmt.Println(page)
	}
	// The article is written to the origin, and then:
	pages.ForgetTag("article-7")
	pages.All(func(path, page string) bool { fmt.Println(path, "is kept"); return true })
	// Output:
	// the page /
	// the page /article/7
}

// A cache whose values are refreshed, stand in for errors, and do not end together.
func ExampleWithRefreshAfter() {
	now := time.Unix(1700000000, 0)
	var broken error
	users, err := singleflight.NewCache(1000, func(ctx context.Context, id int) (string, error) {
		return fmt.Sprint("user ", id), broken
	},
		singleflight.WithTTL(time.Hour),
		singleflight.WithJitter(0.1),
		singleflight.WithIdle(30*time.Minute),
		singleflight.WithRefreshAfter(50*time.Minute),
		singleflight.WithStaleIfError(24*time.Hour),
		singleflight.WithErrorTTL(func(err error) time.Duration {
			if errors.Is(err, singleflight.ErrNotFound) {
				return time.Minute
			}
			return 0
		}),
		singleflight.WithClock(func() time.Time { return now }),
	)
	if err != nil {
		panic(err)
	}
	defer users.Close()
	ctx := context.Background()
	users.Get(ctx, 7)
	now = now.Add(2 * time.Hour)
	broken = errors.New("the origin is down")
	fmt.Println(users.Get(ctx, 7))
	now = now.Add(24 * time.Hour)
	fmt.Println(users.Get(ctx, 7))
	broken = singleflight.ErrNotFound
	users.Get(ctx, 8)
	_, err = users.Get(ctx, 8)
	fmt.Println(err, users.Stats().Loads)
	// Output:
	// user 7 <nil>
	// user 7 the origin is down
	// singleflight: the key does not exist 4
}

// Several keys are loaded by one call. Keys of other types than strings and numbers become bytes.
func ExampleCache_GetMany() {
	type place struct{ x, y byte }
	load := func(ctx context.Context, places []place) (map[place]singleflight.Loaded[string], error) {
		names := map[place]singleflight.Loaded[string]{}
		for _, it := range places {
			if it.x != 9 {
				names[it] = singleflight.Loaded[string]{Value: fmt.Sprint(it.x, "/", it.y)}
			}
		}
		fmt.Println("loads", len(places))
		return names, nil
	}
	names, err := singleflight.NewCacheOf[place, string](1000, nil,
		singleflight.WithKey(func(it place) []byte { return []byte{it.x, it.y} }),
		singleflight.WithBatchLoader[place, string](load))
	if err != nil {
		panic(err)
	}
	defer names.Close()
	ctx := context.Background()
	var got []singleflight.Got[string] = names.GetMany(ctx, []place{{1, 2}, {3, 4}, {9, 9}})
	for _, it := range got {
		fmt.Println(it.Value, it.Err)
	}
	var other singleflight.BatchLoad[place, string] = load
	fmt.Println(names.GetManyWith(ctx, []place{{1, 2}}, other)[0].Value)
	_, err = names.Get(ctx, place{5, 6})
	fmt.Println(err == singleflight.ErrNoLoader)
	one, _ := names.GetWith(ctx, place{5, 6},
		func(ctx context.Context, it place) (singleflight.Loaded[string], error) {
			return singleflight.Loaded[string]{Value: "loaded alone"}, nil
		})
	fmt.Println(one)
	// Output:
	// loads 3
	// 1/2 <nil>
	// 3/4 <nil>
	//  singleflight: the key does not exist
	// 1/2
	// true
	// loaded alone
}

// A writer draws a token before its write. Its value is kept if nobody else has written meanwhile.
func ExampleCache_PutWith() {
	prices, err := singleflight.NewCache(1000, func(ctx context.Context, item string) (int, error) {
		return 5, nil
	})
	if err != nil {
		panic(err)
	}
	defer prices.Close()
	var token singleflight.Token[string] = prices.Token("bread")
	// The price is written to the origin. Another writer writes too, and forgets the key.
	prices.Forget("bread")
	fmt.Println(prices.PutWith(token, singleflight.Loaded[int]{Value: 4, Tags: []string{"food"}}))
	ctx := context.Background()
	price, stamp, _ := prices.GetStamped(ctx, "bread")
	fmt.Println(price)
	// It is found to be old, by two callers.
	var mine, others singleflight.ValueStamp = stamp, stamp
	fmt.Println(prices.ForgetIf("bread", mine))
	prices.Get(ctx, "bread")
	fmt.Println(prices.ForgetIf("bread", others))
	// Output:
	// false
	// 5
	// true
	// false
}

// What a cache has, and why values leave it.
func ExampleWithOnEvict() {
	squares, err := singleflight.NewCache(2, func(ctx context.Context, n int) (int, error) {
		return n * n, nil
	}, singleflight.WithOnEvict(func(n, square int, why singleflight.Reason) {
		switch why {
		case singleflight.ReasonRoom, singleflight.ReasonExpired, singleflight.ReasonReplaced:
			fmt.Println(n, "left:", why)
		case singleflight.ReasonForgotten, singleflight.ReasonClosed:
			fmt.Println(n, "left by a call:", why)
		}
	}))
	if err != nil {
		panic(err)
	}
	ctx := context.Background()
	for n := 1; n <= 3; n++ {
		squares.Get(ctx, n)
	}
	squares.Put(3, 9)
	squares.Forget(2)
	fmt.Println(squares.Len(), squares.Weight(), squares.Limit())
	if err := squares.Resize(10); err != nil {
		panic(err)
	}
	st := squares.Stats()
	for bucket := 0; bucket < singleflight.LoadTimeBuckets-1; bucket++ {
		if singleflight.LoadTimeBound(bucket) == time.Microsecond {
			fmt.Println("no load takes less than nothing:", st.LoadTimes[bucket] <= st.Loads)
		}
	}
	fmt.Println(st.Kept, st.Left, st.Evictions, st.Expirations, st.Refreshes, st.Stale)
	squares.Close()
	// Output:
	// 1 left: room
	// 3 left: replaced
	// 2 left by a call: forgotten
	// 1 1 2
	// no load takes less than nothing: true
	// 4 3 1 0 0 0
	// 3 left by a call: closed
}
