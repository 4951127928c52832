package singleflight_test

import (
	"bytes"
	"context"
	"errors"
	"fmt"

	"sf.example/singleflight"
)

func ExampleOf_Record() {
	ctx := context.Background()
	var users singleflight.Of[string, string]
	defer users.Close()
	log := new(bytes.Buffer) // a file, in a server
	recording, err := users.Record(log)
	if err != nil {
		panic(err)
	}
	// The server serves.
	users.Do(ctx, "user-7", func(context.Context) (string, error) { return "Ada", nil })
	users.Forget("user-7")
	recorded, err := recording.Stop()
	fmt.Println(recorded.Events, recorded.Lost, err)

	line, _ := log.ReadString('\n')
	fmt.Print(line)
	// Output:
	// 4 0 <nil>
	// {"format":4,"lost":0}
}

func ExampleCache_Record() {
	ctx := context.Background()
	users, err := singleflight.NewCache(10_000, func(ctx context.Context, key string) (string, error) { return "Ada", nil })
	if err != nil {
		panic(err)
	}
	defer users.Close()
	log := new(bytes.Buffer) // a file, in a server
	recording, err := users.Record(log)
	if err != nil {
		panic(err)
	}
	// The server serves.
	users.Get(ctx, "user-7")
	users.Get(ctx, "user-7")
	users.Forget("user-7")
	recorded, err := recording.Stop()
	fmt.Println(recorded.Events, recorded.Lost, recorded.Evictions, err)
	// Output:
	// 5 0 0 <nil>
}

func ExampleRecording() {
	var group singleflight.Group
	defer group.Close()
	recording, err := group.Record(new(bytes.Buffer))
	if err != nil {
		panic(err)
	}
	_, err = group.Record(new(bytes.Buffer))
	fmt.Println(errors.Is(err, singleflight.ErrRecording))
	var all singleflight.Recorded
	all, err = recording.Stop()
	fmt.Println(all.Events, all.Lost, err)
	// Output:
	// true
	// 0 0 <nil>
}
