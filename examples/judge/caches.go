package main

import (
	"context"
	"errors"
	"fmt"
	"sort"

	"github.com/golang/groupcache"
	lru "github.com/hashicorp/golang-lru"
	theirs "golang.org/x/sync/singleflight"
	ours "sf.example/singleflight"
)

// A cache loads a missing key's value once for all callers that ask at that time, and forgets keys.
// The load function is called with the context of a Get that waits for it.
type cache interface {
	get(ctx context.Context, key string) (string, error)
	forget(key string)
}

type load func(ctx context.Context, key string) (string, error)

const entries = 1000

var programs = map[string]func(load) (cache, error){
	"xsync-lru":  newXSync,
	"groupcache": newGroupcache,
	"ours":       newOurs,
}

func names() (all []string) {
	for name := range programs {
		all = append(all, name)
	}
	sort.Strings(all)
	return all
}

// An LRU that is filled in the function of x/sync's Do.
type xSync struct {
	group  theirs.Group
	values *lru.Cache
	load   load
}

func newXSync(load load) (cache, error) {
	values, err := lru.New(entries)
	return &xSync{values: values, load: load}, err
}

func (c *xSync) get(ctx context.Context, key string) (string, error) {
	if value, ok := c.values.Get(key); ok {
		return value.(string), nil
	}
	value, err, _ := c.group.Do(key, func() (any, error) {
		value, err := c.load(ctx, key)
		if err == nil {
			c.values.Add(key, value)
		}
		return value, err
	})
	text, _ := value.(string)
	return text, err
}

func (c *xSync) forget(key string) {
	c.group.Forget(key)
	c.values.Remove(key)
}

// groupcache with a Remove: see testdata/remove.go.
type groupCache struct{ group *groupcache.Group }

type remover interface{ Remove(key string) }

func newGroupcache(load load) (cache, error) {
	group := groupcache.NewGroup("judged", 1<<20, groupcache.GetterFunc(
		func(ctx context.Context, key string, dest groupcache.Sink) error {
			value, err := load(ctx, key)
			if err != nil {
				return err
			}
			return dest.SetString(value)
		}))
	if _, ok := any(group).(remover); !ok {
		return nil, errors.New("this groupcache has no Remove: see ./run")
	}
	return groupCache{group}, nil
}

func (c groupCache) get(ctx context.Context, key string) (value string, err error) {
	err = c.group.Get(ctx, key, groupcache.StringSink(&value))
	return value, err
}

func (c groupCache) forget(key string) { any(c.group).(remover).Remove(key) }

// This repository's Cache.
type own struct{ *ours.Cache[string, string] }

func newOurs(load load) (cache, error) {
	values, err := ours.NewCache(entries, load)
	if err != nil {
		return nil, fmt.Errorf("ours: %w", err)
	}
	return own{values}, nil
}

func (c own) get(ctx context.Context, key string) (string, error) { return c.Get(ctx, key) }
func (c own) forget(key string)                                   { c.Forget(key) }
