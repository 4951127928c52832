//go:build linux && amd64 && gc && !purego

package singleflight

import (
	"context"
	"errors"
	"os"
	"testing"
)

// Where SFLIGHT_OLD_PROCESSOR says so, the emulated processor is below x86-64-v2, and else it is not.
func TestOldProcessor(t *testing.T) {
	if old := os.Getenv("SFLIGHT_OLD_PROCESSOR") != ""; isOld != old {
		t.Fatalf("the processor is old: %t, not %t", isOld, old)
	}
	was := isOld
	isOld = true
	defer func() { isOld = was }()
	if _, err := NewGroup(); !errors.Is(err, ErrProcessor) {
		t.Errorf("NewGroup: %v", err)
	}
	load := func(context.Context, string) (int, error) { return 7, nil }
	if _, err := NewCache(10, load); !errors.Is(err, ErrProcessor) {
		t.Errorf("NewCache: %v", err)
	}
	// The zero Group runs plain Go.
	var g Group
	v, err, shared := g.Do("key", func() (any, error) { return 7, nil })
	if v != 7 || err != nil || shared {
		t.Errorf("Do: %v, %v, %t", v, err, shared)
	}
	if err := g.Err(); !errors.Is(err, ErrProcessor) {
		t.Errorf("Err: %v", err)
	}
}
