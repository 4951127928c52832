//go:build linux && gc && !purego

package singleflight

// The library's code is for any processor of this kind.
func isRecent() bool { return true }
