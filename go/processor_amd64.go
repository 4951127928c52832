//go:build linux && gc && !purego

package singleflight

// Whether the processor has what the library's code may use.
func isRecent() bool
