//go:build !linux || !(amd64 || arm64) || !gc || purego

package singleflight

func hasNoCalls(t *table) bool { return hasNoPlainCalls(t) }

// In plain Go the memory is the collector's.
func whenFreed(_ *table, freed chan<- struct{}) { close(freed) }

// tablesOf is of the library's group alone: plain Go has no tables.
func tablesOf(*table) uint64 { return 0 }
