//go:build asan

package singleflight

const isAddressSanitized = true
