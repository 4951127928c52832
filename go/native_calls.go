//go:build linux && (amd64 || arm64) && gc && !purego

package singleflight

// The library's code, at which no Go code may point: calls_GOARCH.s knows where in it the calls below stand.
func library()

// The allocator's sixteen shards of 256 bytes, which begin at a multiple of 128: memory.c asserts that they fit.
const libraryMemoryBytes = 16*256 + 128

// The memory of the library's allocator, which begins anywhere in it: see memory.c.
var libraryMemory [libraryMemoryBytes]byte

//go:noescape
func cOpen(h *handle, cells, seed0, seed1 uint64) uint32

//go:noescape
func cSplit(h, other *handle) uint32

//go:noescape
func cClose(h *handle)

//go:noescape
func cMake(h *handle, c *cCall) uint32

//go:noescape
func cFree(h *handle, c *cCall) uint32

// cAsk asks for a.key with the call a.own. The library writes a.asked.
//
//go:noescape
func cAsk(h *handle, a *asking) uint32

// cSettle settles the call a.own. The library writes h.told.
//
//go:noescape
func cSettle(h *handle, a *asking) uint32

// cLeave lets go of the call. The library writes h.value.
//
//go:noescape
func cLeave(h *handle, c *cCall) uint32

// cForget forgets the key. The library writes h.id.
//
//go:noescape
func cForget(h *handle, key string) uint32

//go:noescape
func cForgetCall(h *handle, key string, id *callID, stamp *words) uint32

//go:noescape
func cIsStill(h *handle, stamp *words) bool

//go:noescape
func cGrow(h *handle) uint32

//go:noescape
func cMeasure(h *handle, size *cSize) uint32
