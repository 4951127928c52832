package singleflight

import (
	"fmt"
	"hash/maphash"
	"math/bits"
	"reflect"
	"strconv"
	"unsafe"
)

// A keyKind tells how the keys of a cache are hashed, and by which names its calls know them. Two
// keys have one name only where the function of WithKey gives them the same bytes.
type keyKind[K comparable] struct {
	hash func(K) uint64
	name func(K) string
}

// isFindable tells whether a value that is kept under the key can be found again: not if the key does not equal itself, as NaN. Where
// the key cannot be compared, since an interface in it has a value that cannot, this panics. Nothing may be locked then, and each key
// comes here before its value is kept. So the keys in a table can be compared while its locks are held.
func isFindable[K comparable](key K) bool { return key == key }

// keyKindOf finds the kind of the type, which is the one of the function of WithKey if there is one.
func keyKindOf[K comparable](toBytes func(K) []byte) (kind keyKind[K], err error) {
	seed := maphash.MakeSeed()
	if toBytes != nil {
		return keyKind[K]{
			func(key K) uint64 { bytes := toBytes(key); return hash(seed, *(*string)(pointer(&bytes))) },
			func(key K) string { return string(toBytes(key)) },
		}, nil
	}
	of := reflect.TypeOf((*K)(nil)).Elem()
	switch {
	case of.Kind() == reflect.String:
		return keyKind[K]{
			func(key K) uint64 { return hash(seed, *(*string)(pointer(&key))) },
			func(key K) string { return *(*string)(pointer(&key)) },
		}, nil
	case of.Kind() == reflect.Array && widthOf(of.Elem().Kind()) > 0:
		name := func(key K) string {
			return string(unsafe.Slice((*byte)(pointer(&key)), unsafe.Sizeof(key)))
		}
		return keyKind[K]{func(key K) uint64 { return hash(seed, name(key)) }, name}, nil
	}
	width := widthOf(of.Kind())
	if width == 0 {
		return kind, fmt.Errorf("%w: keys of type %v need WithKey", ErrOption, of)
	}
	m := mixer{hash(seed, "first"), hash(seed, "second") | 1}
	number := readerOf[K](width)
	kind = keyKind[K]{
		func(key K) uint64 { return m.mix(number(key)) },
		func(key K) string { return strconv.FormatUint(number(key), 10) },
	}
	if width == 8 {
		// Without a call of a function of its own: these keys are the usual ones.
		kind.hash = func(key K) uint64 { return m.mix(*(*uint64)(pointer(&key))) }
	}
	return kind, nil
}

// A mixer hashes whole numbers.
type mixer struct{ first, second uint64 }

func (m *mixer) mix(number uint64) uint64 {
	high, low := bits.Mul64(number^m.first, m.second)
	return high ^ low
}

// widthOf returns how many bytes a number of this kind has, or 0 for what is no whole number.
func widthOf(kind reflect.Kind) uintptr {
	switch kind {
	case reflect.Int8, reflect.Uint8:
		return 1
	case reflect.Int16, reflect.Uint16:
		return 2
	case reflect.Int32, reflect.Uint32:
		return 4
	case reflect.Int64, reflect.Uint64:
		return 8
	case reflect.Int, reflect.Uint, reflect.Uintptr:
		return unsafe.Sizeof(uintptr(0))
	}
	return 0
}

// readerOf returns what reads a whole number of so many bytes.
func readerOf[K comparable](width uintptr) func(K) uint64 {
	switch width {
	case 1:
		return func(key K) uint64 { return uint64(*(*uint8)(pointer(&key))) }
	case 2:
		return func(key K) uint64 { return uint64(*(*uint16)(pointer(&key))) }
	case 4:
		return func(key K) uint64 { return uint64(*(*uint32)(pointer(&key))) }
	}
	return func(key K) uint64 { return *(*uint64)(pointer(&key)) }
}
