// A program of another module; tools/check builds it with the package vendored.
package main

import (
	"fmt"

	"sf.example/singleflight"
)

func main() {
	var group singleflight.Group
	fmt.Println(group.Do("key", func() (any, error) { return "loaded", nil }))
}
