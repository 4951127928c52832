// Package singleflight is groupcache's, over this one; tools/check runs groupcache's tests so.
package singleflight

import ours "sf.example/singleflight"

// Group has no call of its own beside Do.
type Group struct{ group ours.Group }

// Do returns what fn returns, for all who ask at one time.
func (g *Group) Do(key string, fn func() (any, error)) (any, error) {
	v, err, _ := g.group.Do(key, fn)
	return v, err
}
