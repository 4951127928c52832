package groupcache

// Remove removes the key's value from the caches of this peer. groupcache has no such method; this
// is how forks of it add one.
func (g *Group) Remove(key string) {
	g.mainCache.remove(key)
	g.hotCache.remove(key)
}

func (c *cache) remove(key string) {
	c.mu.Lock()
	defer c.mu.Unlock()
	if c.lru != nil {
		c.lru.Remove(key)
	}
}
