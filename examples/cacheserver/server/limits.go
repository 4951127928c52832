package server

import (
	"log"
	"net"
	"sync"
	"time"
)

// A limited listener has so many connections at one time, so that strangers leave descriptors for the
// peers and the origin. More wait in the kernel's queue.
type limited struct {
	net.Listener
	free chan struct{}
}

func limit(l net.Listener, most int) net.Listener {
	return limited{l, make(chan struct{}, most)}
}

// Accept waits for one of the connections to end where there are as many as there may be.
func (l limited) Accept() (net.Conn, error) {
	l.free <- struct{}{}
	c, err := l.Listener.Accept()
	if err != nil {
		<-l.free
		return nil, err
	}
	return &counted{Conn: c, free: l.free}, nil
}

type counted struct {
	net.Conn
	once sync.Once
	free chan struct{}
}

// Close gives the place to another connection.
func (c *counted) Close() error {
	err := c.Conn.Close()
	c.once.Do(func() { <-c.free })
	return err
}

// mostRefused is how many refused requests are logged per second.
const mostRefused = 10

// refusals logs what is refused, up to a bound.
type refusals struct {
	mu    sync.Mutex
	since time.Time
	count int // since then
}

func (r *refusals) note(now time.Time, what string) {
	r.mu.Lock()
	defer r.mu.Unlock()
	if now.Sub(r.since) >= time.Second {
		if r.count > mostRefused {
			log.Printf("%d more requests were refused", r.count-mostRefused)
		}
		r.since, r.count = now, 0
	}
	if r.count++; r.count <= mostRefused {
		log.Print(what)
	}
}
