package peers

import (
	"context"
	"errors"
	"fmt"
	"os"
	"path/filepath"
	"strconv"
	"strings"
	"sync"
	"time"
)

// Coordinator says which processes are the pool. Static is a fixed list. Package etcd has a list
// that all peers agree on, with leases.
type Coordinator interface {
	// Join makes the process that calls it a member under the name self, with a start that is
	// greater than after and than that of each earlier process of the name. It blocks until no
	// earlier process of that name can be a member. It returns an error if the context ends before
	// that.
	Join(ctx context.Context, self string, after uint64) (Membership, error)
	// Close ends what the Coordinator began. No membership is used after Close.
	Close() error
}

// Noticer is a Coordinator that has something to say to an operator: Notice returns it, or an empty
// text. HealthHandler shows it.
type Noticer interface{ Notice() string }

// Membership is the part of one process in the pool.
type Membership interface {
	// Start returns the number of the process.
	Start() uint64
	// Members returns the members that are known here, this one among them.
	Members() []Member
	// Refresh returns once Members has each that was a member when Refresh was called.
	Refresh(ctx context.Context) error
	// Changed returns a channel that receives after Members or Kept have changed.
	Changed() <-chan struct{}
	// Until returns the time at which the membership ends unless it is renewed, by this machine's
	// clock; or the zero time if it has no lease.
	Until() time.Time
	// Done returns a channel that is closed when the membership has ended.
	Done() <-chan struct{}
	// Keep stores a Forget for the members that have not acknowledged it, under a name of its own,
	// which begins with the start of its process and a hyphen. It returns ErrNotKept if the Coordinator stores nothing.
	Keep(ctx context.Context, id string, forget []byte) error
	// Kept returns the stored Forgets.
	Kept() map[string][]byte
	// Drop removes the stored Forgets of these ids.
	Drop(ctx context.Context, ids ...string) error
	// Leave ends the membership at once.
	Leave(ctx context.Context) error
}

// Member is a process that is a member of the pool.
type Member struct {
	Name  string `json:"name"`
	Start uint64 `json:"start,omitempty"` // 0 if the Coordinator does not know it
}

// ErrNotKept is returned by a Coordinator that stores no Forgets.
var ErrNotKept = errors.New("peers: this Coordinator keeps no Forgets")

// Static is the Coordinator of a list that stands in each peer's configuration. It has no leases:
// while a peer is dead, each Forget returns an *Unanswered that names it.
type Static struct {
	// File keeps the start of the last process, so that starts grow even if the clock goes back.
	// Without it only the other peers remember that start.
	File string

	mu   sync.Mutex
	list []Member
}

// NewStatic returns the Coordinator of these peers.
func NewStatic(peers ...string) *Static {
	s := &Static{}
	s.set(peers)
	return s
}

func (s *Static) set(peers []string) {
	s.mu.Lock()
	defer s.mu.Unlock()
	s.list = nil
	for _, peer := range peers {
		s.list = append(s.list, Member{Name: peer})
	}
}

func (s *Static) names() (names []string) {
	s.mu.Lock()
	defer s.mu.Unlock()
	for _, m := range s.list {
		names = append(names, m.Name)
	}
	return names
}

// Close does nothing.
func (s *Static) Close() error { return nil }

// Join takes the time in nanoseconds as the start, or a later number if that is needed.
func (s *Static) Join(ctx context.Context, self string, after uint64) (Membership, error) {
	start := uint64(time.Now().UnixNano())
	if start <= after {
		start = after + 1
	}
	if s.File != "" {
		last, err := readStart(s.File)
		if err != nil {
			return nil, err
		}
		if start <= last {
			start = last + 1
		}
		if err := writeStart(s.File, start); err != nil {
			return nil, err
		}
	}
	return staticMember{s, start}, nil
}

func readStart(path string) (uint64, error) {
	text, err := os.ReadFile(path)
	if errors.Is(err, os.ErrNotExist) {
		return 0, nil
	}
	if err != nil {
		return 0, fmt.Errorf("peers: the file of the last start: %w", err)
	}
	start, err := strconv.ParseUint(strings.TrimSpace(string(text)), 10, 64)
	if err != nil || start > mostNumber {
		return 0, fmt.Errorf("peers: the file of the last start has no number: %s", path)
	}
	return start, nil
}

// writeStart replaces the file in one step, and returns once it is on the disk.
func writeStart(path string, start uint64) (err error) {
	next, err := os.CreateTemp(filepath.Dir(path), filepath.Base(path)+".*")
	if err != nil {
		return fmt.Errorf("peers: the file of the last start: %w", err)
	}
	defer func() {
		if err != nil {
			os.Remove(next.Name())
			err = fmt.Errorf("peers: the file of the last start: %w", err)
		}
	}()
	_, err = fmt.Fprintln(next, start)
	if err == nil {
		err = next.Sync()
	}
	if closed := next.Close(); err == nil {
		err = closed
	}
	if err == nil {
		err = os.Rename(next.Name(), path)
	}
	return err
}

type staticMember struct {
	*Static
	start uint64
}

func (m staticMember) Start() uint64 { return m.start }

func (m staticMember) Members() []Member {
	m.mu.Lock()
	defer m.mu.Unlock()
	return append([]Member(nil), m.list...)
}

func (m staticMember) Refresh(context.Context) error              { return nil }
func (m staticMember) Changed() <-chan struct{}                   { return nil }
func (m staticMember) Until() time.Time                           { return time.Time{} }
func (m staticMember) Done() <-chan struct{}                      { return nil }
func (m staticMember) Keep(context.Context, string, []byte) error { return ErrNotKept }
func (m staticMember) Kept() map[string][]byte                    { return nil }
func (m staticMember) Drop(context.Context, ...string) error      { return nil }
func (m staticMember) Leave(context.Context) error                { return nil }
