package peers

import (
	"context"
	"fmt"
	"net/http"
	"time"
)

// HealthHandler responds with 200 while this process is worth keeping. It responds with 503 once
// the process has to be restarted: the pool is closed, or another process has this peer's name. With
// 200 it adds what a Noticer among the Coordinators has to say.
func (p *Pool) HealthHandler() http.Handler {
	return http.HandlerFunc(func(w http.ResponseWriter, r *http.Request) {
		err := p.node.session.Load().failure()
		if p.node.isClosed.Load() {
			err = ErrClosed
		}
		tell(w, err)
		if noticer, ok := p.node.coordinator.(Noticer); ok && err == nil {
			if text := noticer.Notice(); text != "" {
				fmt.Fprintln(w, text)
			}
		}
	})
}

// ReadyHandler responds with 200 while Gets are served here, and with 503 and the reason while they
// are not: this peer begins, leaves, or has no lease, or others do not have it on their lists.
func (p *Pool) ReadyHandler() http.Handler {
	return http.HandlerFunc(func(w http.ResponseWriter, r *http.Request) {
		ctx, cancel := context.WithTimeout(r.Context(), readyFor)
		defer cancel()
		tell(w, p.Ready(ctx))
	})
}

const readyFor = 100 * time.Millisecond

func tell(w http.ResponseWriter, err error) {
	w.Header().Set("Content-Type", "text/plain; charset=utf-8")
	w.Header().Set("Cache-Control", "no-store")
	switch err {
	case nil:
		fmt.Fprintln(w, "ok")
	case context.DeadlineExceeded, context.Canceled:
		w.WriteHeader(http.StatusServiceUnavailable)
		fmt.Fprintln(w, "peers: this peer learns what it missed")
	default:
		w.WriteHeader(http.StatusServiceUnavailable)
		fmt.Fprintln(w, err)
	}
}

// failure returns why the session will never be ready, or nil.
func (s *session) failure() error {
	if is(s.over) {
		return s.failed
	}
	return nil
}
