// Package server is a cache of an origin's pages on several machines: cacheserver with a fixed list
// of peers, and withetcd with etcd's.
package server

import (
	"context"
	"crypto/tls"
	"errors"
	"flag"
	"fmt"
	"io"
	"log"
	"net"
	"net/http"
	"net/url"
	"os"
	"os/signal"
	"strconv"
	"strings"
	"sync/atomic"
	"syscall"
	"time"

	"github.com/golang/groupcache"
	"sf.example/singleflight/peers"
)

const (
	mostPage = 1 << 20 // bytes of a page
	// To the origin: a load waits for one of them.
	mostConnections = 128
	originFor       = 10 * time.Second
	stopFor         = 20 * time.Second
)

var (
	errNone   = shown("the origin has no such page")
	errOrigin = shown("the origin did not answer")
	errBusy   = shown("too many requests wait for pages")
	errTarget = shown("a page has a path that begins with a slash")
)

// A shown error is one whose text readers may see: it holds no address.
type shown string

func (s shown) Error() string { return string(s) }

// target returns the URL of a key at the origin. A key is a path with its query, and no other form
// of a request's target: "x:@inside/path" after the origin's address would be a URL of another host.
func target(origin *url.URL, key string) (*url.URL, error) {
	at, err := url.ParseRequestURI(key)
	if err != nil || !isPath(at) {
		return nil, errTarget
	}
	to := *origin
	to.Path, to.RawPath = origin.Path+at.Path, origin.EscapedPath()+at.EscapedPath()
	to.RawQuery, to.ForceQuery = at.RawQuery, at.ForceQuery
	return &to, nil
}

func isPath(at *url.URL) bool {
	return at.Scheme == "" && at.Opaque == "" && at.Host == "" && at.User == nil && strings.HasPrefix(at.Path, "/")
}

// load gets a page from the origin: from no other address, so it follows no redirect.
func load(origin string) (groupcache.GetterFunc, error) {
	base, err := url.Parse(origin)
	if err != nil || base.Scheme != "http" && base.Scheme != "https" || base.Host == "" || base.RawQuery != "" ||
		base.Fragment != "" || strings.HasSuffix(origin, "/") {
		return nil, fmt.Errorf("-origin is no base URL like http://host:9000: %q", origin)
	}
	connections := http.DefaultTransport.(*http.Transport).Clone()
	connections.MaxConnsPerHost, connections.MaxIdleConnsPerHost = mostConnections, mostConnections
	client := &http.Client{Transport: connections, Timeout: originFor, CheckRedirect: func(*http.Request, []*http.Request) error { return http.ErrUseLastResponse }}
	return func(ctx context.Context, key string, dest groupcache.Sink) error {
		at, err := target(base, key)
		if err != nil {
			return err
		}
		request, err := http.NewRequestWithContext(ctx, http.MethodGet, base.String(), nil)
		if err != nil {
			log.Print(err)
			return errOrigin
		}
		request.URL = at
		got, err := client.Do(request)
		if err != nil {
			log.Print(err)
			return errOrigin
		}
		defer got.Body.Close()
		if got.StatusCode == http.StatusNotFound {
			return errNone
		}
		if got.StatusCode != http.StatusOK {
			return shown(fmt.Sprintf("the origin answers %d %s", got.StatusCode, http.StatusText(got.StatusCode)))
		}
		page, err := io.ReadAll(io.LimitReader(got.Body, mostPage+1))
		if err != nil {
			log.Print(err)
			return errOrigin
		}
		if len(page) > mostPage {
			return shown(fmt.Sprintf("the page has more than %d bytes", mostPage))
		}
		return dest.SetBytes(page)
	}, nil
}

type server struct {
	pool     *peers.Pool
	pages    *peers.Cache
	refused  refusals
	purger   []*net.IPNet // from where a PURGE is taken
	purgeFor time.Duration
	most     int64 // GETs that run at one time
	running  atomic.Int64
}

// ServeHTTP takes a page's path, with its query, as its key.
func (s *server) ServeHTTP(w http.ResponseWriter, r *http.Request) {
	key := r.RequestURI
	if at, err := url.ParseRequestURI(key); err != nil || !isPath(at) {
		http.Error(w, errTarget.Error(), http.StatusBadRequest)
		return
	}
	switch r.Method {
	case http.MethodGet, http.MethodHead:
		if s.running.Add(1) > s.most {
			s.running.Add(-1)
			refuse(w, errBusy)
			return
		}
		defer s.running.Add(-1)
		var page groupcache.ByteView
		if err := s.pages.Get(r.Context(), key, groupcache.ByteViewSink(&page)); err != nil {
			refuse(w, err)
			return
		}
		w.Header().Set("Content-Length", strconv.Itoa(page.Len()))
		if r.Method == http.MethodGet {
			page.WriteTo(w)
		}
	case "PURGE":
		if !s.mayPurge(r) {
			s.refused.note(time.Now(), fmt.Sprintf("a PURGE that is refused: %s", r.RemoteAddr))
			http.Error(w, "no PURGE from this address", http.StatusForbidden)
			return
		}
		ctx, cancel := context.WithTimeout(r.Context(), s.purgeFor)
		defer cancel()
		if err := s.pages.Forget(ctx, key); err != nil {
			refuse(w, err)
			return
		}
		fmt.Fprintln(w, "purged")
	default:
		w.Header().Set("Allow", "GET, HEAD, PURGE")
		http.Error(w, "GET, HEAD or PURGE", http.StatusMethodNotAllowed)
	}
}

func (s *server) mayPurge(r *http.Request) bool {
	host, _, _ := net.SplitHostPort(r.RemoteAddr)
	for _, from := range s.purger {
		if from.Contains(net.ParseIP(host)) {
			return true
		}
	}
	return false
}

// refuse tells the reader what went wrong, without addresses, and the log the rest.
func refuse(w http.ResponseWriter, err error) {
	var unanswered *peers.Unanswered
	var text shown
	code := http.StatusBadGateway
	switch {
	case errors.Is(err, errNone):
		code = http.StatusNotFound
	case errors.Is(err, peers.ErrKeyTooLong):
		code = http.StatusRequestURITooLong
	case errors.As(err, &unanswered):
		code = http.StatusGatewayTimeout
		for _, peer := range unanswered.Peers {
			log.Printf("%v: %s: %v", err, peer.Peer, peer.Err)
		}
	case err == errBusy, errors.Is(err, context.DeadlineExceeded), errors.Is(err, context.Canceled), errors.Is(err, peers.ErrClosed),
		errors.Is(err, peers.ErrNoLease), errors.Is(err, peers.ErrReplaced):
		code = http.StatusServiceUnavailable
		w.Header().Set("Retry-After", "1")
	case !errors.As(err, &text):
		log.Print(err)
		err = errOrigin
	}
	http.Error(w, err.Error(), code)
}

func (s *server) metrics(w http.ResponseWriter, r *http.Request) {
	g, p := &s.pages.Group().Stats, s.pool.Stats()
	main, hot := s.pages.Group().CacheStats(groupcache.MainCache), s.pages.Group().CacheStats(groupcache.HotCache)
	for _, m := range []struct {
		name  string
		value int64
	}{
		{"gets_total", g.Gets.Get()}, {"cache_hits_total", g.CacheHits.Get()}, {"loads_total", g.Loads.Get()},
		{"loads_deduped_total", g.LoadsDeduped.Get()}, {"peer_loads_total", g.PeerLoads.Get()}, {"peer_errors_total", g.PeerErrors.Get()},
		{"local_loads_total", g.LocalLoads.Get()}, {"local_load_errors_total", g.LocalLoadErrs.Get()},
		{"main_cache_bytes", main.Bytes}, {"hot_cache_bytes", hot.Bytes},
		{"purges_total", int64(p.Forgets)}, {"purges_unanswered_total", int64(p.Unanswered)}, {"forgotten_keys", int64(p.Keys)},
		{"forgot_buckets_total", int64(p.Buckets)}, {"forgot_all_total", int64(p.Alls)}, {"strangers_total", int64(p.Strangers)},
	} {
		fmt.Fprintf(w, "cacheserver_%s %d\n", m.name, m.value)
	}
}

// Flags are those of both programs.
type Flags struct {
	Listen, PeersListen, Self, KeyFile, Origin, PurgeFrom string
	PeersTLS                                              TLSFiles
	Bytes, Most                                           int64
	Connections                                           int
	TTL, PurgeFor                                         time.Duration
}

// Define defines them.
func (f *Flags) Define() {
	flag.StringVar(&f.Listen, "listen", "127.0.0.1:8000", "the public address to listen at")
	flag.StringVar(&f.PeersListen, "peers-listen", "127.0.0.1:8001", "the address for peers, metrics and health checks to listen at")
	flag.StringVar(&f.Self, "self", "http://127.0.0.1:8001", "the base URL at which the others reach that")
	flag.StringVar(&f.KeyFile, "key-file", "", "a file with the secret that all peers share, of at least 16 bytes")
	flag.StringVar(&f.Origin, "origin", "http://127.0.0.1:9000", "the origin's base URL")
	flag.StringVar(&f.PurgeFrom, "purge-from", "127.0.0.0/8,::1/128", "the networks from which a PURGE is taken; none if it is empty, as behind a proxy")
	f.PeersTLS.Define("peers", "between peers, who then have https in -self and -peers")
	flag.Int64Var(&f.Bytes, "bytes", 64<<20, "the bytes of pages and keys to cache")
	flag.Int64Var(&f.Most, "most", 1000, "the requests for pages that run at one time; more get 503")
	flag.IntVar(&f.Connections, "connections", 2000, "the public connections at one time; more wait")
	flag.DurationVar(&f.PurgeFor, "purge-for", 10*time.Second, "how long a PURGE waits for the other peers")
	flag.DurationVar(&f.TTL, "ttl", 0, "how old a page may get without a PURGE; 0 is for ever")
}

func (f *Flags) key() ([]byte, error) {
	if f.KeyFile == "" {
		return nil, errors.New("-key-file is needed: head -c 32 /dev/urandom | base64 >FILE makes one, the same for all peers")
	}
	key, err := os.ReadFile(f.KeyFile)
	return []byte(strings.TrimSpace(string(key))), err
}

func (f *Flags) networks() (all []*net.IPNet, err error) {
	if f.PurgeFrom == "" {
		return nil, nil
	}
	for _, text := range strings.Split(f.PurgeFrom, ",") {
		_, network, err := net.ParseCIDR(text)
		if err != nil {
			return nil, fmt.Errorf("-purge-from: %w", err)
		}
		all = append(all, network)
	}
	return all, nil
}

// Run serves until the process gets an interrupt or SIGTERM. Then it leaves the pool, and returns
// once what was asked is answered.
func (f *Flags) Run(o peers.Options) error {
	key, err := f.key()
	if err != nil {
		return err
	}
	getter, err := load(f.Origin)
	if err != nil {
		return err
	}
	config, err := f.PeersTLS.Config()
	if err != nil {
		return err
	}
	if config != nil && len(config.Certificates) == 0 {
		return errors.New("-peers-ca needs -peers-cert and -peers-key")
	}
	if f.Connections < 1 {
		return errors.New("-connections is 1 or more")
	}
	s := &server{purgeFor: f.PurgeFor, most: f.Most}
	if s.purger, err = f.networks(); err != nil {
		return err
	}
	o.Self, o.Keys, o.TLS = f.Self, [][]byte{key}, config
	o.Log = func(msg string, args ...interface{}) { log.Print(msg, " ", fmt.Sprint(args...)) }
	if s.pool, err = peers.New(o); err != nil {
		return err
	}
	var options []peers.CacheOption
	if f.TTL > 0 {
		options = append(options, peers.WithTTL(f.TTL))
	}
	if s.pages, err = s.pool.Cache("pages", f.Bytes, getter, options...); err != nil {
		return err
	}
	public := &http.Server{Handler: s, ReadHeaderTimeout: 5 * time.Second, ReadTimeout: originFor,
		WriteTimeout: 6 * originFor, IdleTimeout: time.Minute, MaxHeaderBytes: 32 << 10}
	inner := s.pool.Server()
	mux := http.NewServeMux()
	mux.Handle("/_groupcache/", s.pool)
	mux.Handle("/_forget", s.pool)
	mux.HandleFunc("/metrics", s.metrics)
	mux.Handle("/healthz", s.pool.HealthHandler())
	mux.Handle("/readyz", s.pool.ReadyHandler())
	inner.Handler, inner.TLSConfig = mux, config
	return f.serve(s.pool, public, inner)
}

func (f *Flags) serve(pool *peers.Pool, public, inner *http.Server) error {
	outside, err := net.Listen("tcp", f.Listen)
	if err != nil {
		return err
	}
	inside, err := net.Listen("tcp", f.PeersListen)
	if err != nil {
		return err
	}
	failed := make(chan error, 2)
	if inner.TLSConfig != nil {
		inside = tls.NewListener(inside, inner.TLSConfig)
	}
	go func() { failed <- public.Serve(limit(outside, f.Connections)) }()
	go func() { failed <- inner.Serve(inside) }()
	end := make(chan os.Signal, 1)
	signal.Notify(end, os.Interrupt, syscall.SIGTERM)
	select {
	case err := <-failed:
		return err
	case <-end:
	}
	ctx, cancel := context.WithTimeout(context.Background(), stopFor)
	defer cancel()
	// Readers first: their pages may need the other peers. Then the others, whose loads run here.
	if err := public.Shutdown(ctx); err != nil {
		log.Print("shutting down: ", err)
	}
	if err := pool.Leave(ctx); err != nil {
		log.Print("leaving: ", err)
	}
	return inner.Shutdown(ctx)
}
