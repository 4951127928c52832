package server

import (
	"bytes"
	"context"
	"crypto/tls"
	"fmt"
	"io"
	"log"
	"net"
	"net/http"
	"net/http/httptest"
	"os"
	"strings"
	"sync"
	"sync/atomic"
	"testing"
	"time"

	"cacheserver.example/internal/testcert"
	"github.com/golang/groupcache"
)

// The public connections are bounded, and each that waits is answered in the end.
func TestConnectionsAreLimited(t *testing.T) {
	const most = 5
	var open, top atomic.Int64
	held := make(chan bool)
	server := httptest.NewUnstartedServer(http.HandlerFunc(func(w http.ResponseWriter, r *http.Request) {
		if now := open.Add(1); now > top.Load() {
			top.Store(now)
		}
		<-held
		open.Add(-1)
	}))
	server.Listener = limit(server.Listener, most)
	server.Start()
	defer server.Close()
	client := &http.Client{Transport: &http.Transport{DisableKeepAlives: true}}
	var all sync.WaitGroup
	for i := 0; i < 4*most; i++ {
		all.Add(1)
		go func() {
			defer all.Done()
			got, err := client.Get(server.URL)
			if err != nil {
				t.Error(err)
				return
			}
			got.Body.Close()
		}()
	}
	for open.Load() < most {
		time.Sleep(time.Millisecond)
	}
	time.Sleep(50 * time.Millisecond)
	close(held)
	all.Wait()
	if top.Load() != most {
		t.Errorf("%d connections at one time, of %d", top.Load(), most)
	}
}

// Loads have a bounded number of connections to the origin.
func TestConnectionsToTheOriginAreLimited(t *testing.T) {
	var open, top atomic.Int64
	origin := httptest.NewServer(http.HandlerFunc(func(w http.ResponseWriter, r *http.Request) {
		if now := open.Add(1); now > top.Load() {
			top.Store(now)
		}
		time.Sleep(50 * time.Millisecond)
		open.Add(-1)
	}))
	defer origin.Close()
	getter, err := load(origin.URL)
	if err != nil {
		t.Fatal(err)
	}
	var all sync.WaitGroup
	for i := 0; i < 3*mostConnections; i++ {
		i := i
		all.Add(1)
		go func() {
			defer all.Done()
			var page []byte
			if err := getter.Get(context.Background(), fmt.Sprint("/", i), groupcache.AllocatingByteSliceSink(&page)); err != nil {
				t.Error(err)
			}
		}()
	}
	all.Wait()
	if top.Load() > mostConnections {
		t.Errorf("%d connections at one time, of %d", top.Load(), mostConnections)
	}
}

func TestRefusedPurgesAreLogged(t *testing.T) {
	var lines bytes.Buffer
	log.SetOutput(&lines)
	defer log.SetOutput(os.Stderr)
	s := &server{}
	for i := 0; i < 1000; i++ {
		r := httptest.NewRequest("PURGE", "/x", nil)
		r.RemoteAddr = "192.0.2.7:1234"
		w := httptest.NewRecorder()
		if s.ServeHTTP(w, r); w.Code != http.StatusForbidden {
			t.Fatalf("a PURGE from no network: %d", w.Code)
		}
	}
	if n := strings.Count(lines.String(), "192.0.2.7:1234"); n < 1 || n > 5*mostRefused {
		t.Errorf("%d lines of 1,000 requests", n)
	}
	if all, err := (&Flags{}).networks(); err != nil || len(all) != 0 {
		t.Errorf("-purge-from '': %v, %v", all, err)
	}
	lines.Reset()
	r := refusals{}
	now := time.Now()
	for i := 0; i < mostRefused+7; i++ {
		r.note(now, "refused")
	}
	r.note(now.Add(time.Second), "refused")
	if !strings.Contains(lines.String(), "7 more requests were refused") {
		t.Errorf("%s", lines.String())
	}
}

func TestTLSFiles(t *testing.T) {
	cert, key := testcert.Write(t)
	other, _ := testcert.Write(t)
	if c, err := (&TLSFiles{}).Config(); c != nil || err != nil {
		t.Errorf("without TLS: %v, %v", c, err)
	}
	for _, bad := range []TLSFiles{{Cert: cert, Key: key}, {CA: cert, Cert: cert}, {CA: cert, Key: key}, {CA: key}, {CA: "none"},
		{CA: cert, Cert: key, Key: cert}} {
		if _, err := bad.Config(); err == nil {
			t.Errorf("%+v is taken", bad)
		}
	}
	config, err := (&TLSFiles{CA: cert, Cert: cert, Key: key}).Config()
	if err != nil {
		t.Fatal(err)
	}
	l, err := net.Listen("tcp", "127.0.0.1:0")
	if err != nil {
		t.Fatal(err)
	}
	server := &http.Server{Handler: http.NotFoundHandler(), ErrorLog: log.New(io.Discard, "", 0)}
	go server.Serve(tls.NewListener(l, config))
	defer server.Close()
	get := func(scheme string, c *tls.Config) error {
		got, err := (&http.Client{Transport: &http.Transport{TLSClientConfig: c}}).Get(scheme + "://" + l.Addr().String())
		if err == nil {
			defer got.Body.Close()
			if got.StatusCode != http.StatusNotFound {
				err = fmt.Errorf("%s", got.Status)
			}
		}
		return err
	}
	if err := get("https", config); err != nil {
		t.Errorf("a peer: %v", err)
	}
	if err := get("http", nil); err == nil {
		t.Error("a request without TLS is answered")
	}
	another, err := (&TLSFiles{CA: other}).Config()
	if err != nil {
		t.Fatal(err)
	}
	if err := get("https", another); err == nil {
		t.Error("a server of another authority is taken")
	}
}
