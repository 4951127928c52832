package peers

import (
	"bufio"
	"bytes"
	"context"
	"crypto/ecdsa"
	"crypto/elliptic"
	"crypto/rand"
	"crypto/tls"
	"crypto/x509"
	"encoding/base64"
	"encoding/json"
	"errors"
	"fmt"
	"io"
	"log"
	"math/big"
	"net"
	"net/http"
	"net/http/httptest"
	"net/url"
	"runtime"
	"strings"
	"sync"
	"sync/atomic"
	"testing"
	"time"

	"github.com/golang/groupcache"
)

func TestSignatures(t *testing.T) {
	now := time.Unix(1_700_000_000, 0)
	ours, other := keys{[]byte("the first key"), []byte("the last key")}, keys{[]byte("another's key")}
	parts := func(text ...string) (all [][]byte) {
		for _, part := range text {
			all = append(all, []byte(part))
		}
		return all
	}
	text := ours.sign(now, parts("GET", "/x")...)
	for _, c := range []struct {
		name  string
		by    keys
		text  string
		at    time.Time
		parts [][]byte
		want  error
	}{
		{"as it is", ours, text, now, parts("GET", "/x"), nil},
		{"the key is the second one there", keys{[]byte("new"), []byte("the first key")}, text, now, parts("GET", "/x"), nil},
		{"another key", other, text, now, parts("GET", "/x"), errSignature},
		{"another method", ours, text, now, parts("PUT", "/x"), errSignature},
		{"parts that run into another", ours, text, now, parts("GET/", "x"), errSignature},
		{"one part less", ours, text, now, parts("GET"), errSignature},
		{"another time", ours, "1" + text, now, parts("GET", "/x"), errSignature},
		{"cut short", ours, text[:len(text)-1], now, parts("GET", "/x"), errSignature},
		{"none", ours, "", now, parts("GET", "/x"), errSignature},
		{"points alone", ours, "..", now, parts("GET", "/x"), errSignature},
		{"as old as it may be", ours, text, now.Add(MostSkew), parts("GET", "/x"), nil},
		{"older", ours, text, now.Add(MostSkew + 1), parts("GET", "/x"), errSkew},
		{"from the future", ours, text, now.Add(-MostSkew - 1), parts("GET", "/x"), errSkew},
	} {
		if err := c.by.verify(c.at, c.text, c.parts...); err != c.want {
			t.Errorf("%s: %v", c.name, err)
		}
	}
	// By Python's hmac: HMAC-SHA256 of the part's length in 8 bytes and the part, with the first
	// key of RFC 4231.
	if got := fmt.Sprintf("%x", mac([]byte(strings.Repeat("\x0b", 20)), []byte("Hi There"))); got !=
		"70454c00e162637b41588d34d6e73e7ab2fb58fdde827b1e084ecaeb378dca60" {
		t.Errorf("the HMAC of one part is %s", got)
	}
	if ours.sign(now, parts("x")...) == ours.sign(now, parts("x")...) {
		t.Error("two signatures at one time are the same")
	}
}

// A stranger's requests do nothing, and neither does a request for one peer at another.
func TestStrangersChangeNothing(t *testing.T) {
	m := newMesh()
	a, b, _ := beginAll(t, m, time.Minute)
	before := a.versions.since(0, 1<<20, nil)
	forged := []byte(`{"from":"b","start":1,"to":"a","number":{"start":1,"count":1},"items":[{"of":3}]}`)
	stranger := keys{[]byte("the key of a stranger")}
	for name, request := range map[string][]byte{
		"without a signature": forged, "with another key": stranger.seal(sealRequest, []byte("a"), forged),
		"for another peer": a.keys.seal(sealRequest, []byte("b"), forged), "of another kind": a.keys.seal(sealReply, []byte("a"), forged),
		"another body": append(a.keys.seal(sealRequest, []byte("a"), forged[:len(forged)-1]), ' '),
		"nothing":      {}, "a line": []byte("\n"), "a long line": []byte(strings.Repeat("x", 1000) + "\n"),
	} {
		if got := a.answer(request); got != nil {
			t.Errorf("%s: %s", name, got)
		}
	}
	if after := a.versions.since(0, 1<<20, nil); after.Change != before.Change || a.figures.strangers.Load() != 8 {
		t.Errorf("a stranger changed something, or %d of 8 were counted", a.figures.strangers.Load())
	}
	// Nor does one who answers for a peer: with another key, or with the reply to another request.
	sealed := a.keys.seal(sealRequest, []byte("b"), []byte(`{"from":"a","to":"b"}`))
	old := b.answer(sealed)
	for name, reply := range map[string][]byte{"without a signature": []byte(`{"from":"b"}`), "an old one": old,
		"with another key": stranger.seal(sealReply, sealed, []byte(`{"from":"b"}`))} {
		reply := reply
		m.mu.Lock()
		m.routes["a>b"] = func([]byte) []byte { return reply }
		m.mu.Unlock()
		ctx, cancel := context.WithTimeout(context.Background(), 250*time.Millisecond)
		var unanswered *Unanswered
		if err := a.forget(ctx, "Forget", user); !errors.As(err, &unanswered) || !errors.Is(unanswered.Peers[0].Err, errSignature) {
			t.Errorf("%s: %v", name, err)
		}
		cancel()
	}
}

// A stranger's request is refused by its first line, before its body comes.
func TestStrangersBodiesAreNotRead(t *testing.T) {
	m := newMesh()
	a, b, _ := beginAll(t, m, time.Minute)
	h := &HTTP{}
	screen := a.screen
	h.screen.Store(&screen)
	h.Serve("a", a.answer)
	server := httptest.NewServer(h)
	defer server.Close()
	forged := keys{[]byte("the key of a stranger")}.seal(sealRequest, []byte("a"), []byte("{}"))
	ours := b.keys.seal(sealRequest, []byte("a"), []byte(`{"from":"b","to":"a"}`))
	head, _, _ := bytes.Cut(ours, []byte("\n"))
	for name, c := range map[string]struct {
		sent string
		code int
	}{
		"no line": {strings.Repeat("x", 4096), 403}, "another key": {string(forged), 403},
		"a line alone": {"\n", 403}, "a peer's line and more than its body": {string(head) + "\n" + strings.Repeat("x", 4096), 403},
		"a peer's": {string(ours), 200},
	} {
		conn, err := net.Dial("tcp", strings.TrimPrefix(server.URL, "http://"))
		if err != nil {
			t.Fatal(err)
		}
		// Of what it announces it sends the begin alone, but for the peer.
		size := mostRequest
		if c.code == 200 {
			size = len(c.sent)
		}
		fmt.Fprintf(conn, "POST /_forget HTTP/1.1\r\nHost: a\r\nContent-Length: %d\r\n\r\n%s", size, c.sent)
		conn.SetReadDeadline(time.Now().Add(time.Minute))
		got, err := http.ReadResponse(bufio.NewReader(conn), nil)
		if err != nil {
			t.Errorf("%s: no reply before its body ends: %v", name, err)
		} else if got.StatusCode != c.code {
			t.Errorf("%s: %s", name, got.Status)
		}
		conn.Close()
	}
	if n := a.figures.strangers.Load(); n != 4 {
		t.Errorf("%d strangers were counted", n)
	}
}

// A thousand strangers, each of whom sends 64 KB and no end, cost what their connections cost.
func TestThousandStrangers(t *testing.T) {
	const many, each = 1000, 64 << 10
	a, _, _ := beginAll(t, newMesh(), time.Minute)
	h := &HTTP{}
	screen := a.screen
	h.screen.Store(&screen)
	h.Serve("a", a.answer)
	server := httptest.NewUnstartedServer(h)
	server.Config.ErrorLog = log.New(io.Discard, "", 0)
	server.Start()
	defer server.Close()
	signed := a.keys.seal(sealRequest, []byte("a"), []byte("{}"))
	line, _, _ := bytes.Cut(signed, []byte("\n"))
	bodies := [][]byte{bytes.Repeat([]byte("x"), each), append([]byte(strings.Repeat("x", len(line))+"\n"), make([]byte, each)...), line}
	before := memory()
	for i := 0; i < many; i++ {
		conn, err := net.Dial("tcp", strings.TrimPrefix(server.URL, "http://"))
		if err != nil {
			t.Fatal(err)
		}
		defer conn.Close()
		go fmt.Fprintf(conn, "POST /_forget HTTP/1.1\r\nHost: a\r\nContent-Length: %d\r\n\r\n%s", mostRequest, bodies[i%len(bodies)])
	}
	until(t, func() bool { return a.figures.strangers.Load() >= many*2/3-1 }, "not all are refused")
	took := memory() - before
	t.Logf("%d connections took %d KB each", many, took/many>>10)
	if took > many*each/2 {
		t.Errorf("%d connections took %d MB", many, took>>20)
	}
}

// What is refused is logged with the address and the time, and not without bound.
func TestRefusedRequestsAreLogged(t *testing.T) {
	a, _, _ := beginAll(t, newMesh(), time.Minute)
	var lines []string
	var mu sync.Mutex
	a.log = func(msg string, args ...interface{}) {
		mu.Lock()
		defer mu.Unlock()
		lines = append(lines, msg+fmt.Sprint(args...))
	}
	p := &Pool{node: a}
	h := &HTTP{}
	screen := a.screen
	h.screen.Store(&screen)
	h.Serve("a", a.answer)
	p.direct = h
	send := func(path string) {
		r := httptest.NewRequest("POST", path, strings.NewReader("x\n"))
		r.RemoteAddr = "192.0.2.7:1234"
		p.ServeHTTP(httptest.NewRecorder(), r)
	}
	send(forgetPath)
	send(enginePath + "values/x")
	p.byTLS = true
	send(forgetPath)
	today := time.Now().UTC().Format("2006-01-02")
	for i, line := range lines {
		if !strings.Contains(line, "192.0.2.7:1234") || !strings.Contains(line, today) {
			t.Errorf("%d: %q", i, line)
		}
	}
	if len(lines) != 3 {
		t.Errorf("%d lines", len(lines))
	}
	begun := time.Now()
	for i := 0; i < 1000; i++ {
		send(forgetPath)
	}
	// So many for each second in which it sends, of which there are more on a slow machine. Those of one second may come at its end.
	if took := time.Since(begun); len(lines) > 5*mostRefused*int(took/time.Second+1) {
		t.Errorf("%d lines of 1,000 requests within %v", len(lines), took)
	}
	var r refusals
	now := time.Now()
	for i := 0; i < mostRefused+7; i++ {
		if log, left := r.note(now); log != (i < mostRefused) || left != 0 {
			t.Errorf("%d: %v, %d", i, log, left)
		}
	}
	if log, left := r.note(now.Add(time.Second)); !log || left != 7 {
		t.Errorf("a second later: %v, %d", log, left)
	}
}

// memory returns the bytes that this process has for its heap and its goroutines.
func memory() int64 {
	var m runtime.MemStats
	runtime.GC()
	runtime.ReadMemStats(&m)
	return int64(m.HeapInuse + m.StackInuse)
}

// However many requests there are at one time, the connections to a peer are bounded.
func TestConnectionsAreBounded(t *testing.T) {
	var open atomic.Int64
	release := make(chan struct{})
	server := httptest.NewUnstartedServer(http.HandlerFunc(func(http.ResponseWriter, *http.Request) { <-release }))
	server.Config.ConnState = func(_ net.Conn, state http.ConnState) {
		if state == http.StateNew {
			open.Add(1)
		}
	}
	server.Start()
	defer server.Close()
	client := &http.Client{Transport: connections(nil)}
	var all sync.WaitGroup
	for i := 0; i < 3*mostConnections; i++ {
		all.Add(1)
		go func() {
			defer all.Done()
			got, err := client.Get(server.URL)
			if err != nil {
				t.Error(err)
				return
			}
			got.Body.Close()
		}()
	}
	// No request ends, so each takes a connection of its own, as long as it gets one.
	until(t, func() bool { return open.Load() >= mostConnections }, "there are fewer connections than there may be")
	time.Sleep(200 * time.Millisecond) // in which more would come
	if n := open.Load(); n != mostConnections {
		t.Errorf("%d connections for %d requests, of which there may be %d", n, 3*mostConnections, mostConnections)
	}
	close(release)
	all.Wait()
}

// What a peer of the pool may not send, either.
func TestBadRequestsChangeNothing(t *testing.T) {
	m := newMesh()
	a, b, _ := beginAll(t, m, time.Minute)
	before := a.versions.since(0, 1<<20, nil)
	start := b.versions.startOf("b")
	of := func(fields string) string { return fmt.Sprintf(`{"from":"b","start":%d,"to":"a",%s}`, start, fields) }
	number := fmt.Sprintf(`"number":{"start":%d,"count":99,"secret":1}`, start)
	key := func(bytes int) string {
		return fmt.Sprintf(`"items":[{"cache":"users","key":"%s"}]`, base64.StdEncoding.EncodeToString(make([]byte, bytes)))
	}
	for request, want := range map[string]string{
		``:                                     "bad request",
		`{"from":1}`:                           "bad request",
		`{"from":"b","to":"c"}`:                `this is "a" and not "c"`,
		`{"from":"d","to":"a"}`:                `"d" is no other peer`,
		`{"from":"a","to":"a"}`:                `"a" is no other peer`,
		`{"from":"b","to":"a","start":1}`:      "which is later",
		of(number):                             "1 to 1000 items",
		of(number + `,"items":[]`):             "1 to 1000 items",
		of(number + "," + key(MostKeyBytes+1)): "at most 4096 bytes",
		of(number + `,"items":[{"cache":"a/b","key":"Nw=="}]`):                                          "no cache's name",
		of(number + `,"items":[{"key":"Nw=="}]`):                                                        "no cache's name",
		of(number + `,"items":[{"of":3,"cache":"users"}]`):                                              "a cache where none belongs",
		of(number + `,"items":[{"of":2,"cache":"users","key":"Nw=="}]`):                                 "a key where none belongs",
		of(number + `,"items":[{"of":2,"cache":"users","bucket":9}]`):                                   "a bucket where none belongs",
		of(number + `,"items":[{"of":4}]`):                                                              "no scope",
		of(`"number":{"start":18446744073709551615,"count":1},"items":[{"of":3}]`):                      "a number is beyond",
		of(`"number":{"start":0,"count":1},"items":[{"of":3}]`):                                         "a number is beyond",
		of(fmt.Sprintf(`"number":{"start":%d,"count":18446744073709551615},"items":[{"of":3}]`, start)): "a number is beyond",
		`{"from":"b","to":"a","start":18446744073709551615}`:                                            "a number is beyond",
	} {
		if got := ask(t, a, request); !strings.Contains(got.Refused, want) || got.Changes != nil || got.Held != nil {
			t.Errorf("%s: %+v", request, got)
		}
	}
	if after := a.versions.since(0, 1<<20, nil); after.Change != before.Change {
		t.Error("a bad request changes something")
	}
	if err := acknowledged(b, user); err != nil {
		t.Errorf("after absurd numbers: %v", err)
	}
	if got := ask(t, a, of(number+","+key(MostKeyBytes))); got.Refused != "" {
		t.Errorf("a key of the most bytes: %v", got.Refused)
	}
	// A reply is not taken if it tells of a change that no peer may send.
	for _, text := range []string{`{"of":3,"own":[{"peer":"b","start":18446744073709551615,"count":1}]}`,
		`{"cache":"/","key":"Nw==","own":[]}`} {
		text := text
		m.mu.Lock()
		m.routes["a>b"] = func(sealed []byte) []byte {
			return a.keys.seal(sealReply, sealed, []byte(fmt.Sprintf(`{"from":"b","start":%d,"life":1,"changes":{"change":1,"levels":[%s]}}`, start, text)))
		}
		m.mu.Unlock()
		change := a.versions.changedTo()
		if _, got := a.askAll(context.Background(), a.session.Load()); len(got.silent) != 1 || a.versions.changedTo() != change {
			t.Errorf("%s: %v", text, got.silent)
		}
	}
}

// Processes with the same start and count have different names after a Forget, so that nobody can
// ask for a name before there is one.
func TestNamesCannotBeForetold(t *testing.T) {
	seen := map[string]bool{}
	for i := 0; i < 100; i++ {
		v := newVersions("a", 9, 100)
		v.forget(user)
		seen[versionOf(v, user)] = true
	}
	if len(seen) != 100 {
		t.Errorf("%d names of 100 processes", len(seen))
	}
}

// What a peer knows comes in pages, however much that is.
func TestAPeerThatKnowsMuchIsAskedByPages(t *testing.T) {
	m := newMesh()
	a, _, _ := beginAll(t, m, time.Minute)
	const many = 2000
	for i := 0; i < many; i++ {
		a.versions.forget(keyItem("users", fmt.Sprint(strings.Repeat("k", MostKeyBytes-9), i)))
	}
	most := 0
	m.mu.Lock()
	answer := m.answer["a"]
	m.answer["a"] = func(request []byte) []byte {
		reply := answer(request)
		if len(reply) > most {
			most = len(reply)
		}
		return reply
	}
	m.mu.Unlock()
	c := start(t, m, "c", time.Minute, names...)
	await(t, c.session.Load().ready, "it does not begin")
	if last := keyItem("users", fmt.Sprint(strings.Repeat("k", MostKeyBytes-9), many-1)); !has(c, a, last) || c.versions.keys != many {
		t.Errorf("%d of %d keys", c.versions.keys, many)
	}
	if most > 2*pageBytes || most < pageBytes/2 {
		t.Errorf("a reply has %d bytes, where a page has %d", most, pageBytes)
	}
}

func TestServerIsBounded(t *testing.T) {
	s := (&Pool{}).Server()
	if s.ReadHeaderTimeout == 0 || s.ReadTimeout == 0 || s.WriteTimeout == 0 || s.IdleTimeout == 0 || s.MaxHeaderBytes == 0 {
		t.Errorf("%+v", s)
	}
}

// A request for a value has to be of a peer, for this one, and for a key of a cache here.
func TestRequestsForValues(t *testing.T) {
	m := newMesh()
	a, b, _ := beginAll(t, m, time.Minute)
	if groupcache.GetGroup("values") == nil {
		groupcache.NewGroup("values", 1<<20, groupcache.GetterFunc(func(context.Context, string, groupcache.Sink) error { return nil }))
	}
	p := &Pool{node: a}
	name := nameOf("7", versionOf(a.versions, user), 0)
	make := func(change func(r *http.Request)) *http.Request {
		r := httptest.NewRequest("GET", enginePath+"values/"+url.QueryEscape(name), nil)
		r.Header.Set(fromHeader, "b")
		r.Header.Set(toHeader, "a")
		r.Header.Set(startHeader, fmt.Sprint(b.versions.startOf("b")))
		change(r)
		if r.Header.Get(signHeader) == "" {
			r.Header.Set(signHeader, a.keys.sign(time.Now(), valueParts(r)...))
		}
		return r
	}
	for _, c := range []struct {
		name string
		r    *http.Request
		want int
	}{
		{"as it is", make(func(r *http.Request) {}), 0},
		{"of a stranger", make(func(r *http.Request) { r.Header.Set(signHeader, "1.x.y") }), 403},
		{"signed for another path", func() *http.Request {
			r := make(func(*http.Request) {})
			r.URL.Path += "x"
			r.URL.RawPath = ""
			return r
		}(), 403},
		{"for another peer", make(func(r *http.Request) { r.Header.Set(toHeader, "c") }), 421},
		{"of a peer that is not on the list", make(func(r *http.Request) { r.Header.Set(fromHeader, "d") }), 403},
		{"of an earlier process", make(func(r *http.Request) { r.Header.Set(startHeader, "1") }), 403},
		{"with an absurd start", make(func(r *http.Request) { r.Header.Set(startHeader, "18446744073709551615") }), 403},
		{"that writes", make(func(r *http.Request) { r.Method = "PUT" }), 405},
		{"of another cache", make(func(r *http.Request) { r.URL.Path = enginePath + "none/" + name }), 400},
		{"of no cache", make(func(r *http.Request) { r.URL.Path = enginePath + name }), 400},
		{"of no name", make(func(r *http.Request) { r.URL.Path = enginePath + "values/7" }), 400},
		{"of too long a key", make(func(r *http.Request) {
			r.URL.Path = enginePath + "values/" + strings.Repeat("k", MostKeyBytes+1) + name
		}), 400},
	} {
		if got, err := p.checkValue(c.r); got != c.want || (err == nil) != (c.want == 0) {
			t.Errorf("%s: %d, %v", c.name, got, err)
		}
	}
	if start := a.versions.startOf("b"); start != b.versions.startOf("b") {
		t.Errorf("b has the start %d since", start)
	}
	// Without keys a certificate says who is a peer.
	p.byTLS = true
	for _, c := range []struct {
		tls  *tls.ConnectionState
		want int
	}{{nil, 403}, {&tls.ConnectionState{}, 403}, {&tls.ConnectionState{VerifiedChains: [][]*x509.Certificate{{}}}, 404}} {
		r := httptest.NewRequest("GET", "/none", nil)
		r.TLS = c.tls
		w := httptest.NewRecorder()
		if p.ServeHTTP(w, r); w.Code != c.want {
			t.Errorf("with %+v: %d", c.tls, w.Code)
		}
	}
}

// The owner's reply is signed together with the request; it has to come in time, and not to be too
// long.
func TestRepliesOfAnOwner(t *testing.T) {
	m := newMesh()
	a, _, _ := beginAll(t, m, time.Minute)
	stall := make(chan struct{})
	server := httptest.NewServer(http.HandlerFunc(func(w http.ResponseWriter, r *http.Request) {
		path := r.URL.Path
		if to := r.Header.Get(toHeader); to != "http://"+r.Host {
			t.Errorf("the request is for %q", to)
		}
		if err := a.keys.verify(time.Now(), r.Header.Get(signHeader), valueParts(r)...); err != nil {
			t.Error(err)
		}
		body := []byte("a value")
		by := a.keys
		if strings.HasSuffix(path, "/key") {
			by = keys{[]byte("the key of a stranger")}
		}
		sign := by.sign(time.Now(), []byte(signOwner), []byte(r.Header.Get(signHeader)), []byte("200"), body)
		switch {
		case strings.HasSuffix(path, "/late"):
			<-stall
		case strings.HasSuffix(path, "/body"):
			body = []byte("another")
		case strings.HasSuffix(path, "/unsigned"):
			sign = ""
		case strings.HasSuffix(path, "/old"):
			sign = by.sign(time.Now(), []byte(signOwner), []byte("another request"), []byte("200"), body)
		}
		w.Header().Set(signHeader, sign)
		if strings.HasSuffix(path, "/status") {
			w.WriteHeader(http.StatusNotFound)
		}
		w.Write(body)
		w.(http.Flusher).Flush()
		if strings.HasSuffix(path, "/stalls") {
			<-stall
		}
	}))
	defer server.Close()
	defer close(stall)
	// A key may be any bytes: its path is signed as it is sent.
	odd := "/" + url.QueryEscape(nameOf("a b+c/../%2F//@\xff?#", versionOf(a.versions, user), 7))
	for path, ok := range map[string]bool{"/ok": true, odd: true, "/late": false, "/stalls": false, "/key": false, "/body": false, "/unsigned": false,
		"/old": false, "/status": false} {
		within := 2 * time.Minute
		if path == "/late" || path == "/stalls" {
			within = 100 * time.Millisecond
		}
		r, _ := http.NewRequest("GET", server.URL+enginePath+"values"+path, nil)
		got, err := owner{connections(nil), within, a}.RoundTrip(r)
		if err == nil {
			if body, _ := io.ReadAll(got.Body); string(body) != "a value" {
				t.Errorf("%s: %q", path, body)
			}
		}
		if (err == nil) != ok {
			t.Errorf("%s: %v", path, err)
		}
	}
}

// A key of the most bytes, each of which is escaped, comes to its owner and back, through a server with
// the limits of Server.
func TestTheLongestKeyComesToItsOwner(t *testing.T) {
	if groupcache.GetGroup("values") == nil {
		groupcache.NewGroup("values", 1<<20, groupcache.GetterFunc(func(context.Context, string, groupcache.Sink) error { return nil }))
	}
	server := httptest.NewUnstartedServer(nil)
	self := "http://" + server.Listener.Addr().String()
	m := newMesh()
	a, b := start(t, m, self, time.Minute, self, "http://b"), start(t, m, "http://b", time.Minute, self, "http://b")
	for _, n := range []*node{a, b} {
		await(t, n.session.Load().ready, "it does not begin")
	}
	p := &Pool{node: a}
	server.Config = p.Server()
	server.Config.Handler = http.HandlerFunc(func(w http.ResponseWriter, r *http.Request) {
		status, err := p.checkValue(r)
		if err != nil {
			http.Error(w, err.Error(), status)
			return
		}
		key, _ := keyOf(strings.TrimPrefix(r.URL.Path, enginePath+"values/"))
		w.Header().Set(signHeader, a.keys.sign(time.Now(), []byte(signOwner), []byte(r.Header.Get(signHeader)), []byte("200"), []byte(key)))
		w.Write([]byte(key))
	})
	server.Start()
	defer server.Close()
	for _, key := range []string{"7", strings.Repeat("k", MostKeyBytes), strings.Repeat("\xff", MostKeyBytes)} {
		name := nameOf(key, versionOf(a.versions, keyItem("values", key)), 0)
		r, err := http.NewRequest("GET", self+enginePath+"values/"+url.QueryEscape(name), nil)
		if err != nil {
			t.Fatal(err)
		}
		got, err := owner{connections(nil), 2 * time.Minute, b}.RoundTrip(r)
		if err != nil {
			t.Errorf("%.10q: %v", key, err)
			continue
		}
		if body, _ := io.ReadAll(got.Body); got.StatusCode != http.StatusOK || string(body) != key {
			t.Errorf("%.10q: %s, %.50q", key, got.Status, body)
		}
	}
}

// authority makes certificates for one name, of an authority of its own.
func authority(t *testing.T) (*x509.CertPool, tls.Certificate) {
	key, err := ecdsa.GenerateKey(elliptic.P256(), rand.Reader)
	if err != nil {
		t.Fatal(err)
	}
	template := &x509.Certificate{SerialNumber: big.NewInt(1), NotBefore: time.Now().Add(-time.Hour), NotAfter: time.Now().Add(time.Hour),
		IPAddresses: []net.IP{net.IPv4(127, 0, 0, 1)}, IsCA: true, BasicConstraintsValid: true,
		KeyUsage:    x509.KeyUsageDigitalSignature | x509.KeyUsageCertSign,
		ExtKeyUsage: []x509.ExtKeyUsage{x509.ExtKeyUsageClientAuth, x509.ExtKeyUsageServerAuth}}
	der, err := x509.CreateCertificate(rand.Reader, template, template, &key.PublicKey, key)
	if err != nil {
		t.Fatal(err)
	}
	parsed, err := x509.ParseCertificate(der)
	if err != nil {
		t.Fatal(err)
	}
	pool := x509.NewCertPool()
	pool.AddCert(parsed)
	return pool, tls.Certificate{Certificate: [][]byte{der}, PrivateKey: key}
}

// A pool with TLS alone, of which a peer and a stranger ask something: with a certificate of the pool, of another authority, and
// with none.
func TestMutualTLS(t *testing.T) {
	ours, certificate := authority(t)
	_, other := authority(t)
	m := newMesh()
	a, b, _ := beginAll(t, m, time.Minute)
	a.keys = nil
	h := &HTTP{}
	h.Serve("a", a.answer)
	p := &Pool{node: a, byTLS: true, direct: h}
	server := httptest.NewUnstartedServer(p)
	server.Config.ErrorLog = log.New(io.Discard, "", 0)
	server.TLS = &tls.Config{ClientCAs: ours, ClientAuth: tls.VerifyClientCertIfGiven, Certificates: []tls.Certificate{certificate}}
	server.StartTLS()
	defer server.Close()
	number := number{b.versions.startOf("b"), 99, 1}
	text, _ := json.Marshal(request{From: "b", Start: number.Start, To: "a", Number: &number, Items: []wireItem{wireOf(user)}})
	for name, c := range map[string]struct {
		config *tls.Config
		ok     bool
	}{
		"a peer":                       {&tls.Config{RootCAs: ours, Certificates: []tls.Certificate{certificate}}, true},
		"another authority's":          {&tls.Config{RootCAs: ours, Certificates: []tls.Certificate{other}}, false},
		"none":                         {&tls.Config{RootCAs: ours}, false},
		"a server that it cannot know": {&tls.Config{Certificates: []tls.Certificate{certificate}}, false},
	} {
		before := a.versions.changedTo()
		by := &HTTP{Client: &http.Client{Transport: connections(c.config)}}
		got, err := by.Call(context.Background(), server.URL, text)
		if (err == nil) != c.ok || c.ok && !strings.Contains(string(got), `"held"`) {
			t.Errorf("%s: %s, %v", name, got, err)
		}
		if !c.ok && a.versions.changedTo() != before {
			t.Errorf("%s: it changes something", name)
		}
	}
}
