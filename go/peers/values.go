package peers

import (
	"bytes"
	"context"
	"errors"
	"fmt"
	"io"
	"net/http"
	"strconv"
	"time"
)

// groupcache's own requests go from peer to peer with these headers. They say who asks and whom,
// and are signed; a reply is signed together with the request that it answers.
const (
	fromHeader  = "Peers-From"
	startHeader = "Peers-Start"
	toHeader    = "Peers-To"
	signHeader  = "Peers-Signature"

	// MostValueBytes is the largest size of a value that comes from another peer.
	MostValueBytes = 64 << 20

	signValue = "peers value"
	signOwner = "peers owner"
)

// An owner is the RoundTripper of requests to a key's owner.
type owner struct {
	http.RoundTripper
	within time.Duration
	node   *node
}

// RoundTrip sends a request of groupcache's. Where it fails, groupcache loads the key here.
func (o owner) RoundTrip(r *http.Request) (*http.Response, error) {
	ctx, cancel := context.WithTimeout(r.Context(), o.within)
	defer cancel()
	r = r.Clone(ctx)
	to := baseOf(r.URL)
	may, end := o.node.figures.mayAsk(to)
	if !may {
		return nil, errSilent
	}
	defer end()
	r.Header.Set(fromHeader, o.node.self)
	r.Header.Set(startHeader, strconv.FormatUint(o.node.versions.startOf(o.node.self), 10))
	r.Header.Set(toHeader, to)
	var sign string
	if len(o.node.keys) > 0 {
		sign = o.node.keys.sign(time.Now(), valueParts(r)...)
		r.Header.Set(signHeader, sign)
	}
	got, err := o.RoundTripper.RoundTrip(r)
	if err != nil {
		return nil, err
	}
	defer got.Body.Close()
	body, err := io.ReadAll(io.LimitReader(got.Body, MostValueBytes+1))
	if err != nil {
		return nil, err
	}
	if len(body) > MostValueBytes {
		return nil, fmt.Errorf("peers: a value has at most %d bytes", MostValueBytes)
	}
	if len(o.node.keys) > 0 {
		text := []byte(strconv.Itoa(got.StatusCode))
		if err := o.node.keys.verify(time.Now(), got.Header.Get(signHeader), []byte(signOwner), []byte(sign), text, body); err != nil {
			return nil, fmt.Errorf("peers: the owner's reply: %w", err)
		}
	}
	o.node.figures.asked(to, true)
	got.Body = io.NopCloser(bytes.NewReader(body))
	return got, nil
}

var errSilent = errors.New("peers: the owner is silent, and another request looks whether it answers")

// valueParts is what is signed of a request for a value.
func valueParts(r *http.Request) [][]byte {
	h := r.Header
	return [][]byte{[]byte(signValue), []byte(r.Method), []byte(r.URL.RequestURI()), []byte(h.Get(fromHeader)),
		[]byte(h.Get(startHeader)), []byte(h.Get(toHeader))}
}

// A page keeps groupcache's reply until it is signed.
type page struct {
	http.ResponseWriter
	status int
	body   bytes.Buffer
}

func (p *page) WriteHeader(status int) {
	if p.status == 0 {
		p.status = status
	}
}

func (p *page) Write(bytes []byte) (int, error) {
	p.WriteHeader(http.StatusOK)
	return p.body.Write(bytes)
}

var errMethod = errors.New("peers: a request for a value is a GET")

// serveValue answers another peer's request for a key that this one owns.
func (p *Pool) serveValue(w http.ResponseWriter, r *http.Request) {
	status, err := p.checkValue(r)
	if err != nil {
		http.Error(w, err.Error(), status)
		return
	}
	to := &page{ResponseWriter: w}
	p.engine.ServeHTTP(to, r)
	to.WriteHeader(http.StatusOK)
	if to.status != http.StatusOK {
		// Why it failed concerns this machine; the one that asked loads the key by itself.
		p.node.log("peers: a load for another peer failed", "status", to.status)
		to.body.Reset()
		to.body.WriteString("peers: the load failed\n")
	}
	if len(p.node.keys) > 0 {
		w.Header().Set(signHeader, p.node.keys.sign(time.Now(), []byte(signOwner), []byte(r.Header.Get(signHeader)),
			[]byte(strconv.Itoa(to.status)), to.body.Bytes()))
	}
	w.WriteHeader(to.status)
	w.Write(to.body.Bytes())
}

// checkValue tells with which status a request is refused.
func (p *Pool) checkValue(r *http.Request) (int, error) {
	n := p.node
	if len(n.keys) > 0 {
		if err := n.keys.verify(time.Now(), r.Header.Get(signHeader), valueParts(r)...); err != nil {
			n.stranger(r.RemoteAddr, err)
			return http.StatusForbidden, fmt.Errorf("peers: no peer of this pool: %w", err)
		}
	}
	if r.Method != http.MethodGet {
		return http.StatusMethodNotAllowed, errMethod
	}
	if to := r.Header.Get(toHeader); to != n.self {
		return http.StatusMisdirectedRequest, errors.New("peers: this is another peer")
	}
	start, err := strconv.ParseUint(r.Header.Get(startHeader), 10, 64)
	from := r.Header.Get(fromHeader)
	if err != nil || start > mostNumber || !n.knows(from) {
		return http.StatusForbidden, errors.New("peers: the request is of no peer on the list here")
	}
	if err := n.versions.begun(from, start); err != nil {
		return http.StatusForbidden, errors.New("peers: a later process of that name is known")
	}
	if !goodPath(r.URL.Path[len(enginePath):]) {
		return http.StatusBadRequest, errors.New("peers: no cache with a key and a version")
	}
	return 0, nil
}
