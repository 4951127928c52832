package server

import (
	"bufio"
	"fmt"
	"io"
	"net"
	"net/http"
	"net/http/httptest"
	"path"
	"strings"
	"sync"
	"testing"
	"time"

	"sf.example/singleflight/peers"
)

// What strangers send to the public listener reaches the origin, at paths of its own, and nothing
// else; and no answer has an address.
func TestStrangers(t *testing.T) {
	inside := httptest.NewServer(http.HandlerFunc(func(w http.ResponseWriter, r *http.Request) { fmt.Fprint(w, "a secret") }))
	defer inside.Close()
	held, free := make(chan bool), make(chan bool)
	var mu sync.Mutex
	var asked []string
	origin := httptest.NewServer(http.HandlerFunc(func(w http.ResponseWriter, r *http.Request) {
		mu.Lock()
		asked = append(asked, r.Host+" "+r.RequestURI)
		mu.Unlock()
		switch path.Base(r.URL.Path) {
		case "held":
			held <- true
			<-free
		case "away":
			http.Redirect(w, r, inside.URL, http.StatusFound)
		case "cut":
			c, _, _ := w.(http.Hijacker).Hijack()
			c.Close()
		default:
			fmt.Fprint(w, r.RequestURI)
		}
	}))
	defer origin.Close()
	pool, err := peers.New(peers.Options{Self: "http://self.example:1", Peers: []string{"http://self.example:1"}, Insecure: true})
	if err != nil {
		t.Fatal(err)
	}
	defer pool.Close()
	for name, base := range map[string]string{"bare": "", "below": "/base"} {
		s := &server{pool: pool, purgeFor: time.Second, most: 3}
		getter, err := load(origin.URL + base)
		if err != nil {
			t.Fatal(err)
		}
		if s.pages, err = pool.Cache(name, 1<<20, getter); err != nil {
			t.Fatal(err)
		}
		public := httptest.NewServer(s)
		defer public.Close()
		tryAll(t, public.URL, inside.URL, base)
		tryMany(t, public.URL, held, free)
	}
	for _, at := range asked {
		if want := strings.TrimPrefix(origin.URL, "http://") + " /"; !strings.HasPrefix(at, want) {
			t.Errorf("the origin is asked for %s", at)
		}
	}
}

// More requests than may run are refused at once, and those that run are answered.
func tryMany(t *testing.T, public string, held, free chan bool) {
	codes := make(chan int)
	get := func(path string) {
		got, err := http.Get(public + path)
		if err != nil {
			t.Error(err)
			codes <- 0
			return
		}
		got.Body.Close()
		if got.StatusCode == http.StatusServiceUnavailable && got.Header.Get("Retry-After") == "" {
			t.Error("503 without Retry-After")
		}
		codes <- got.StatusCode
	}
	for i := 0; i < 3; i++ {
		go get(fmt.Sprintf("/held?%d", i))
		<-held
	}
	go get("/page")
	if code := <-codes; code != http.StatusServiceUnavailable {
		t.Errorf("one more than may run gets %d", code)
	}
	for i := 0; i < 3; i++ {
		free <- true
		if code := <-codes; code != http.StatusOK {
			t.Errorf("one that runs gets %d", code)
		}
	}
	go get("/page")
	if code := <-codes; code != http.StatusOK {
		t.Errorf("after that one gets %d", code)
	}
}

func tryAll(t *testing.T, public, inside, base string) {
	address := strings.TrimPrefix(inside, "http://")
	for _, try := range []struct {
		target string
		code   int
		text   string
	}{
		{"/page", 200, base + "/page"},
		{"/a%2fb/..%2f?q=1&r=%20", 200, base + "/a%2fb/..%2f?q=1&r=%20"},
		{"//" + address + "/x", 200, base + "//" + address + "/x"},
		{"/@" + address, 200, base + "/@" + address},
		{"/%00", 200, base + "/%00"},
		{"/?", 200, base + "/?"},
		{"x:@" + address + "/path", 400, ""},
		{"x:/@" + address, 400, ""},
		{"*", 400, ""},
		{"@" + address, 400, ""},
		{"http://" + address + "/path", 400, ""},
		{"/away", 502, "the origin answers 302 Found\n"},
		{"/cut", 502, "the origin did not answer\n"},
	} {
		c, err := net.Dial("tcp", strings.TrimPrefix(public, "http://"))
		if err != nil {
			t.Fatal(err)
		}
		fmt.Fprintf(c, "GET %s HTTP/1.1\r\nHost: x\r\nConnection: close\r\n\r\n", try.target)
		got, err := http.ReadResponse(bufio.NewReader(c), nil)
		if err != nil {
			t.Fatal(err)
		}
		text, err := io.ReadAll(got.Body)
		if err != nil || got.StatusCode != try.code || try.text != "" && string(text) != try.text {
			t.Errorf("GET %s: %d, %q, %v", try.target, got.StatusCode, text, err)
		}
		if strings.Contains(string(text), "secret") || try.code != 200 && strings.Contains(string(text), "127.0.0.1") {
			t.Errorf("GET %s: %q", try.target, text)
		}
		c.Close()
	}
}
