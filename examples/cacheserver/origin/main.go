// Command origin has pages for cacheserver: GET answers a page with its version, POST writes it,
// and GET /loads answers how often pages were asked for. GET /slow takes a second, and GET
// /slow-loads answers how often that has begun; /large has the most bytes that a page may have,
// /larger has one more, and /broken fails.
package main

import (
	"flag"
	"fmt"
	"log"
	"net/http"
	"sync"
	"time"
)

func main() {
	listen := flag.String("listen", "127.0.0.1:9000", "the address to listen at")
	flag.Parse()
	var mu sync.Mutex // protects the rest
	written := map[string]int{}
	loads, slow := 0, 0
	log.Fatal(http.ListenAndServe(*listen, http.HandlerFunc(func(w http.ResponseWriter, r *http.Request) {
		if r.Method == http.MethodGet && r.URL.Path == "/slow" {
			mu.Lock()
			slow++
			mu.Unlock()
			time.Sleep(time.Second)
		}
		mu.Lock()
		defer mu.Unlock()
		page := r.URL.Path
		switch {
		case r.Method == http.MethodPost:
			written[page]++
		case page == "/loads":
			fmt.Fprintln(w, loads)
		case page == "/slow-loads":
			fmt.Fprintln(w, slow)
		case page == "/large":
			loads++
			w.Write(make([]byte, 1<<20))
		case page == "/larger":
			w.Write(make([]byte, 1<<20+1))
		case page == "/broken":
			http.Error(w, "broken", http.StatusInternalServerError)
		default:
			loads++
			if written[page] == 0 {
				http.NotFound(w, r)
				return
			}
			fmt.Fprintf(w, "%s, version %d\n", page, written[page])
		}
	})))
}
