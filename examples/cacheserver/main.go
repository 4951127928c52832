// Command cacheserver caches an origin's pages on several machines: GET and HEAD answer a page, and
// PURGE makes all peers forget it. Peers, metrics and health checks have an address of their own.
// See README.md.
package main

import (
	"flag"
	"log"
	"strings"

	"cacheserver.example/server"
	"sf.example/singleflight/peers"
)

func main() {
	log.SetFlags(log.LstdFlags | log.LUTC)
	var f server.Flags
	f.Define()
	all := flag.String("peers", "http://127.0.0.1:8001", "the base URLs of all peers, by commas: the same list at each")
	startFile := flag.String("start-file", "", "a file that this peer keeps from one start to the next, for a clock that goes back")
	flag.Parse()
	static := peers.NewStatic(strings.Split(*all, ",")...)
	static.File = *startFile
	if err := f.Run(peers.Options{Coordinator: static}); err != nil {
		log.Fatal("cacheserver: ", err)
	}
}
