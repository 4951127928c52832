// Command withetcd is cacheserver with etcd's list of peers and leases: a peer that is dead delays
// a PURGE until its lease has run out, and no longer. See ../README.md.
package main

import (
	"errors"
	"flag"
	"log"
	"os"
	"strings"
	"time"

	"cacheserver.example/server"
	"go.etcd.io/etcd/clientv3"
	"sf.example/singleflight/peers"
	"sf.example/singleflight/peers/etcd"
)

func main() {
	log.SetFlags(log.LstdFlags | log.LUTC)
	var f server.Flags
	f.Define()
	var e etcdFlags
	e.files.Define("etcd", "to etcd")
	flag.StringVar(&e.user, "etcd-user", "", "the user to log in to etcd as")
	flag.StringVar(&e.passwordFile, "etcd-password-file", "", "the file of that user's password")
	endpoints := flag.String("etcd", "http://127.0.0.1:2379", "the URLs of etcd's servers, by commas")
	prefix := flag.String("prefix", "/cacheserver", "the prefix of this pool's keys in etcd")
	lease := flag.Duration("lease", 5*time.Second, "how long a peer's lease runs: the same at each peer")
	flag.Parse()
	e.endpoints = strings.Split(*endpoints, ",")
	if err := run(&f, &e, *prefix, *lease); err != nil {
		log.Fatal("withetcd: ", err)
	}
}

// etcdFlags say how etcd is reached.
type etcdFlags struct {
	endpoints          []string
	files              server.TLSFiles
	user, passwordFile string
}

// config returns the client's configuration.
func (e *etcdFlags) config() (c clientv3.Config, err error) {
	c = clientv3.Config{Endpoints: e.endpoints, DialTimeout: 5 * time.Second, DialKeepAliveTime: 5 * time.Second,
		DialKeepAliveTimeout: 2 * time.Second}
	if c.TLS, err = e.files.Config(); err != nil {
		return c, err
	}
	if (e.user == "") != (e.passwordFile == "") {
		return c, errors.New("-etcd-user and -etcd-password-file belong together")
	}
	if e.user != "" {
		password, err := os.ReadFile(e.passwordFile)
		if err != nil {
			return c, err
		}
		c.Username, c.Password = e.user, strings.TrimSpace(string(password))
	}
	return c, nil
}

func run(f *server.Flags, e *etcdFlags, prefix string, lease time.Duration) error {
	config, err := e.config()
	if err != nil {
		return err
	}
	client, err := clientv3.New(config)
	if err != nil {
		return err
	}
	defer client.Close()
	coordinator, err := etcd.New(client, prefix, etcd.WithTTL(lease))
	if err != nil {
		return err
	}
	return f.Run(peers.Options{Coordinator: coordinator})
}
