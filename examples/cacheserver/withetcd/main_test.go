package main

import (
	"context"
	"net"
	"os"
	"os/exec"
	"testing"
	"time"

	"cacheserver.example/internal/testcert"
	"cacheserver.example/server"
	"go.etcd.io/etcd/clientv3"
	"sf.example/singleflight/peers/etcd"
)

func free(t *testing.T) string {
	l, err := net.Listen("tcp", "127.0.0.1:0")
	if err != nil {
		t.Fatal(err)
	}
	defer l.Close()
	return l.Addr().String()
}

// A peer joins over TLS and with a login that may use the pool's prefix alone; without them it does not.
func TestTLSAndLogin(t *testing.T) {
	program, err := exec.LookPath("etcd")
	if err != nil {
		t.Skip("there is no etcd")
	}
	cert, key := testcert.Write(t)
	at, inner := "https://"+free(t), "http://"+free(t)
	command := exec.Command(program, "--data-dir", t.TempDir(), "--listen-client-urls", at, "--advertise-client-urls", at,
		"--listen-peer-urls", inner, "--initial-advertise-peer-urls", inner, "--initial-cluster", "default="+inner, "--log-level", "panic",
		"--logger", "zap", "--cert-file", cert, "--key-file", key, "--trusted-ca-file", cert, "--client-cert-auth")
	if err := command.Start(); err != nil {
		t.Fatal(err)
	}
	t.Cleanup(func() {
		command.Process.Kill()
		command.Wait()
	})
	password := t.TempDir() + "/password"
	if err := os.WriteFile(password, []byte("secret\n"), 0o600); err != nil {
		t.Fatal(err)
	}
	ctx, cancel := context.WithTimeout(context.Background(), time.Minute)
	defer cancel()
	files := server.TLSFiles{CA: cert, Cert: cert, Key: key}
	root := connect(t, &etcdFlags{endpoints: []string{at}, files: files})
	role := clientv3.PermissionType(clientv3.PermReadWrite)
	for _, do := range []func() error{
		func() error { _, err := root.RoleAdd(ctx, "pool"); return err },
		func() error {
			_, err := root.RoleGrantPermission(ctx, "pool", "/pool/", clientv3.GetPrefixRangeEnd("/pool/"), role)
			return err
		},
		func() error { _, err := root.UserAdd(ctx, "peer", "secret"); return err },
		func() error { _, err := root.UserGrantRole(ctx, "peer", "pool"); return err },
		func() error { _, err := root.UserAdd(ctx, "root", "other"); return err },
		func() error { _, err := root.UserGrantRole(ctx, "root", "root"); return err },
		func() error { _, err := root.AuthEnable(ctx); return err },
	} {
		if err := do(); err != nil {
			t.Fatal(err)
		}
	}
	for _, c := range []struct {
		name   string
		flags  etcdFlags
		prefix string
		ok     bool
	}{
		{"with both", etcdFlags{files: files, user: "peer", passwordFile: password}, "/pool", true},
		{"another prefix", etcdFlags{files: files, user: "peer", passwordFile: password}, "/other", false},
		{"no login", etcdFlags{files: files}, "/pool", false},
		{"no certificate", etcdFlags{files: server.TLSFiles{CA: cert}, user: "peer", passwordFile: password}, "/pool", false},
	} {
		c.flags.endpoints = []string{at}
		config, err := c.flags.config()
		if err != nil {
			t.Fatal(err)
		}
		config.DialTimeout = 2 * time.Second
		client, err := clientv3.New(config)
		if err != nil {
			if c.ok {
				t.Errorf("%s: %v", c.name, err)
			}
			continue
		}
		defer client.Close()
		coordinator, err := etcd.New(client, c.prefix, etcd.WithTTL(3*time.Second))
		if err != nil {
			t.Fatal(err)
		}
		defer coordinator.Close()
		within, cancel := context.WithTimeout(ctx, 15*time.Second)
		m, err := coordinator.Join(within, "http://a:1", 0)
		cancel()
		if (err == nil) != c.ok {
			t.Errorf("%s: %v", c.name, err)
		}
		if err == nil {
			time.Sleep(6 * time.Second) // two leases
			if len(m.Members()) != 1 || !time.Now().Before(m.Until()) {
				t.Errorf("%s: it does not renew its lease", c.name)
			}
			if err := m.Leave(ctx); err != nil {
				t.Errorf("%s: %v", c.name, err)
			}
		}
	}
	for _, bad := range []etcdFlags{{user: "peer"}, {passwordFile: password}, {user: "peer", passwordFile: "/none"}, {files: server.TLSFiles{CA: "/none"}}} {
		if _, err := bad.config(); err == nil {
			t.Errorf("%+v is taken", bad)
		}
	}
}

func connect(t *testing.T, e *etcdFlags) *clientv3.Client {
	config, err := e.config()
	if err != nil {
		t.Fatal(err)
	}
	config.DialTimeout = time.Minute
	client, err := clientv3.New(config)
	if err != nil {
		t.Fatal(err)
	}
	t.Cleanup(func() { client.Close() })
	return client
}
