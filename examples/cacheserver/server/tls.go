package server

import (
	"crypto/tls"
	"crypto/x509"
	"errors"
	"flag"
	"fmt"
	"os"
)

// TLSFiles are the files of a connection's certificates, or all empty without TLS.
type TLSFiles struct {
	name          string
	CA, Cert, Key string
}

// Define defines the flags -NAME-ca, -NAME-cert and -NAME-key.
func (f *TLSFiles) Define(name, use string) {
	f.name = name
	flag.StringVar(&f.CA, name+"-ca", "", "the PEM file of the authorities for TLS "+use)
	flag.StringVar(&f.Cert, name+"-cert", "", "the PEM file of this server's certificate for that")
	flag.StringVar(&f.Key, name+"-key", "", "the PEM file of its key")
}

// Config returns the configuration for both sides, or nil without TLS. The certificate is one for
// clients too. A client that reads metrics needs none: peers sign what they send.
func (f *TLSFiles) Config() (*tls.Config, error) {
	if f.CA == "" && f.Cert == "" && f.Key == "" {
		return nil, nil
	}
	if f.CA == "" || (f.Cert == "") != (f.Key == "") {
		return nil, fmt.Errorf("-%s-cert and -%s-key belong together, with -%s-ca", f.name, f.name, f.name)
	}
	text, err := os.ReadFile(f.CA)
	if err != nil {
		return nil, err
	}
	authorities := x509.NewCertPool()
	if !authorities.AppendCertsFromPEM(text) {
		return nil, errors.New("no certificate in " + f.CA)
	}
	c := &tls.Config{MinVersion: tls.VersionTLS12, RootCAs: authorities, ClientCAs: authorities, ClientAuth: tls.VerifyClientCertIfGiven}
	if f.Cert != "" {
		pair, err := tls.LoadX509KeyPair(f.Cert, f.Key)
		if err != nil {
			return nil, err
		}
		c.Certificates = []tls.Certificate{pair}
	}
	return c, nil
}
