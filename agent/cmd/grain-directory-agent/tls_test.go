package main

import (
	"crypto/ecdsa"
	"crypto/elliptic"
	"crypto/rand"
	"crypto/x509"
	"crypto/x509/pkix"
	"encoding/pem"
	"fmt"
	"math/big"
	"net"
	"os"
	"path/filepath"
	"strconv"
	"testing"
	"time"

	"agent/servers"
)

// certificates writes an authority's certificate, ca.pem, and one for this machine with its key, one.pem and one.key.
func certificates(t *testing.T) string {
	folder := t.TempDir()
	key := func() *ecdsa.PrivateKey {
		key, err := ecdsa.GenerateKey(elliptic.P256(), rand.Reader)
		if err != nil {
			t.Fatal(err)
		}
		return key
	}
	write := func(name, kind string, der []byte, err error) {
		if err == nil {
			err = os.WriteFile(filepath.Join(folder, name), pem.EncodeToMemory(&pem.Block{Type: kind, Bytes: der}), 0o600)
		}
		if err != nil {
			t.Fatal(err)
		}
	}
	authority, ours := key(), key()
	ca := &x509.Certificate{SerialNumber: big.NewInt(1), Subject: pkix.Name{CommonName: "authority"}, NotAfter: time.Now().Add(time.Hour), IsCA: true,
		BasicConstraintsValid: true, KeyUsage: x509.KeyUsageCertSign}
	der, err := x509.CreateCertificate(rand.Reader, ca, ca, &authority.PublicKey, authority)
	write("ca.pem", "CERTIFICATE", der, err)
	one := &x509.Certificate{SerialNumber: big.NewInt(2), Subject: pkix.Name{CommonName: "one"}, NotAfter: time.Now().Add(time.Hour),
		IPAddresses: []net.IP{net.ParseIP("127.0.0.1")}, KeyUsage: x509.KeyUsageDigitalSignature,
		ExtKeyUsage: []x509.ExtKeyUsage{x509.ExtKeyUsageServerAuth, x509.ExtKeyUsageClientAuth}}
	der, err = x509.CreateCertificate(rand.Reader, one, ca, &ours.PublicKey, authority)
	write("one.pem", "CERTIFICATE", der, err)
	der, err = x509.MarshalECPrivateKey(ours)
	write("one.key", "EC PRIVATE KEY", der, err)
	return folder
}

// etcd that wants certificates, and letters over NATS that wants them, or over TCP with them.
func TestTLS(t *testing.T) {
	if os.Getenv("SILO_PROGRAM") == "" {
		t.Skip("SILO_PROGRAM names no silo's program")
	}
	folder := certificates(t)
	file := func(name string) string { return filepath.Join(folder, name) }
	endpoint, peer := fmt.Sprintf("127.0.0.1:%d", servers.Port(t)), fmt.Sprintf("http://127.0.0.1:%d", servers.Port(t))
	servers.Start(t, "etcd", endpoint, "--name", "n1", "--data-dir", file("etcd"), "--listen-client-urls", "https://"+endpoint, "--advertise-client-urls",
		"https://"+endpoint, "--listen-peer-urls", peer, "--initial-advertise-peer-urls", peer, "--initial-cluster", "n1="+peer, "--log-level", "error",
		"--cert-file", file("one.pem"), "--key-file", file("one.key"), "--trusted-ca-file", file("ca.pem"), "--client-cert-auth")
	port := servers.Port(t)
	servers.Start(t, "nats-server", fmt.Sprintf("127.0.0.1:%d", port), "-a", "127.0.0.1", "-p", strconv.Itoa(port), "--tlsverify", "--tlscert", file("one.pem"),
		"--tlskey", file("one.key"), "--tlscacert", file("ca.pem"))
	words := []string{"--etcd-ca=" + file("ca.pem"), "--etcd-cert=" + file("one.pem"), "--etcd-key=" + file("one.key")}
	for transport, more := range map[string][]string{
		"nats": {"--nats-ca=" + file("ca.pem"), "--nats-cert=" + file("one.pem"), "--nats-key=" + file("one.key"), "--cluster=over-nats"},
		"tcp":  {"--tcp-ca=" + file("ca.pem"), "--tcp-cert=" + file("one.pem"), "--tcp-key=" + file("one.key"), "--cluster=over-tcp", "--transport=tcp"},
	} {
		c := &cluster{T: t, folder: t.TempDir(), etcd: "https://" + endpoint, nats: fmt.Sprintf("tls://127.0.0.1:%d", port), ports: map[int]int{}, https: map[int]int{}}
		all := append(append([]string(nil), words...), more...)
		one, two := c.agent(1, all...), c.agent(2, all...)
		one.says("is ready", 1)
		two.says("is ready", 1)
		ann := firm(t, one.dial(nil), "user/ann")
		client := two.dial(nil)
		until(t, "it is found over "+transport, func() bool { at, err := client.Find(forever, "user/ann"); return err == nil && at == ann.Activation })
	}
}
