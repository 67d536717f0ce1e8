package tcpcarrier

import (
	"crypto/ecdsa"
	"crypto/elliptic"
	"crypto/rand"
	"crypto/tls"
	"crypto/x509"
	"crypto/x509/pkix"
	"errors"
	"fmt"
	"io"
	"math/big"
	"net"
	"net/url"
	"strings"
	"sync/atomic"
	"syscall"
	"testing"
	"time"

	"agent/directory"
	"agent/servers"
	"agent/transport"
)

func silo(t *testing.T, address string) directory.Silo {
	return directory.Silo(fmt.Sprintf("%s:%d@1", address, servers.Port(t)))
}

func open(t *testing.T, me directory.Silo, certificates *tls.Config) (transport.Carrier, chan string) {
	came := make(chan string, 100)
	line, err := Open(me.Endpoint(), certificates)
	if err != nil {
		t.Fatal(err)
	}
	c, _ := line.Carry(me, func(message []byte, _ transport.Sender) { came <- string(message) })
	t.Cleanup(c.Close)
	return c, came
}

var greetings int64

// comes sends a message of its own until that comes, since any may be lost.
func comes(from transport.Carrier, to directory.Silo, came chan string, wait time.Duration) bool {
	hello := fmt.Sprintf("hello %d", atomic.AddInt64(&greetings, 1))
	for end := time.Now().Add(wait); time.Now().Before(end); {
		from.Publish(to, []byte(hello))
		select {
		case message := <-came:
			if message == hello {
				return true
			}
		case <-time.After(50 * time.Millisecond):
		}
	}
	return false
}

func TestCarries(t *testing.T) {
	a, b := silo(t, "127.0.0.1"), silo(t, "127.0.0.1")
	from, _ := open(t, a, nil)
	if from.Publish(b, []byte("to nobody")) != nil {
		t.Error("a message to nobody isn't simply lost")
	}
	_, came := open(t, b, nil)
	if !comes(from, b, came, 5*time.Second) {
		t.Fatal("nothing comes")
	}
	for i := 0; i < 20; i++ {
		message := strings.Repeat("x", i*50000)
		from.Publish(b, []byte(message))
		for got := ""; got != message; {
			select {
			case got = <-came:
			case <-time.After(5 * time.Second):
				t.Fatalf("a message of %d bytes doesn't come", len(message))
			}
		}
	}
}

// Who comes again at the same endpoint is reached again.
func TestComesAgain(t *testing.T) {
	a, b := silo(t, "127.0.0.1"), silo(t, "127.0.0.1")
	from, _ := open(t, a, nil)
	for i := 0; i < 3; i++ {
		came := make(chan string, 100)
		c, err := Open(b.Endpoint(), nil)
		if err != nil {
			t.Fatal(err)
		}
		c.Carry(b, func(message []byte, _ transport.Sender) { came <- string(message) })
		if !comes(from, b, came, 5*time.Second) {
			t.Fatal("nothing comes")
		}
		c.Close()
	}
}

// authority signs certificates for addresses.
type authority struct {
	t    *testing.T
	cert *x509.Certificate
	key  *ecdsa.PrivateKey
	pool *x509.CertPool
}

func newAuthority(t *testing.T) *authority {
	key, err := ecdsa.GenerateKey(elliptic.P256(), rand.Reader)
	if err != nil {
		t.Fatal(err)
	}
	template := &x509.Certificate{SerialNumber: big.NewInt(1), Subject: pkix.Name{CommonName: "authority"}, NotAfter: time.Now().Add(time.Hour),
		IsCA: true, BasicConstraintsValid: true, KeyUsage: x509.KeyUsageCertSign}
	der, err := x509.CreateCertificate(rand.Reader, template, template, &key.PublicKey, key)
	if err != nil {
		t.Fatal(err)
	}
	cert, _ := x509.ParseCertificate(der)
	pool := x509.NewCertPool()
	pool.AddCert(cert)
	return &authority{t, cert, key, pool}
}

func (a *authority) settings(address string) *tls.Config {
	key, err := ecdsa.GenerateKey(elliptic.P256(), rand.Reader)
	if err != nil {
		a.t.Fatal(err)
	}
	template := &x509.Certificate{SerialNumber: big.NewInt(2), Subject: pkix.Name{CommonName: address}, NotAfter: time.Now().Add(time.Hour),
		IPAddresses: []net.IP{net.ParseIP(address)}, KeyUsage: x509.KeyUsageDigitalSignature,
		ExtKeyUsage: []x509.ExtKeyUsage{x509.ExtKeyUsageServerAuth, x509.ExtKeyUsageClientAuth}}
	der, err := x509.CreateCertificate(rand.Reader, template, a.cert, &key.PublicKey, a.key)
	if err != nil {
		a.t.Fatal(err)
	}
	return &tls.Config{Certificates: []tls.Certificate{{Certificate: [][]byte{der}, PrivateKey: key}}, RootCAs: a.pool, ClientCAs: a.pool,
		ClientAuth: tls.RequireAndVerifyClientCert, MinVersion: tls.VersionTLS13}
}

// Only who shows a certificate of the authority is let in, and only who shows one of its address is written to.
func TestMutualTLS(t *testing.T) {
	ours, theirs := newAuthority(t), newAuthority(t)
	a, b := silo(t, "127.0.0.1"), silo(t, "127.0.0.1")
	from, _ := open(t, a, ours.settings("127.0.0.1"))
	_, came := open(t, b, ours.settings("127.0.0.1"))
	if !comes(from, b, came, 5*time.Second) {
		t.Fatal("nothing comes")
	}
	for name, settings := range map[string]*tls.Config{"of another authority": theirs.settings("127.0.0.1"), "none": nil} {
		stranger, _ := open(t, silo(t, "127.0.0.1"), settings)
		if comes(stranger, b, came, 300*time.Millisecond) {
			t.Errorf("let in with a certificate that is %s", name)
		}
	}
	impostor := silo(t, "127.0.0.1")
	_, heard := open(t, impostor, ours.settings("127.0.0.2"))
	if comes(from, impostor, heard, 300*time.Millisecond) {
		t.Error("written to, though its certificate names another address")
	}
}

// Who doesn't read loses messages, and the writer goes on.
func TestStuck(t *testing.T) {
	a, b := silo(t, "127.0.0.1"), silo(t, "127.0.0.1")
	from, _ := open(t, a, nil)
	listener, err := net.Listen("tcp", b.Endpoint())
	if err != nil {
		t.Fatal(err)
	}
	defer listener.Close()
	full := false
	for i := 0; i < 1000 && !full; i++ {
		full = from.Publish(b, make([]byte, longestMessage)) != nil
	}
	if !full {
		t.Error("a thousand messages of 1 MiB were taken for a silo that reads none")
	}
}

// A certificate says from which endpoints its owner may carry letters: from those of its address, or from those that it names.
func TestNamed(t *testing.T) {
	ours := newAuthority(t)
	a, b := silo(t, "127.0.0.1"), silo(t, "127.0.0.1")
	from, _ := open(t, a, ours.settings("127.0.0.1"))
	line, err := Open(b.Endpoint(), ours.settings("127.0.0.1"))
	if err != nil {
		t.Fatal(err)
	}
	senders := make(chan transport.Sender, 100)
	carrier, _ := line.Carry(b, func(_ []byte, sender transport.Sender) { senders <- sender })
	t.Cleanup(carrier.Close)
	from.Publish(b, []byte("hello"))
	select {
	case sender := <-senders:
		if sender == nil || !sender(a.Endpoint()) || sender("127.0.0.2:7000") || sender("nonsense") || !sender("127.0.0.1:1") {
			t.Error("it isn't taken for whom its certificate names")
		}
	case <-time.After(5 * time.Second):
		t.Fatal("nothing comes")
	}
	uri, _ := url.Parse("grain-directory://127.0.0.1:7001")
	one := named(&x509.Certificate{URIs: []*url.URL{uri}, IPAddresses: []net.IP{net.ParseIP("127.0.0.1")}})
	if !one("127.0.0.1:7001") || one("127.0.0.1:7002") || !one("127.0.0.1:7001") {
		t.Error("one that names an endpoint may carry another's letters")
	}
}

// Strangers who connect, and say nothing, keep nobody out.
func TestIdle(t *testing.T) {
	a, b := silo(t, "127.0.0.1"), silo(t, "127.0.0.1")
	from, _ := open(t, a, nil)
	_, came := open(t, b, nil)
	var all []net.Conn
	for i := 0; i < mostIncoming+50; i++ {
		conn, err := net.Dial("tcp", b.Endpoint())
		if err != nil {
			t.Skip(err)
		}
		defer conn.Close()
		all = append(all, conn)
	}
	if !comes(from, b, came, 5*time.Second) {
		t.Error("nothing comes beside idle connections")
	}
	for _, conn := range []net.Conn{all[0], all[len(all)-1]} {
		conn.SetDeadline(time.Now().Add(5 * patience))
		if _, err := conn.Read(make([]byte, 1)); err != io.EOF && !errors.Is(err, syscall.ECONNRESET) {
			t.Errorf("an idle connection stays: %v", err)
		}
	}
}
