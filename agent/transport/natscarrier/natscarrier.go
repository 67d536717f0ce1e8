// Package natscarrier carries messages over NATS: each generation of a silo has a subject of its own, grain-directory.NAME.SILO.
package natscarrier

import (
	"crypto/tls"
	"fmt"
	"log"
	"time"

	"github.com/nats-io/nats.go"

	"agent/directory"
	"agent/transport"
)

// Options say where NATS is, and how one comes in. Users and passwords may also stand in the URLs.
type Options struct {
	Servers     string      // URLs, with commas
	TLS         *tls.Config // nil: as the URLs say
	Credentials string      // a file of credentials, or ""
	Directory   string
	Changed     func(up bool) // told when NATS is lost, and when it is back
}

// mostWaiting is how many bytes of messages that came wait here at most; what is past it is lost.
const mostWaiting = 64 << 20

// Line is a connection to NATS.
type Line struct {
	conn   *nats.Conn
	prefix string
}

// Open connects.
func Open(options Options) (*Line, error) {
	settings := []nats.Option{
		nats.Name("grain-directory-agent"), nats.MaxReconnects(-1), nats.ReconnectWait(250 * time.Millisecond),
		nats.ReconnectJitter(50*time.Millisecond, 50*time.Millisecond),
		nats.ReconnectBufSize(-1), // a letter that can't go now is lost: it is sent again if it is still wanted
		nats.PingInterval(time.Second), nats.MaxPingsOutstanding(2), nats.Timeout(2 * time.Second), nats.FlusherTimeout(2 * time.Second),
		nats.DisconnectErrHandler(func(conn *nats.Conn, err error) {
			if conn.IsClosed() {
				return
			}
			log.Printf("warning: NATS is lost: %v", err)
			options.Changed(false)
		}),
		nats.ReconnectHandler(func(*nats.Conn) {
			log.Print("NATS is back")
			options.Changed(true)
		}),
		nats.ErrorHandler(func(_ *nats.Conn, _ *nats.Subscription, err error) { log.Printf("warning: NATS: %v", err) }),
	}
	if options.TLS != nil {
		settings = append(settings, nats.Secure(options.TLS))
	}
	if options.Credentials != "" {
		settings = append(settings, nats.UserCredentials(options.Credentials))
	}
	conn, err := nats.Connect(options.Servers, settings...)
	if err != nil {
		return nil, fmt.Errorf("NATS can't be reached at %s: %w", options.Servers, err)
	}
	return &Line{conn, "grain-directory." + options.Directory + "."}, nil
}

// Carry takes the messages to a silo.
func (l *Line) Carry(me directory.Silo, take transport.Receiver) (transport.Carrier, error) {
	subscription, err := l.conn.Subscribe(l.prefix+string(me), func(m *nats.Msg) { take(m.Data, nil) })
	if err == nil {
		err = subscription.SetPendingLimits(-1, mostWaiting)
	}
	if err == nil {
		err = l.conn.Flush()
	}
	return l, err
}

// Publish implements transport.Carrier.
func (l *Line) Publish(to directory.Silo, message []byte) error {
	return l.conn.Publish(l.prefix+string(to), message)
}

// Most is NATS's own limit, which an operator may change while agents run.
func (l *Line) Most() int { return int(l.conn.MaxPayload()) }

// Up says whether NATS is connected.
func (l *Line) Up() bool { return l.conn.IsConnected() }

// Close ends the connection.
func (l *Line) Close() { l.conn.Close() }
