// Package tcpcarrier carries messages from agent to agent over TCP, without a broker: who has letters for a silo connects to its endpoint. With
// certificates both ends show one that the same authority signed. That of the called names its address, and that of the caller those from which it may
// carry letters. A message is its length in four bytes, and its bytes. What a connection that breaks has under way is lost.
package tcpcarrier

import (
	"bufio"
	"context"
	"crypto/tls"
	"encoding/binary"
	"errors"
	"fmt"
	"io"
	"log"
	"net"
	"sync"
	"syscall"
	"time"

	"agent/directory"
	"agent/transport"
)

// Bounds: of a message, of messages that wait for one silo, and of connections that come in.
const (
	longestMessage = 1 << 20
	mostWaiting    = 64
	mostIncoming   = 1024
)

// How long a connection may take, what was sent may stay unacknowledged, and a peer may be idle.
const (
	patience = 2 * time.Second
	retry    = 100 * time.Millisecond
	idle     = time.Minute
)

var (
	errFull = errors.New("too much waits for this silo")
	errIdle = errors.New("nothing is to be carried")
)

// Line is a TCP endpoint at which messages come in.
type Line struct {
	listener net.Listener
	tls      *tls.Config // nil: without
	ctx      context.Context
	stop     context.CancelFunc

	mu       sync.Mutex
	peers    map[directory.Silo]chan []byte
	incoming map[net.Conn]time.Time // since when nothing came
}

// Open listens at an endpoint. certificates has what both ends of each connection show and want; nil is for networks that no stranger reaches.
func Open(endpoint string, certificates *tls.Config) (*Line, error) {
	listener, err := net.Listen("tcp", endpoint)
	if err != nil {
		return nil, fmt.Errorf("letters over TCP come in at the silo's own endpoint: %w", err)
	}
	ctx, stop := context.WithCancel(context.Background())
	return &Line{listener: listener, tls: certificates, ctx: ctx, stop: stop, peers: map[directory.Silo]chan []byte{}, incoming: map[net.Conn]time.Time{}}, nil
}

// Carry takes what comes in.
func (c *Line) Carry(_ directory.Silo, take transport.Receiver) (transport.Carrier, error) {
	go c.accept(take)
	return c, nil
}

// Most is the longest message that peers take.
func (c *Line) Most() int { return longestMessage }

// Up is always so: there is no broker to be lost.
func (c *Line) Up() bool { return true }

// Close ends all connections.
func (c *Line) Close() {
	c.stop()
	c.listener.Close()
	c.mu.Lock()
	defer c.mu.Unlock()
	for conn := range c.incoming {
		conn.Close()
	}
}

func (c *Line) accept(take transport.Receiver) {
	for c.ctx.Err() == nil {
		conn, err := c.listener.Accept()
		if err != nil {
			if c.ctx.Err() == nil {
				log.Printf("warning: a connection isn't accepted: %v", err)
				time.Sleep(retry)
			}
			continue
		}
		if !c.note(conn) {
			conn.Close()
			continue
		}
		go func() {
			defer c.forget(conn)
			if err := c.serve(conn, take); err != nil && c.ctx.Err() == nil && err != io.EOF {
				log.Printf("debug: the connection from %s ends: %v", conn.RemoteAddr(), err)
			}
		}()
	}
}

// note keeps an incoming connection. Where there are too many, the one that has been idle for longest goes.
func (c *Line) note(conn net.Conn) bool {
	c.mu.Lock()
	defer c.mu.Unlock()
	if c.ctx.Err() != nil {
		return false
	}
	if len(c.incoming) >= mostIncoming {
		var oldest net.Conn
		for one, since := range c.incoming {
			if oldest == nil || since.Before(c.incoming[oldest]) {
				oldest = one
			}
		}
		oldest.Close()
		delete(c.incoming, oldest)
	}
	c.incoming[conn] = time.Now()
	return true
}

// came notes that a message came.
func (c *Line) came(conn net.Conn) {
	c.mu.Lock()
	defer c.mu.Unlock()
	if _, isThere := c.incoming[conn]; isThere {
		c.incoming[conn] = time.Now()
	}
}

func (c *Line) forget(conn net.Conn) {
	conn.Close()
	c.mu.Lock()
	defer c.mu.Unlock()
	delete(c.incoming, conn)
}

// serve takes the messages of a connection that came in.
func (c *Line) serve(raw net.Conn, take transport.Receiver) error {
	conn, sender := raw, transport.Sender(nil)
	if c.tls != nil {
		secure := tls.Server(raw, c.tls)
		raw.SetDeadline(time.Now().Add(patience))
		if err := secure.Handshake(); err != nil {
			log.Printf("warning: %s isn't let in: %v", raw.RemoteAddr(), err)
			return err
		}
		raw.SetDeadline(time.Time{})
		conn, sender = secure, named(secure.ConnectionState().PeerCertificates[0])
	}
	reader := bufio.NewReaderSize(conn, 64<<10)
	for wait := patience; ; wait = 2 * idle { // who connects has something to say, and hangs up when it has been idle
		var size [4]byte
		raw.SetReadDeadline(time.Now().Add(wait))
		if _, err := io.ReadFull(reader, size[:]); err != nil {
			return err
		}
		raw.SetReadDeadline(time.Now().Add(5 * patience))
		length := binary.BigEndian.Uint32(size[:])
		if length > longestMessage {
			return fmt.Errorf("a message of %d bytes", length)
		}
		message := make([]byte, length)
		if _, err := io.ReadFull(reader, message); err != nil {
			return err
		}
		c.came(raw)
		take(message, sender)
	}
}

// Publish implements transport.Carrier.
func (c *Line) Publish(to directory.Silo, message []byte) error {
	c.mu.Lock()
	defer c.mu.Unlock()
	if c.ctx.Err() != nil {
		return c.ctx.Err()
	}
	peer := c.peers[to]
	if peer == nil {
		peer = make(chan []byte, mostWaiting)
		c.peers[to] = peer
		go c.reach(to, peer)
	}
	select {
	case peer <- message:
		return nil
	default:
		return errFull
	}
}

// reach carries to one generation of a silo, and connects anew whenever that broke, until nothing was to be carried for a while.
func (c *Line) reach(to directory.Silo, messages chan []byte) {
	for {
		message, err := c.next(messages)
		if err != nil {
			if c.end(to, messages) {
				return
			}
			continue
		}
		conn, err := c.dial(to)
		if err == nil {
			err = c.carry(conn, message, messages)
			conn.Close()
		}
		if err != nil && err != errIdle {
			log.Printf("debug: %s isn't reached: %v", to, err)
			time.Sleep(retry)
			for len(messages) > 0 {
				<-messages // what waited is lost
			}
		}
	}
}

// next is the next message, or why there is none.
func (c *Line) next(messages chan []byte) ([]byte, error) {
	timer := time.NewTimer(idle)
	defer timer.Stop()
	select {
	case <-c.ctx.Done():
		return nil, c.ctx.Err()
	case <-timer.C:
		return nil, errIdle
	case message := <-messages:
		return message, nil
	}
}

// end takes a peer away, if nothing waits for it.
func (c *Line) end(to directory.Silo, messages chan []byte) bool {
	c.mu.Lock()
	defer c.mu.Unlock()
	if len(messages) > 0 && c.ctx.Err() == nil {
		return false
	}
	delete(c.peers, to)
	return true
}

// dial connects. What isn't acknowledged for a while breaks the connection: else the kernel would try ever more rarely, and go on with that long
// after a cut was healed.
func (c *Line) dial(to directory.Silo) (net.Conn, error) {
	dialer := net.Dialer{Timeout: patience, Control: func(_, _ string, raw syscall.RawConn) error {
		const userTimeout = 18 // TCP_USER_TIMEOUT of tcp(7), in milliseconds
		return raw.Control(func(fd uintptr) {
			syscall.SetsockoptInt(int(fd), syscall.IPPROTO_TCP, userTimeout, int(patience/time.Millisecond))
		})
	}}
	ctx, done := context.WithTimeout(c.ctx, patience)
	defer done()
	conn, err := dialer.DialContext(ctx, "tcp", to.Endpoint())
	if err != nil || c.tls == nil {
		return conn, err
	}
	settings := c.tls.Clone()
	settings.ServerName, _, _ = net.SplitHostPort(to.Endpoint())
	secure := tls.Client(conn, settings)
	if err := secure.HandshakeContext(ctx); err != nil {
		conn.Close()
		log.Printf("warning: %s isn't whom its certificate should name, or doesn't let this agent in: %v", to, err)
		return nil, err
	}
	return secure, nil
}

// carry writes messages until a fault, or until there were none for a while.
func (c *Line) carry(conn net.Conn, message []byte, messages chan []byte) (err error) {
	writer := bufio.NewWriterSize(conn, 64<<10)
	for ; err == nil; message, err = c.next(messages) {
		var size [4]byte
		binary.BigEndian.PutUint32(size[:], uint32(len(message)))
		conn.SetWriteDeadline(time.Now().Add(patience))
		writer.Write(size[:])
		if _, err := writer.Write(message); err != nil {
			return err
		}
		if len(messages) == 0 {
			if err := writer.Flush(); err != nil {
				return err
			}
		}
	}
	return err
}
