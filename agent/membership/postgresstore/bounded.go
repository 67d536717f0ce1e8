package postgresstore

import (
	"context"
	"net"
	"time"
)

// silence is how long a server may say nothing while something is read from it. Package pq waits for an answer, or for that to its wish to cancel,
// whatever the context says; a server that stands still gives neither.
const silence = 3 * time.Second

// dialer makes connections that are broken off in such a silence.
type dialer struct{ net.Dialer }

func (d dialer) Dial(network, address string) (net.Conn, error) {
	return d.DialTimeout(network, address, silence)
}

func (d dialer) DialTimeout(network, address string, timeout time.Duration) (net.Conn, error) {
	ctx, done := context.WithTimeout(context.Background(), timeout)
	defer done()
	return d.DialContext(ctx, network, address)
}

func (d dialer) DialContext(ctx context.Context, network, address string) (net.Conn, error) {
	connected, err := d.Dialer.DialContext(ctx, network, address)
	if err != nil {
		return nil, err
	}
	return conn{connected}, nil
}

type conn struct{ net.Conn }

// Read reads, but not for ever. Idle connections aren't read from.
func (c conn) Read(bytes []byte) (int, error) {
	c.Conn.SetReadDeadline(time.Now().Add(silence))
	return c.Conn.Read(bytes)
}

// Write writes, but not for ever.
func (c conn) Write(bytes []byte) (int, error) {
	c.Conn.SetWriteDeadline(time.Now().Add(silence))
	return c.Conn.Write(bytes)
}

type outcome[T any] struct {
	result T
	err    error
}

// bounded does something, and returns with the context's end at the latest; what isn't done by then goes on until its connection is broken off.
func bounded[T any](ctx context.Context, do func() (T, error)) (result T, err error) {
	ended := make(chan outcome[T], 1)
	go func() {
		result, err := do()
		ended <- outcome[T]{result, err}
	}()
	select {
	case d := <-ended:
		return d.result, d.err
	case <-ctx.Done():
		return result, ctx.Err()
	}
}
