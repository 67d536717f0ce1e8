// Package graindirectory is a client of grain-directory-agent: activations of grains, over the agent's Unix socket.
//
// Before each effect of a work ask May, and give its Token to stores that can test it. When Ends is closed, end the work and call Deactivate; only
// then the agent gives the grain to others. A Client whose Lost is closed is done: dial again.
//
// A context is how long its caller waits. What was asked goes on: a grain that nobody waits for any more is given up.
package graindirectory

import (
	"bufio"
	"context"
	"errors"
	"math"
	"net"
	"strconv"
	"strings"
	"sync"
	"sync/atomic"
	"syscall"
)

// ErrLost says that the agent was fenced, or is gone: all activations are lost.
var ErrLost = errors.New("the agent is fenced, or gone")

// longestLine is what the agent writes at most in one line, in bytes: the answer to `members` is long where there are many.
const longestLine = 16 << 20

// Taken is the activation that a grain has elsewhere.
type Taken string

func (t Taken) Error() string { return "it is active as " + string(t) }

// Refused says why the agent refuses something; all is as it was. By `yours` it refuses what this client has, or asks for already.
type Refused struct{ Code, Why string }

func (r Refused) Error() string { return "refused " + r.Code + " " + r.Why }

// Client is a connection to the agent. It may be used by several goroutines.
type Client struct {
	Lost   chan struct{} // closed when all is lost
	ends   chan struct{} // closed when all works are to end
	once   sync.Once     // of ends
	conn   *net.UnixConn
	raw    syscall.RawConn
	moved  func(*Work)
	out    chan string  // lines to the agent; only who writes them waits for it
	until  atomic.Int64 // the deadline, by the agent's clock
	margin atomic.Int64 // how much earlier it may be by this process's
	isLost atomic.Bool

	mu     sync.Mutex // of what follows; nothing is waited for while it is held
	tag    int64
	waits  map[string]*question // nil once all is lost
	grains map[string]*hold     // what this client has, asks for or ends
}

// question is one without an answer.
type question struct {
	answer chan []string       // gets the words, or nil once all is lost
	hears  func([]string) bool // called before that, under the client's lock, in the order of the agent's lines: whether that can be; or nil
}

// Dialer has what a connection is made with.
type Dialer struct {
	Path     string      // of the agent's socket
	Moved    func(*Work) // called in a goroutine of its own with each grain that moves here; nil: none does
	AnyClock bool        // the agent's clock needn't be this process's; then May never says yes
}

// Dial connects to an agent. moved, if there is one, is called in a goroutine of its own with each grain that moves here.
func Dial(ctx context.Context, path string, moved func(*Work)) (*Client, error) {
	return Dialer{Path: path, Moved: moved}.Dial(ctx)
}

// Dial connects to an agent.
func (d Dialer) Dial(ctx context.Context) (*Client, error) {
	conn, err := (&net.Dialer{}).DialContext(ctx, "unix", d.Path)
	if err != nil {
		return nil, err
	}
	c := &Client{Lost: make(chan struct{}), ends: make(chan struct{}), conn: conn.(*net.UnixConn), moved: d.Moved, out: make(chan string, 256),
		waits: map[string]*question{}, grains: map[string]*hold{}}
	c.margin.Store(math.MaxInt64)
	if c.raw, err = c.conn.SyscallConn(); err == nil {
		go c.write()
		go c.read()
		if !d.AnyClock {
			err = c.compareClocks(ctx)
		}
	}
	if err == nil && d.Moved != nil {
		_, err = c.Ask(ctx, "serve")
	}
	if err != nil {
		conn.Close()
		return nil, err
	}
	return c, nil
}

// Find says where a grain is active, "" for nowhere. It may be an old hint; "user/ann fresh" asks the directory itself.
func (c *Client) Find(ctx context.Context, grain string) (string, error) {
	words, err := c.Ask(ctx, "find "+grain)
	if err != nil || words[0] != "at" || len(words) < 2 {
		return "", err
	}
	return words[1], nil
}

// Ask asks the agent something, and gives the words of its answer.
func (c *Client) Ask(ctx context.Context, question string) ([]string, error) {
	words, _, err := c.ask(ctx, question, nil)
	return words, err
}

// ask also says whether the question is under way, to whom hears what becomes of it though ctx has ended.
func (c *Client) ask(ctx context.Context, text string, hears func([]string) bool) (words []string, isAsked bool, err error) {
	q := &question{answer: make(chan []string, 1), hears: hears}
	c.mu.Lock()
	if c.waits == nil {
		c.mu.Unlock()
		return nil, false, ErrLost
	}
	c.tag++
	tag := strconv.FormatInt(c.tag, 10)
	c.waits[tag] = q
	c.mu.Unlock()
	select {
	case c.out <- tag + " " + text + "\n":
	case <-c.Lost:
		return nil, false, ErrLost
	case <-ctx.Done():
		c.mu.Lock()
		delete(c.waits, tag)
		c.mu.Unlock()
		return nil, false, ctx.Err()
	}
	select {
	case words = <-q.answer:
	case <-ctx.Done():
		return nil, true, ctx.Err()
	}
	switch {
	case words == nil || words[0] == "refused" && len(words) > 1 && words[1] == "lost":
		return nil, true, ErrLost
	case words[0] == "refused" && len(words) > 1:
		return nil, true, Refused{words[1], strings.Join(words[2:], " ")}
	}
	return words, true, nil
}

// Close hangs up: all works have ended.
func (c *Client) Close() error { return c.conn.Close() }

// write writes what is asked, in order.
func (c *Client) write() {
	out := bufio.NewWriter(c.conn)
	for {
		select {
		case line := <-c.out:
			out.WriteString(line)
			if len(c.out) == 0 && out.Flush() != nil {
				return // the reader finds the end
			}
		case <-c.Lost:
			return
		}
	}
}

// read takes the agent's lines until it hangs up, says that all is lost, or says what nobody understands.
func (c *Client) read() {
	lines := bufio.NewScanner(c.conn)
	lines.Buffer(nil, longestLine)
	for lines.Scan() && c.take(strings.Fields(lines.Text())) {
	}
	c.lose()
}

// take takes the words of a line; whether there is more to be read.
func (c *Client) take(words []string) bool {
	switch {
	case len(words) < 2:
		return false
	case words[0] != "event":
		return c.answered(words[0], words[1:])
	case words[1] == "valid" && len(words) == 3:
		until, err := strconv.ParseInt(words[2], 10, 64)
		if err == nil && until > c.until.Load() {
			c.until.Store(until) // only here
		}
		return err == nil
	case words[1] == "firm":
		return c.movedHere(words[1:])
	case words[1] == "leaving":
		c.once.Do(func() { close(c.ends) })
	}
	return words[1] != "lost"
}

// answered takes an answer; whether anybody has asked for it.
func (c *Client) answered(tag string, words []string) bool {
	c.mu.Lock()
	defer c.mu.Unlock()
	q := c.waits[tag]
	if q == nil || q.hears != nil && !q.hears(words) {
		return false
	}
	delete(c.waits, tag)
	q.answer <- words
	return true
}

// lose ends all: who waits hears it, and works are to end. Once they have, it hangs up.
func (c *Client) lose() {
	c.isLost.Store(true)
	c.mu.Lock()
	for _, q := range c.waits {
		q.answer <- nil
	}
	c.waits = nil
	for _, h := range c.grains {
		if h.phase != working {
			c.drop(h, ErrLost)
		}
	}
	c.hangUp()
	c.mu.Unlock()
	c.once.Do(func() { close(c.ends) })
	close(c.Lost)
}

// hangUp hangs up once all is lost and no work goes on.
func (c *Client) hangUp() {
	if c.waits == nil && len(c.grains) == 0 {
		c.conn.Close()
	}
}
