package main

import (
	"bufio"
	"context"
	"fmt"
	"math/rand"
	"net"
	"strconv"
	"strings"
	"sync"
	"sync/atomic"
	"time"
)

// careless is a connection without the client, which asks for a grain in the same write as for its migration, and works as soon as it hears `firm`.
type careless struct {
	conn       net.Conn
	until      atomic.Int64
	answers    chan []string
	ends, lost chan struct{}
}

// live lives of few grains at random until ctx ends, or all is lost.
func (c *careless) live(ctx context.Context, o options, random *rand.Rand, s *store, r *record) {
	for ctx.Err() == nil {
		grain := fmt.Sprintf("%s/%d", o.prefix, random.Intn(o.grains))
		answers := c.ask(ctx, "activate "+grain)
		for answers != nil && answers[len(answers)-1][0] == "firm" {
			words := answers[len(answers)-1] // firm ACTIVATION GRAIN token V
			token, _ := strconv.ParseUint(words[4], 10, 64)
			l := live(o, working{grain, words[1], token, c.ends, c.lost, c.may}, time.Duration(random.Int63n(int64(o.longest))), s)
			if random.Intn(3) == 0 {
				answers = c.ask(ctx, "deactivate "+grain)
			} else {
				answers = c.ask(ctx, "migrate "+grain+" any", "activate "+grain)
			}
			l.Lost = l.Lost && answers == nil
			r.lived(l)
			for _, words := range answers {
				r.answer("carelessly " + strings.Join(words[:1], " "))
			}
		}
		if answers == nil {
			return
		}
		if answers[len(answers)-1][0] == "refused" {
			c.ask(ctx, "deactivate "+grain) // what it was refused it may have yet
		}
		time.Sleep(time.Duration(random.Intn(20)) * time.Millisecond)
	}
}

// dialCareless works grains over a connection of its own.
func dialCareless(ctx context.Context, o options, socket string, random *rand.Rand, s *store, r *record) {
	conn, err := (&net.Dialer{}).DialContext(ctx, "unix", socket)
	if err != nil {
		time.Sleep(20 * time.Millisecond)
		return
	}
	defer conn.Close()
	c := &careless{conn: conn, answers: make(chan []string, 16), ends: make(chan struct{}), lost: make(chan struct{})}
	go c.read()
	c.live(ctx, o, random, s, r)
}

func (c *careless) may() bool { return now() < c.until.Load() }

// ask asks some things in one write, and gives the answers by their order; nil where all is lost, or the time is over.
func (c *careless) ask(ctx context.Context, questions ...string) [][]string {
	text := ""
	for tag, question := range questions {
		text += fmt.Sprintf("%d %s\n", tag, question)
	}
	if _, err := c.conn.Write([]byte(text)); err != nil {
		return nil
	}
	answers := make([][]string, len(questions))
	for range questions {
		select {
		case words := <-c.answers:
			tag, _ := strconv.Atoi(words[0])
			answers[tag] = words[1:]
		case <-c.lost:
			return nil
		case <-ctx.Done():
			return nil
		}
	}
	return answers
}

// read takes the agent's lines until all is lost.
func (c *careless) read() {
	var leaving sync.Once
	defer close(c.lost)
	defer leaving.Do(func() { close(c.ends) })
	for lines := bufio.NewScanner(c.conn); lines.Scan(); {
		words := strings.Fields(lines.Text())
		switch {
		case words[0] != "event":
			c.answers <- words
		case words[1] == "valid":
			until, _ := strconv.ParseInt(words[2], 10, 64)
			c.until.Store(until)
		case words[1] == "leaving":
			leaving.Do(func() { close(c.ends) })
		case words[1] == "lost":
			return
		}
	}
}
