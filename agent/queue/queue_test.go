package queue

import (
	"bytes"
	"errors"
	"testing"
	"time"
)

func TestBound(t *testing.T) {
	q := New(10)
	for _, step := range []struct {
		line   string
		within int
		taken  bool
	}{{"abc", 10, true}, {"abc", 7, false}, {"abc", 10, true}, {"a", 10, true}, {"", 10, false}} {
		if q.Add([]byte(step.line), step.within) != step.taken {
			t.Errorf("%+v, with %d waiting", step, q.Size())
		}
	}
	q.Close()
	if q.Add(nil, 100) {
		t.Error("a closed queue took a line")
	}
	var out bytes.Buffer
	q.Run(&out, nil)
	if out.String() != "abc\nabc\na\n" {
		t.Errorf("%q", out.String())
	}
}

type faulty struct{}

func (faulty) Write([]byte) (int, error) { return 0, errors.New("broken") }

func TestEnds(t *testing.T) {
	q := New(10)
	q.Add([]byte("a"), 10)
	q.Run(faulty{}, nil)
	q.Add([]byte("a"), 10)
	var out bytes.Buffer
	q.Run(&out, func() bool { return false })
	if out.Len() != 0 {
		t.Error("written though it may not be")
	}
}

// Who waits for room goes on when lines are taken, and when nobody takes them any more.
func TestAwaitRoom(t *testing.T) {
	for name, end := range map[string]func(*Lines){"taken": func(q *Lines) { q.Run(&bytes.Buffer{}, func() bool { q.Close(); return true }) },
		"closed": func(q *Lines) { q.Close() }, "broken": func(q *Lines) { q.Run(faulty{}, nil) }} {
		q := New(10)
		q.AwaitRoom(0)
		q.Add([]byte("a"), 10)
		q.AwaitRoom(2)
		waited := make(chan bool)
		go func() {
			q.AwaitRoom(1)
			close(waited)
		}()
		select {
		case <-waited:
			t.Errorf("%s: it doesn't wait", name)
		case <-time.After(20 * time.Millisecond):
		}
		go end(q)
		select {
		case <-waited:
		case <-time.After(5 * time.Second):
			t.Errorf("%s: it waits for ever", name)
		}
	}
}
