// Package queue has lines that wait to be written, with a bound. Whoever adds never waits: what is past the bound isn't taken.
package queue

import (
	"io"
	"sync"
)

// Lines is a queue of lines, written many at once by one goroutine.
type Lines struct {
	mu      sync.Mutex
	some    *sync.Cond // that lines wait, or the queue is closed
	taken   *sync.Cond // that lines are being written, or the queue is closed
	most    int
	pending []byte
	closed  bool
	ended   bool // nobody writes the lines any more
}

// New makes a queue for so many bytes.
func New(most int) *Lines {
	q := &Lines{most: most}
	q.some, q.taken = sync.NewCond(&q.mu), sync.NewCond(&q.mu)
	return q
}

// Add adds a line if fewer than within bytes wait, which may be less than the bound, so that lines that matter have room where others haven't.
func (q *Lines) Add(line []byte, within int) bool {
	q.mu.Lock()
	defer q.mu.Unlock()
	size := len(q.pending) + len(line) + 1
	if q.closed || size > q.most || size > within {
		return false
	}
	q.pending = append(append(q.pending, line...), '\n')
	q.some.Signal()
	return true
}

// Size is how many bytes wait.
func (q *Lines) Size() int {
	q.mu.Lock()
	defer q.mu.Unlock()
	return len(q.pending)
}

// AwaitRoom waits until so many bytes wait at most, or the queue is closed, or nobody writes them any more.
func (q *Lines) AwaitRoom(most int) {
	q.mu.Lock()
	defer q.mu.Unlock()
	for len(q.pending) > most && !q.closed && !q.ended {
		q.taken.Wait()
	}
}

// Most is the queue's bound in bytes.
func (q *Lines) Most() int { return q.most }

// Close has what waits written, and takes no more.
func (q *Lines) Close() {
	q.mu.Lock()
	defer q.mu.Unlock()
	q.closed = true
	q.some.Signal()
	q.taken.Broadcast()
}

func (q *Lines) end() {
	q.mu.Lock()
	defer q.mu.Unlock()
	q.ended = true
	q.taken.Broadcast()
}

// Run writes what is added, until the queue is closed and empty, a write fails, or may, which is asked before each write, says no.
func (q *Lines) Run(w io.Writer, may func() bool) {
	const keep = 1 << 20 // a buffer that grew larger is given back
	defer q.end()
	var spare []byte
	for {
		q.mu.Lock()
		for len(q.pending) == 0 && !q.closed {
			q.some.Wait()
		}
		lines := q.pending
		q.pending = spare[:0]
		q.taken.Broadcast()
		q.mu.Unlock()
		if len(lines) == 0 {
			return
		}
		if may != nil && !may() {
			return
		}
		if _, err := w.Write(lines); err != nil {
			return
		}
		if spare = lines; cap(spare) > keep {
			spare = nil
		}
	}
}
