package operation

import (
	"fmt"
	"io"
	"sync/atomic"
	"time"

	"agent/queue"
)

// mostBehind is how many bytes of lines wait to be written.
const mostBehind = 1 << 20

// Behind writes lines behind the back of who logs: nobody waits for standard error, and no kill and no beat does. What is past its bound is lost.
type Behind struct {
	lines   *queue.Lines
	lost    int64 // atomic
	written chan struct{}
}

// NewBehind writes to a stream.
func NewBehind(out io.Writer) *Behind {
	b := &Behind{lines: queue.New(mostBehind), written: make(chan struct{})}
	go func() {
		b.lines.Run(careless{out}, nil)
		close(b.written)
	}()
	return b
}

// Write takes a line, with its line feed, and doesn't wait.
func (b *Behind) Write(line []byte) (int, error) {
	text := line
	if len(text) > 0 && text[len(text)-1] == '\n' {
		text = text[:len(text)-1]
	}
	if lost := atomic.LoadInt64(&b.lost); lost > 0 && b.lines.Size() < mostBehind/2 && atomic.CompareAndSwapInt64(&b.lost, lost, 0) {
		b.lines.Add([]byte(fmt.Sprintf("%d lines of this log are lost: nobody read it", lost)), mostBehind)
	}
	if !b.lines.Add(text, mostBehind) {
		atomic.AddInt64(&b.lost, 1)
	}
	return len(line), nil
}

// Close has what waits written, but waits for no longer than that.
func (b *Behind) Close(most time.Duration) {
	b.lines.Close()
	select {
	case <-b.written:
	case <-time.After(most):
	}
}

// careless goes on where a write fails.
type careless struct{ out io.Writer }

func (c careless) Write(bytes []byte) (int, error) {
	c.out.Write(bytes)
	return len(bytes), nil
}
