package operation

import (
	"io"
	"strings"
	"testing"
	"time"
)

// stuck is a stream that nobody reads until it is opened.
type stuck struct {
	open chan struct{}
	text strings.Builder
}

func (s *stuck) Write(bytes []byte) (int, error) {
	<-s.open
	s.text.Write(bytes)
	return len(bytes), io.ErrShortWrite // which is nothing to whoever logs
}

// Who logs doesn't wait for a stream that nobody reads; what was past the bound is told to be lost.
func TestBehind(t *testing.T) {
	out := &stuck{open: make(chan struct{})}
	b := NewBehind(out)
	line := []byte(strings.Repeat("x", 1023) + "\n")
	done := make(chan bool)
	go func() {
		for i := 0; i < 4096; i++ {
			b.Write(line)
		}
		close(done)
	}()
	select {
	case <-done:
	case <-time.After(5 * time.Second):
		t.Fatal("who logs waits")
	}
	began := time.Now()
	waits := NewBehind(&stuck{open: make(chan struct{})})
	waits.Write(line)
	if waits.Close(50 * time.Millisecond); time.Since(began) > 5*time.Second {
		t.Error("the end waits for a stream that nobody reads")
	}
	close(out.open)
	for end := time.Now().Add(5 * time.Second); b.lines.Size() > 0 && time.Now().Before(end); time.Sleep(time.Millisecond) {
	}
	b.Write([]byte("the last\n"))
	b.Close(5 * time.Second)
	if text := out.text.String(); !strings.Contains(text, " lines of this log are lost") || !strings.HasSuffix(text, "\nthe last\n") {
		t.Errorf("it ends in %q", text[len(text)-200:])
	}
}
