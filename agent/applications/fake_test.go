package applications

import (
	"bufio"
	"fmt"
	"net"
	"path/filepath"
	"strings"
	"sync"
	"sync/atomic"
	"testing"
	"time"

	"agent/clock"
	"agent/directory"
	"agent/silo"
)

// fake is a silo of which a test says the answers.
type fake struct {
	mu    sync.Mutex
	lines []string
	waits []func(silo.Answer)
	busy  bool
}

func (f *fake) add(line string, answer func(silo.Answer)) error {
	f.mu.Lock()
	defer f.mu.Unlock()
	if f.busy {
		return silo.ErrBusy
	}
	f.lines = append(f.lines, line)
	f.waits = append(f.waits, answer)
	return nil
}

func (f *fake) Wake(grain string, answer func(silo.Answer)) error {
	return f.add("wake "+grain, answer)
}

func (f *fake) Close(grain string, answer func(silo.Answer)) error {
	return f.add("close "+grain, answer)
}

func (f *fake) Cancel(grain string, answer func(silo.Answer)) error {
	return f.add("cancel "+grain, answer)
}

func (f *fake) Offer(grain string, to directory.Silo, answer func(silo.Answer)) error {
	return f.add("offer "+grain+" "+string(to), answer)
}

func (f *fake) Find(grain string, answer func(silo.Answer)) error {
	return f.add("find "+grain, answer)
}

func (f *fake) Forget(grain string) error { return f.add("forget "+grain, func(silo.Answer) {}) }

func (f *fake) Place(grain string, answer func(directory.Silo)) error {
	return f.add("place "+grain, func(place silo.Answer) { answer(directory.Silo(place.Activation)) })
}

// answers waits for a line to the silo, and answers it.
func (f *fake) answers(t *testing.T, line string, answer silo.Answer) {
	t.Helper()
	for end := time.Now().Add(5 * time.Second); ; time.Sleep(time.Millisecond) {
		f.mu.Lock()
		if len(f.lines) > 0 {
			if f.lines[0] != line {
				t.Fatalf("the silo is told %q, not %q", f.lines[0], line)
			}
			wait := f.waits[0]
			f.lines, f.waits = f.lines[1:], f.waits[1:]
			f.mu.Unlock()
			wait(answer)
			return
		}
		f.mu.Unlock()
		if time.Now().After(end) {
			t.Fatalf("the silo isn't told %q", line)
		}
	}
}

func (f *fake) isBusy(is bool) {
	f.mu.Lock()
	defer f.mu.Unlock()
	f.busy = is
}

func (f *fake) pending() int {
	f.mu.Lock()
	defer f.mu.Unlock()
	return len(f.lines)
}

// isAsked waits until the silo is told something, which isn't answered yet.
func (f *fake) isAsked(t *testing.T) {
	t.Helper()
	for end := time.Now().Add(5 * time.Second); f.pending() == 0; time.Sleep(time.Millisecond) {
		if time.Now().After(end) {
			t.Fatal("the silo is told nothing")
		}
	}
}

func (f *fake) isTold(t *testing.T, nothing string) {
	t.Helper()
	time.Sleep(20 * time.Millisecond)
	f.mu.Lock()
	defer f.mu.Unlock()
	if len(f.lines) > 0 {
		t.Fatalf("the silo is told %q, not %s", f.lines, nothing)
	}
}

type test struct {
	*testing.T
	silo    *fake
	service *Service
	path    string
	may     int32
	took    sync.Map
}

func start(t *testing.T) *test {
	x := &test{T: t, silo: &fake{}, path: filepath.Join(t.TempDir(), "s"), may: 1}
	x.service = New(Options{Silo: x.silo, May: func() bool { return atomic.LoadInt32(&x.may) == 1 }, Until: func() clock.Time { return 42 }, Now: clock.Boot,
		Another: func(place directory.Silo) directory.Silo { return place }, Status: func() string { return "S version 1" },
		Members: func() string { return "1 S active c@host" }, Took: func(what string, _ time.Duration) { x.took.Store(what, true) }})
	listener, err := Listen(x.path, 0o600)
	if err != nil {
		t.Fatal(err)
	}
	t.Cleanup(func() { listener.Close() })
	go x.service.Serve(listener)
	return x
}

// line is a connection of an application.
type line struct {
	*testing.T
	conn *net.UnixConn
	in   *bufio.Reader
}

func (x *test) dial() *line {
	x.Helper()
	conn, err := net.DialUnix("unix", nil, &net.UnixAddr{Name: x.path, Net: "unix"})
	if err != nil {
		x.Fatal(err)
	}
	x.Cleanup(func() { conn.Close() })
	l := &line{x.T, conn, bufio.NewReader(conn)}
	l.hears("event valid 42")
	return l
}

func (l *line) says(text string) { fmt.Fprint(l.conn, text+"\n") }

func (l *line) hears(text string) {
	l.Helper()
	l.conn.SetReadDeadline(time.Now().Add(5 * time.Second))
	got, err := l.in.ReadString('\n')
	if err != nil || !strings.HasPrefix(got, text) || !strings.Contains(text, " refused ") && got != text+"\n" {
		l.Fatalf("heard %q, not %q: %v", got, text, err)
	}
}

func (x *test) firm(l *line, grain, activation string, token uint64) {
	x.Helper()
	l.says("t activate " + grain)
	x.silo.answers(x.T, "wake "+grain, silo.Answer{Activation: activation})
	x.service.Said(silo.Said{What: silo.Firm, Activation: activation, Grain: grain, Token: token})
	l.hears(fmt.Sprintf("t firm %s %s token %d", activation, grain, token))
}

func (x *test) held(count int) {
	x.Helper()
	for end := time.Now().Add(5 * time.Second); x.service.Held() != count; time.Sleep(time.Millisecond) {
		if time.Now().After(end) {
			x.Fatalf("%d are held, not %d", x.service.Held(), count)
		}
	}
}
