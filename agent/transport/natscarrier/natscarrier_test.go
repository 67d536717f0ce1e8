package natscarrier

import (
	"os"
	"path/filepath"
	"strconv"
	"strings"
	"sync/atomic"
	"syscall"
	"testing"
	"time"

	"agent/directory"
	"agent/servers"
	"agent/transport"
)

const a, b = directory.Silo("10.0.0.1:1000@1"), directory.Silo("10.0.0.2:1000@1")

// lines is a listener that counts letters by their length.
type lines struct {
	count, bytes int64
	last         chan string
}

func (l *lines) Receive(line []byte) {
	atomic.AddInt64(&l.count, 1)
	atomic.AddInt64(&l.bytes, int64(len(line)))
	select {
	case l.last <- string(line):
	default:
	}
}
func (l *lines) Asked(directory.Silo, string) {}
func (l *lines) Heard(directory.Silo)         {}

func open(t *testing.T, url, name string, me directory.Silo) (*transport.Post, *lines, chan bool) {
	changed := make(chan bool, 100)
	l := &lines{last: make(chan string, 10)}
	post := transport.New(me, func() bool { return true }, l)
	opened, err := Open(Options{Servers: url, Directory: name, Changed: func(up bool) { changed <- up }})
	if err != nil {
		t.Fatal(err)
	}
	carrier, err := opened.Carry(me, post.Take)
	if err != nil {
		t.Fatal(err)
	}
	post.Carry(carrier)
	t.Cleanup(post.Close)
	return post, l, changed
}

// A report of 16 MiB passes a broker that takes 1 MiB; other directories hear nothing.
func TestLongReport(t *testing.T) {
	url := servers.NATS(t)
	from, _, _ := open(t, url, "one", a)
	_, to, _ := open(t, url, "one", b)
	_, other, _ := open(t, url, "other", b)
	report := "letter " + string(a) + " " + string(b) + " 1 report 0+4294967296 " + strings.Repeat("user/ann "+string(a)+"!1 ", 700000)
	report = report[:16<<20]
	from.Letter(b, "report", []byte(report))
	from.Letter(b, "done", []byte("letter "+string(a)+" "+string(b)+" 1 done 0+1"))
	from.Flush()
	for _, expected := range []string{report, "letter " + string(a) + " " + string(b) + " 1 done 0+1"} {
		select {
		case line := <-to.last:
			if line != expected {
				t.Fatalf("%d bytes came, not %d", len(line), len(expected))
			}
		case <-time.After(10 * time.Second):
			t.Fatalf("nothing came: %+v", from.Counts())
		}
	}
	if from.Counts().Cut != 1 || atomic.LoadInt64(&other.count) != 0 {
		t.Errorf("%+v", from.Counts())
	}
}

// A broker that takes little has letters in smaller parts.
func TestSmallLimit(t *testing.T) {
	file := filepath.Join(t.TempDir(), "nats.conf")
	if err := os.WriteFile(file, []byte("max_payload: 4096\n"), 0o600); err != nil {
		t.Fatal(err)
	}
	url := servers.NATS(t, "-c", file)
	from, _, _ := open(t, url, "one", a)
	_, to, _ := open(t, url, "one", b)
	report := "letter " + string(a) + " " + string(b) + " 1 report 0+1 " + strings.Repeat("x", 50000)
	from.Letter(b, "report", []byte(report))
	from.Flush()
	select {
	case line := <-to.last:
		if line != report {
			t.Errorf("%d bytes came", len(line))
		}
	case <-time.After(10 * time.Second):
		t.Fatal("nothing came")
	}
}

// While the broker is frozen letters are lost, and nothing waits; when it goes on, letters come again.
func TestFrozenBroker(t *testing.T) {
	port := servers.Port(t)
	endpoint := "127.0.0.1:" + strconv.Itoa(port)
	process := servers.Start(t, "nats-server", endpoint, "-a", "127.0.0.1", "-p", strconv.Itoa(port))
	from, _, changed := open(t, "nats://"+endpoint, "one", a)
	_, to, _ := open(t, "nats://"+endpoint, "one", b)
	process.Signal(syscall.SIGSTOP)
	select {
	case up := <-changed:
		if up {
			t.Fatal("up?")
		}
	case <-time.After(20 * time.Second):
		t.Fatal("nobody says that the broker is lost")
	}
	from.Letter(b, "done", []byte("letter "+string(a)+" "+string(b)+" 1 done 0+1"))
	from.Flush()
	process.Signal(syscall.SIGCONT)
	for end := time.Now().Add(20 * time.Second); time.Now().Before(end); time.Sleep(100 * time.Millisecond) {
		from.Letter(b, "done", []byte("letter "+string(a)+" "+string(b)+" 1 done 0+2"))
		from.Flush()
		select {
		case line := <-to.last:
			if strings.HasSuffix(line, "0+2") {
				return
			}
		default:
		}
	}
	t.Fatalf("nothing comes again: %+v", from.Counts())
}

func TestNobodyThere(t *testing.T) {
	if _, err := Open(Options{Servers: "nats://127.0.0.1:1", Changed: func(bool) {}}); err == nil || !strings.Contains(err.Error(), "can't be reached") {
		t.Error(err)
	}
}
