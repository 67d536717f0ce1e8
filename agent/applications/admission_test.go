package applications

import (
	"errors"
	"io"
	"net"
	"os"
	"strings"
	"sync/atomic"
	"testing"
	"time"

	"agent/clock"
	"agent/directory"
)

// Who may not connect is told why, and cut off; others aren't held up by that.
func TestAdmission(t *testing.T) {
	s := New(Options{Silo: &fake{}, May: func() bool { return true }, Until: func() clock.Time { return 42 }, Now: clock.Boot,
		Another: func(place directory.Silo) directory.Silo { return place }, Status: func() string { return "S" }, Members: func() string { return "1" }})
	var isIn int32
	s.options.Admits = func(process int, began string) error {
		if process != os.Getpid() || began == "" {
			t.Errorf("the process is %d, which began at %q", process, began)
		}
		if atomic.LoadInt32(&isIn) == 1 {
			return nil
		}
		return errors.New("it can't be seen")
	}
	path := t.TempDir() + "/s"
	listener, err := Listen(path, 0o600)
	if err != nil {
		t.Fatal(err)
	}
	defer listener.Close()
	go s.Serve(listener)
	dial := func() net.Conn {
		conn, err := net.Dial("unix", path)
		if err != nil {
			t.Fatal(err)
		}
		conn.SetDeadline(time.Now().Add(5 * time.Second))
		return conn
	}
	if said, err := io.ReadAll(dial()); err != nil || !strings.HasPrefix(string(said), "event lost ") || !strings.Contains(string(said), "it can't be seen\n") {
		t.Errorf("it is told %q, %v", said, err)
	}
	atomic.StoreInt32(&isIn, 1)
	said := make([]byte, 6)
	if _, err := io.ReadFull(dial(), said); err != nil || string(said) != "event " {
		t.Errorf("it is told %q, %v", said, err)
	}
}
