package applications

import (
	"bytes"
	"net"
	"syscall"
	"testing"
	"time"

	"agent/clock"
)

// Connections that ask, and don't read, take some memory each, and no processor while they wait.
func TestUnread(t *testing.T) {
	const many = 60
	x := start(t)
	questions := bytes.Repeat([]byte("0123456789012345678901234567890123456789 members\n"), 20000)
	for i := 0; i < many; i++ {
		conn, err := net.Dial("unix", x.path)
		if err != nil {
			t.Skip(err)
		}
		defer conn.Close()
		go conn.Write(questions)
	}
	size := func() (size int) {
		x.service.mu.Lock()
		defer x.service.mu.Unlock()
		for app := range x.service.apps {
			size += app.out.Size()
		}
		return size
	}
	until := time.Now().Add(60 * time.Second)
	for last := -1; last != size() && time.Now().Before(until); time.Sleep(200 * time.Millisecond) {
		last = size()
	}
	if size := size(); size > many*(mostUnread+longestLine) {
		t.Errorf("%d bytes wait for %d applications", size, many)
	}
	used := func() time.Duration {
		var usage syscall.Rusage
		syscall.Getrusage(syscall.RUSAGE_SELF, &usage)
		return time.Duration(usage.Utime.Nano() + usage.Stime.Nano())
	}
	const while = 2 * time.Second
	before := used()
	time.Sleep(while)
	if took := used() - before; took > while/50 {
		t.Errorf("they use %v of the processor in %v", took, while)
	}
	other := x.dial()
	other.says("1 status")
	other.hears("1 status S version 1 held 0")
}

// An application that read nothing, and hangs up, has hung up: nothing waits for it.
func TestUnreadHangsUp(t *testing.T) {
	x := start(t)
	conn, err := net.Dial("unix", x.path)
	if err != nil {
		t.Fatal(err)
	}
	conn.SetWriteDeadline(time.Now().Add(2 * time.Second))
	conn.Write(bytes.Repeat([]byte("0123456789012345678901234567890123456789 members\n"), 100000))
	conn.Close()
	if !x.service.AwaitHangUp(clock.Boot().Add(10 * time.Second)) {
		t.Error("it hasn't hung up")
	}
}
