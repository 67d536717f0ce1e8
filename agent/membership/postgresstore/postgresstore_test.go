package postgresstore

import (
	"context"
	"os"
	"os/exec"
	"strconv"
	"strings"
	"syscall"
	"testing"
	"time"

	"agent/membership"
	"agent/membership/storetest"
	"agent/servers"
)

func TestStore(t *testing.T) {
	source := servers.Postgres(t)
	storetest.Test(t, func(t *testing.T, directory string) membership.Store {
		ctx, cancel := context.WithTimeout(context.Background(), 10*time.Second)
		defer cancel()
		store, err := Open(ctx, source, directory)
		if err != nil {
			t.Fatal(err)
		}
		t.Cleanup(func() { store.Close() })
		return store
	}, nil) // it forgets nothing that a watch may have to tell
}

// While the server stands still each call ends with its context, however many there are; when it goes on, calls are done again.
func TestServerStandsStill(t *testing.T) {
	source, process := servers.PostgresProcess(t)
	ctx, cancel := context.WithTimeout(context.Background(), time.Minute)
	defer cancel()
	store, err := Open(ctx, source, "d")
	if err != nil {
		t.Fatal(err)
	}
	call := func() error {
		calling, done := context.WithTimeout(ctx, 200*time.Millisecond)
		defer done()
		_, _, err := store.Commit(calling, membership.Transaction{Put: []membership.Entry{{Key: "beat/s", Value: "on"}}})
		return err
	}
	if err := call(); err != nil {
		t.Fatal(err)
	}
	watched := make(chan error, 1)
	go func() { watched <- store.Watch(ctx, 1000, nil) }()
	time.Sleep(2 * poll)
	if err := still(process, syscall.SIGSTOP); err != nil {
		t.Skip(err)
	}
	for i := 0; i < 12; i++ {
		began := time.Now()
		if err := call(); err == nil || time.Since(began) > 5*time.Second {
			t.Fatalf("a call ends after %v, with %v", time.Since(began), err)
		}
	}
	select {
	case err := <-watched:
		if err == nil {
			t.Error("a watch ends without a fault")
		}
	case <-time.After(10 * time.Second):
		t.Error("a watch doesn't end")
	}
	still(process, syscall.SIGCONT)
	for end := time.Now().Add(15 * time.Second); call() != nil; time.Sleep(50 * time.Millisecond) {
		if time.Now().After(end) {
			t.Fatal("calls aren't done again")
		}
	}
}

// still signals a server and all processes that serve its connections.
func still(process *os.Process, signal syscall.Signal) error {
	children, err := exec.Command("pgrep", "-P", strconv.Itoa(process.Pid)).Output()
	if err != nil {
		return err
	}
	for _, word := range append(strings.Fields(string(children)), strconv.Itoa(process.Pid)) {
		if child, err := strconv.Atoi(word); err == nil {
			syscall.Kill(child, signal)
		}
	}
	return nil
}
