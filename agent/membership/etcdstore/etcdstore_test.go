package etcdstore

import (
	"context"
	"syscall"
	"testing"
	"time"

	"agent/membership"
	"agent/membership/storetest"
	"agent/servers"
)

func TestStore(t *testing.T) {
	endpoint := servers.Etcd(t)
	open := func(t *testing.T, directory string) membership.Store {
		store, err := Open(Options{Endpoints: []string{endpoint}, Directory: directory})
		if err != nil {
			t.Fatal(err)
		}
		t.Cleanup(func() { store.Close() })
		return store
	}
	storetest.Test(t, open, func(t *testing.T) {
		store := open(t, "any").(*Store)
		ctx, cancel := context.WithTimeout(context.Background(), 5*time.Second)
		defer cancel()
		answer, err := store.clients[0].Get(ctx, "any")
		if err != nil {
			t.Fatal(err)
		}
		if _, err := store.clients[0].Compact(ctx, answer.Header.Revision); err != nil {
			t.Fatal(err)
		}
	})
}

func TestNobodyThere(t *testing.T) {
	store, err := Open(Options{Endpoints: []string{"127.0.0.1:1"}, Directory: "d"})
	if err != nil {
		t.Fatal(err)
	}
	defer store.Close()
	ctx, cancel := context.WithTimeout(context.Background(), 100*time.Millisecond)
	defer cancel()
	if _, _, err := store.Read(ctx, ""); err == nil {
		t.Error("it read from nobody")
	}
}

// Whichever of three servers stands still, calls go on by the others.
func TestServerStandsStill(t *testing.T) {
	endpoints, processes := servers.EtcdCluster(t)
	store, err := Open(Options{Endpoints: endpoints, Directory: "d"})
	if err != nil {
		t.Fatal(err)
	}
	defer store.Close()
	commit := func() bool {
		ctx, cancel := context.WithTimeout(context.Background(), 500*time.Millisecond)
		defer cancel()
		made, _, err := store.Commit(ctx, membership.Transaction{Put: []membership.Entry{{Key: "beat/s", Value: "on"}}})
		return made && err == nil
	}
	for i := 0; !commit(); i++ {
		if i == 40 {
			t.Fatal("the cluster doesn't come up")
		}
	}
	for i, process := range processes {
		process.Signal(syscall.SIGSTOP)
		began := time.Now()
		done := false
		for time.Since(began) < 15*time.Second && !done {
			done = commit()
		}
		t.Logf("server %d stands still: %v until the next call is done", i, time.Since(began).Round(time.Millisecond))
		process.Signal(syscall.SIGCONT)
		if !done {
			t.Errorf("no call is done while server %d stands still", i)
		}
		time.Sleep(time.Second)
	}
}
