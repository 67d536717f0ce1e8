package etcdstore

import (
	"context"
	"errors"
	"fmt"
	"os/exec"
	"path/filepath"
	"testing"
	"time"

	"agent/beats"
	"agent/clock"
	"agent/directory"
	"agent/membership"
	"agent/servers"
)

// A backup of etcd that lacks the last change is restored under agents that run. etcd's client goes on with its watch at its next revision, which the
// restored one hasn't reached, and tells nothing; but the next beat is refused, and then all is read again.
func TestRestoredBackup(t *testing.T) {
	if _, err := exec.LookPath("etcdctl"); err != nil {
		t.Skip("etcdctl isn't here")
	}
	restored := servers.RestorableEtcd(t)
	ctx, done := context.WithTimeout(context.Background(), time.Minute)
	defer done()
	follow := func() *membership.Sequence {
		store, err := Open(Options{Endpoints: []string{restored.Endpoint}, Directory: "d"})
		if err != nil {
			t.Fatal(err)
		}
		following, stop := context.WithCancel(ctx)
		s := membership.New(store, membership.Timing{TTL: time.Second, LockDelay: 100 * time.Millisecond, Call: time.Second, Retry: 50 * time.Millisecond}, clock.Boot)
		ended := make(chan bool)
		go func() { s.Follow(following); close(ended) }()
		t.Cleanup(func() { stop(); <-ended; store.Close() })
		return s
	}
	join := func(s *membership.Sequence, port int) directory.Silo {
		silo, err := s.Join(ctx, membership.JoinOptions{Endpoint: fmt.Sprintf("10.0.0.1:%d", port), Token: fmt.Sprint(port), Sent: func(clock.Time) {}})
		if err != nil {
			t.Fatal(err)
		}
		return silo
	}
	one, two := follow(), follow()
	a := join(one, 1001)
	restored.Save(t, filepath.Join(t.TempDir(), "backup"))
	b := join(two, 1002)
	if err := one.Beat(ctx, a); err != nil {
		t.Fatal(err)
	}
	restored.Restore(t)
	var err error
	for end := time.Now().Add(20 * time.Second); time.Now().Before(end); time.Sleep(50 * time.Millisecond) { // until it answers
		calling, done := context.WithTimeout(ctx, time.Second)
		err = one.Beat(calling, a)
		done()
		if errors.As(err, &beats.Ended{}) || one.Fault() != nil {
			break
		}
	}
	if err == nil || one.Fault() == nil {
		t.Errorf("%s beats on: %v; its fault is %v", a, err, one.Fault())
	}
	fresh := follow()
	c := join(fresh, 1003) // once a is silent for long enough
	if fresh.Version() != 2 {
		t.Errorf("%s joins as change %d", c, fresh.Version())
	}
	if err := two.Beat(ctx, b); !errors.As(err, &beats.Ended{}) && two.Fault() == nil {
		t.Errorf("%s beats on, whose join is gone: %v", b, err)
	}
	for end := time.Now().Add(10 * time.Second); two.Fault() == nil && time.Now().Before(end); time.Sleep(20 * time.Millisecond) {
	}
	if two.Fault() == nil {
		t.Errorf("there are two sequences of changes, and who knows the first has no fault")
	}
}
