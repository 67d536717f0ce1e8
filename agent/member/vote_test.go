package member

import (
	"context"
	"fmt"
	"sync/atomic"
	"testing"
	"time"

	"agent/clock"
	"agent/directory"
	"agent/fence"
	"agent/membership"
	"agent/membership/memorystore"
	"agent/operation"
	"agent/peers"
)

// A member that most don't hear is voted out while it beats on; one whose beat stands still isn't, since then others would wait for it anew.
func TestVote(t *testing.T) {
	var at int64
	now := func() clock.Time { return clock.Time(atomic.LoadInt64(&at)) }
	const ttl = 10 * time.Second
	s := membership.New(memorystore.New(), membership.Timing{TTL: ttl, LockDelay: time.Second, Call: time.Second, Retry: time.Millisecond}, now)
	ctx, stop := context.WithCancel(context.Background())
	defer stop()
	read := s.Moved()
	go s.Follow(ctx)
	<-read
	atomic.AddInt64(&at, int64(ttl+time.Second))
	var silos []directory.Silo
	for port := 1; port <= 3; port++ {
		silo, err := s.Join(ctx, membership.JoinOptions{Endpoint: fmt.Sprintf("10.0.0.1:%d", port), Token: "t", Sent: func(clock.Time) {}})
		if err != nil {
			t.Fatal(err)
		}
		silos = append(silos, silo)
	}
	until := func(what string, isSo func() bool) {
		t.Helper()
		for end := time.Now().Add(5 * time.Second); !isSo(); time.Sleep(time.Millisecond) {
			if time.Now().After(end) {
				t.Fatalf("not so: %s", what)
			}
		}
	}
	out := silos[2]
	until("it beats", func() bool { return s.HasBeat(out) })
	config := operation.NewConfig()
	config.Settings.TTL = ttl
	m := &Member{ctx: ctx, me: silos[0], silence: peers.New(now), fence: fence.New(time.Hour, now(), now), options: Options{Config: config, Sequence: s, Now: now}}
	reports := map[directory.Silo]peers.Report{silos[0]: {Suspects: silos[2:]}, silos[1]: {Suspects: silos[2:]}, out: {}}
	m.silence.Asked(out, "find")
	atomic.AddInt64(&at, int64(5*time.Second))
	if m.vote(silos, reports); !s.HasBeat(out) {
		t.Fatal("it is voted out, though its beat stands still")
	}
	time.Sleep(20 * time.Millisecond)
	if !s.HasBeat(out) {
		t.Fatal("it is voted out, though its beat stands still")
	}
	before := s.BeatSeen(out)
	if err := s.Beat(ctx, out); err != nil {
		t.Fatal(err)
	}
	until("its beat is seen", func() bool { return s.BeatSeen(out) > before })
	m.vote(silos, reports)
	until("it is voted out, since it beats on", func() bool { return !s.HasBeat(out) })
}
