package membership_test

import (
	"context"
	"errors"
	"fmt"
	"strings"
	"sync"
	"sync/atomic"
	"testing"
	"time"

	"agent/beats"
	"agent/clock"
	"agent/directory"
	. "agent/membership"
	"agent/membership/memorystore"
)

var timing = Timing{TTL: 10 * time.Second, LockDelay: time.Second, Call: time.Second, Retry: 5 * time.Millisecond}

// hands is a clock that a test sets.
type hands struct{ at int64 }

func (h *hands) now() clock.Time            { return clock.Time(atomic.LoadInt64(&h.at)) }
func (h *hands) advance(wait time.Duration) { atomic.AddInt64(&h.at, int64(wait)) }

// follow follows a directory for the time of a test.
func follow(t *testing.T, store Store, h *hands) *Sequence {
	ctx, stop := context.WithCancel(context.Background())
	s := New(store, timing, h.now)
	ended, read := make(chan bool), s.Moved()
	go func() {
		s.Follow(ctx)
		close(ended)
	}()
	t.Cleanup(func() { stop(); <-ended })
	<-read
	h.advance(timing.TTL + timing.LockDelay) // what a join waits for has passed
	return s
}

// hasEnded says whether a fault is that an agent beats no more, and why.
func hasEnded(err error, verdict beats.Verdict) bool {
	var ended beats.Ended
	return errors.As(err, &ended) && ended.Verdict == verdict
}

func join(t *testing.T, s *Sequence, port int) directory.Silo {
	t.Helper()
	ctx, cancel := context.WithTimeout(context.Background(), 20*time.Second)
	defer cancel()
	silo, err := s.Join(ctx, JoinOptions{Endpoint: fmt.Sprintf("10.0.0.1:%d", port), Token: fmt.Sprintf("t%d", port), Sent: func(clock.Time) {}})
	if err != nil {
		t.Fatal(err)
	}
	return silo
}

// until waits until something is so.
func until(t *testing.T, what string, isSo func() bool) {
	t.Helper()
	for end := time.Now().Add(5 * time.Second); !isSo(); time.Sleep(time.Millisecond) {
		if time.Now().After(end) {
			t.Fatalf("not so: %s", what)
		}
	}
}

func TestAllJoinAtOnce(t *testing.T) {
	const many = 8
	store := memorystore.New()
	var all []*Sequence
	var wait sync.WaitGroup
	for i := 0; i < many; i++ {
		all = append(all, follow(t, store, &hands{}))
	}
	for i, s := range all {
		wait.Add(1)
		go func(i int, s *Sequence) {
			defer wait.Done()
			join(t, s, 1000+i)
		}(i, s)
	}
	wait.Wait()
	for _, s := range all {
		until(t, "all changes are known", func() bool { return s.Version() == many })
		if changes, first := s.Changes(0), all[0].Changes(0); len(changes) != many || fmt.Sprint(changes) != fmt.Sprint(first) {
			t.Errorf("%v, and %v", changes, first)
		}
	}
}

// What the view before a silo's join lists: of each endpoint the newest silo, as it stands there.
func TestBefore(t *testing.T) {
	s := follow(t, memorystore.New(), &hands{})
	a, b, c := join(t, s, 1001), join(t, s, 1002), join(t, s, 1003)
	until(t, "all joined", func() bool { return s.Version() == 3 })
	for _, one := range []struct {
		silo    directory.Silo
		version uint64
		rows    string
	}{{a, 0, "[]"}, {b, 1, "[10.0.0.1:1001@1:active]"}, {c, 2, "[10.0.0.1:1001@1:active 10.0.0.1:1002@1:active]"}, {"10.0.0.1:1004@1", 0, "[]"}} {
		if version, rows := s.Before(one.silo); version != one.version || fmt.Sprint(rows) != one.rows {
			t.Errorf("before %s: version %d, %v", one.silo, version, rows)
		}
	}
}

// A beat that stands still for a TTL and the lock delay, and no shorter, ends its silo; one that goes on doesn't, and a look that is old doesn't
// count, since the transaction compares.
func TestBury(t *testing.T) {
	store := memorystore.New()
	h := &hands{}
	s := follow(t, store, h)
	ctx := context.Background()
	a, b := join(t, s, 1001), join(t, s, 1002)
	until(t, "both beat", func() bool { return s.HasBeat(a) && s.HasBeat(b) })
	bury := func(expected directory.Silo) {
		t.Helper()
		if dead, err := s.Bury(ctx, b); dead != expected || err != nil {
			t.Fatalf("buried %q, not %q: %v", dead, expected, err)
		}
	}
	h.advance(timing.TTL + timing.LockDelay - 1)
	bury("")
	if err := s.Beat(ctx, a); err != nil {
		t.Fatal(err)
	}
	// the beat may not have been told yet: either way it isn't buried
	h.advance(1)
	bury("")
	h.advance(timing.TTL - 1)
	bury("")
	until(t, "the beat is told", func() bool {
		h.advance(timing.TTL + timing.LockDelay)
		dead, err := s.Bury(ctx, b)
		return dead == a && err == nil
	})
	if err := s.Beat(ctx, a); !hasEnded(err, beats.Gone) {
		t.Errorf("the dead beats on: %v", err)
	}
	until(t, "it is known", func() bool { return s.Status(a) == directory.IsDead })
	bury("")
}

// A look at a beat that is older than the last beat doesn't bury its silo.
func TestOldLook(t *testing.T) {
	store := memorystore.New()
	h := &hands{}
	s := follow(t, store, h)
	a := join(t, s, 1001)
	store.SetFault(func(call string) error {
		if call == "watch" || call == "read" {
			return errors.New("cut off")
		}
		return nil
	})
	store.Compact() // which cuts the watch off, so no more is read
	time.Sleep(20 * time.Millisecond)
	if err := s.Beat(context.Background(), a); err != nil {
		t.Fatal(err)
	}
	h.advance(2 * timing.TTL)
	if dead, err := s.Bury(context.Background(), ""); dead != "" || err != nil {
		t.Errorf("buried %q, %v", dead, err)
	}
}

// Who is voted out can't beat any more, and is buried a whole TTL later.
func TestVoteOut(t *testing.T) {
	store := memorystore.New()
	h := &hands{}
	s := follow(t, store, h)
	ctx := context.Background()
	a := join(t, s, 1001)
	until(t, "it beats", func() bool { return s.HasBeat(a) })
	h.advance(timing.TTL - 1)
	if err := s.VoteOut(ctx, a); err != nil {
		t.Fatal(err)
	}
	if err := s.Beat(ctx, a); !hasEnded(err, beats.Gone) {
		t.Error("it beats on")
	}
	until(t, "the vote is known", func() bool { return !s.HasBeat(a) })
	h.advance(timing.TTL)
	if dead, _ := s.Bury(ctx, ""); dead != "" {
		t.Error("buried too early")
	}
	h.advance(timing.LockDelay)
	if dead, err := s.Bury(ctx, ""); dead != a {
		t.Errorf("not buried: %v", err)
	}
}

// The next generation joins when the older one has surely ended: by its beat, or by its supervisor's word.
func TestNextGeneration(t *testing.T) {
	for _, ended := range []bool{false, true} {
		store := memorystore.New()
		h := &hands{}
		s := follow(t, store, h)
		a := join(t, s, 1001)
		var waits int32
		joined := make(chan directory.Silo, 1)
		go func() {
			silo, err := s.Join(context.Background(), JoinOptions{Endpoint: a.Endpoint(), Token: "second", Sent: func(clock.Time) {},
				Ended: func(old directory.Silo, token string) bool { return ended && old == a && token == "t1001" },
				Waits: func(string, time.Duration) { atomic.AddInt32(&waits, 1) }})
			if err != nil {
				t.Error(err)
			}
			joined <- silo
		}()
		if !ended {
			until(t, "it waits", func() bool { return atomic.LoadInt32(&waits) > 2 })
			h.advance(timing.TTL + timing.LockDelay)
		}
		if silo := <-joined; silo != directory.At(a.Endpoint(), 2) {
			t.Errorf("%s joined", silo)
		}
		until(t, "the older is dead", func() bool { return s.Status(a) == directory.IsDead })
		if err := s.Beat(context.Background(), a); !hasEnded(err, beats.Gone) {
			t.Error("the older beats on")
		}
	}
}

// A join whose answer was lost is known again, with the time of a beat that was confirmed later; without one, with that at which it was first sent.
func TestLostAnswer(t *testing.T) {
	for lost, expected := range map[int32]clock.Time{1: 15, 2: 5} {
		h := &hands{at: 5}
		store := lossy{memorystore.New(), h, lost, new(int32)}
		s := follow(t, store, h)
		began := h.now() - 5
		var sent clock.Time
		silo, err := s.Join(context.Background(), JoinOptions{Endpoint: "10.0.0.1:1001", Token: "t", Sent: func(at clock.Time) { sent = at }})
		if err != nil || silo != "10.0.0.1:1001@1" || sent-began != expected {
			t.Errorf("%q, %v, sent at %d", silo, err, sent-began)
		}
		if version := s.Version(); version != 1 {
			t.Errorf("version %d", version)
		}
	}
}

// lossy carries the first transactions out, and loses their answers; each takes a while.
type lossy struct {
	*memorystore.Store
	hands *hands
	lost  int32
	calls *int32
}

func (l lossy) Commit(ctx context.Context, transaction Transaction) (bool, Revision, error) {
	made, at, err := l.Store.Commit(ctx, transaction)
	l.hands.advance(10)
	if atomic.AddInt32(l.calls, 1) <= l.lost {
		return false, 0, errors.New("the answer is lost")
	}
	return made, at, err
}

// Changes made while the watch was cut off, and compacted, are read again.
func TestCompaction(t *testing.T) {
	store := memorystore.New()
	h := &hands{}
	one, other := follow(t, store, h), follow(t, store, h)
	a := join(t, one, 1001)
	until(t, "the other knows", func() bool { return other.Version() == 1 })
	for i := 0; i < 20; i++ {
		store.Compact()
		join(t, one, 2000+i)
		store.Compact()
	}
	if err := one.Leave(context.Background(), a); err != nil {
		t.Fatal(err)
	}
	if err := one.Die(context.Background(), a); err != nil {
		t.Fatal(err)
	}
	until(t, "the other knows all", func() bool { return other.Version() == 23 && other.Status(a) == directory.IsDead })
	if err := one.Die(context.Background(), a); err != nil || one.Version() != 23 {
		t.Error("it died twice", err)
	}
}

// A store that was hurt is no directory any more.
func TestHurtStore(t *testing.T) {
	for name, put := range map[string]Entry{
		"rewritten": {Key: "change/0000000001", Value: "joined 10.0.0.9:1@1"},
		"refused":   {Key: "change/0000000002", Value: "dead 10.0.0.9:1@1"},
		"a gap":     {Key: "change/0000000003", Value: "joined 10.0.0.9:1@1"},
		"unread":    {Key: "change/0000000002", Value: "joined"},
		"no key":    {Key: "change/2", Value: "joined 10.0.0.9:1@1"},
	} {
		store := memorystore.New()
		s := follow(t, store, &hands{})
		join(t, s, 1001)
		if _, _, err := store.Commit(context.Background(), Transaction{Put: []Entry{put}}); err != nil {
			t.Fatal(err)
		}
		until(t, name, func() bool { return s.Fault() != nil })
	}
}

func TestAgree(t *testing.T) {
	store, ctx := memorystore.New(), context.Background()
	settings := directory.DefaultSettings()
	if _, err := Agree(ctx, store, settings); !errors.Is(err, ErrNoDirectory) {
		t.Errorf("a directory is there that nobody created: %v", err)
	}
	for _, isNew := range []bool{true, false} {
		if made, err := Create(ctx, store, settings); made != isNew || err != nil {
			t.Error(made, err)
		}
	}
	if _, err := Agree(ctx, store, settings); err != nil {
		t.Fatal(err)
	}
	settings.Points = 4
	if _, err := Agree(ctx, store, settings); err == nil || !strings.Contains(err.Error(), "points is 4 here, and 30 in the directory") {
		t.Error(err)
	}
	if _, err := Agree(ctx, store, directory.DefaultSettings()); err != nil {
		t.Error(err)
	}
	if _, _, err := store.Commit(ctx, Transaction{Put: []Entry{{Key: "change/0000000001", Value: "joined 10.0.0.1:1@1"}}, Delete: []string{"settings"}}); err != nil {
		t.Fatal(err)
	}
	if made, err := Create(ctx, store, settings); made || err != nil {
		t.Error("what is left of a directory is taken for none", err)
	}
}

// A watch that tells nothing is ended, and all is read again.
func TestReread(t *testing.T) {
	store := &deaf{Store: memorystore.New()}
	h := &hands{at: 1}
	s := follow(t, store, h)
	a := join(t, s, 1001)
	other := join(t, follow(t, store.Store, h), 1002)
	atomic.StoreInt32(&store.isDeaf, 1)
	before := s.BeatSeen(a)
	h.advance(time.Second)
	if err := s.Beat(context.Background(), a); err != nil {
		t.Fatal(err)
	}
	time.Sleep(20 * time.Millisecond)
	if s.BeatSeen(a) != before {
		t.Fatal("the watch tells something")
	}
	s.Reread()
	until(t, "all is read", func() bool { return s.BeatSeen(a) > before && s.Status(other) == directory.IsActive })
}

// deaf is a store whose watches tell nothing once it is deaf.
type deaf struct {
	*memorystore.Store
	isDeaf int32
}

func (d *deaf) Watch(ctx context.Context, after Revision, tell func([]Event)) error {
	return d.Store.Watch(ctx, after, func(events []Event) {
		if atomic.LoadInt32(&d.isDeaf) == 0 {
			tell(events)
		}
	})
}

// A join is known though its answer was lost, another try was refused before it was known, and the watch tells nothing: so all is read again.
func TestJoinWithoutNews(t *testing.T) {
	for lost := int32(0); lost < 4; lost++ {
		h := &hands{}
		store := deafAndLossy{&deaf{memorystore.New(), 1}, h, lost, new(int32)}
		s := follow(t, store, h)
		if silo := join(t, s, 1001); silo != "10.0.0.1:1001@1" || s.Version() != 1 {
			t.Errorf("%s joined, with version %d", silo, s.Version())
		}
	}
}

// deafAndLossy carries out each second one of the first transactions, and loses their answers; each takes a while.
type deafAndLossy struct {
	*deaf
	hands *hands
	lost  int32
	calls *int32
}

func (d deafAndLossy) Commit(ctx context.Context, transaction Transaction) (made bool, at Revision, err error) {
	call := atomic.AddInt32(d.calls, 1)
	d.hands.advance(2 * timing.Call)
	if call > d.lost || call%2 == 1 {
		made, at, err = d.deaf.Commit(ctx, transaction)
	}
	if call <= d.lost {
		return false, 0, errors.New("the answer is lost")
	}
	return made, at, err
}
