package membership_test

import (
	"context"
	"errors"
	"strings"
	"sync"
	"testing"
	"time"

	"agent/beats"
	"agent/clock"
	"agent/directory"
	. "agent/membership"
	"agent/membership/memorystore"
)

// swapped is a store in whose place another is put under the agents, as where a backup is restored.
type swapped struct {
	mu    sync.Mutex
	inner *memorystore.Store
}

func (s *swapped) at() *memorystore.Store {
	s.mu.Lock()
	defer s.mu.Unlock()
	return s.inner
}
func (s *swapped) Read(ctx context.Context, prefix string) ([]Entry, Revision, error) {
	return s.at().Read(ctx, prefix)
}
func (s *swapped) Watch(ctx context.Context, after Revision, tell func([]Event)) error {
	return s.at().Watch(ctx, after, tell)
}
func (s *swapped) Commit(ctx context.Context, t Transaction) (bool, Revision, error) {
	return s.at().Commit(ctx, t)
}
func (s *swapped) Close() error { return nil }

// swap puts another store in place. Watches of the old one tell nothing more, and no fault, as etcd's client does.
func (s *swapped) swap(other *memorystore.Store) {
	s.mu.Lock()
	defer s.mu.Unlock()
	s.inner = other
}

// turnedBack is a store with an agent that has joined, and beats; a backup; and another that joined behind it.
func turnedBack(t *testing.T) (store *swapped, backup *memorystore.Store, h *hands, s *Sequence, a, b directory.Silo) {
	store, h = &swapped{inner: memorystore.New()}, &hands{at: 1}
	s = follow(t, store, h)
	a = join(t, s, 1001)
	if err := s.Beat(context.Background(), a); err != nil {
		t.Fatal(err)
	}
	backup = store.at().Copy()
	b = join(t, s, 1002)
	until(t, "both joined", func() bool { return s.Version() == 2 && s.HasBeat(b) })
	return store, backup, h, s, a, b
}

func beatsOn(s *Sequence, silo directory.Silo) error { return s.Beat(context.Background(), silo) }

// A backup is restored under agents that run, and lacks the last change, and beats: the next beat of each says so, and the sequence has a fault.
func TestRestoredBackup(t *testing.T) {
	store, backup, _, s, a, b := turnedBack(t)
	if err := beatsOn(s, a); err != nil {
		t.Fatal(err)
	}
	store.swap(backup)
	for _, silo := range []directory.Silo{a, b} {
		if err := beatsOn(s, silo); err == nil {
			t.Errorf("%s beats on", silo)
		}
	}
	if err := s.Fault(); err == nil || !strings.Contains(err.Error(), "begin another") {
		t.Errorf("the fault is %v", err)
	}
	if _, err := s.Join(context.Background(), JoinOptions{Endpoint: "10.0.0.1:1003", Token: "t3", Sent: func(clock.Time) {}}); err == nil {
		t.Error("another joins a directory that was hurt")
	}
}

// The same, where others have written so much since that no revision is lower, and another has made the change that is gone: agents end by their next
// beat, decide nothing on top of it, and have a fault once all was read again.
func TestRestoredAndWrittenOn(t *testing.T) {
	for name, beat := range map[string]bool{"by beats": true, "by changes": false} {
		store, backup, h, s, a, b := turnedBack(t)
		if err := beatsOn(s, a); err != nil {
			t.Fatal(err)
		}
		store.swap(backup)
		other := follow(t, store, h)
		c := join(t, other, 1003)
		for i := 0; i < 20; i++ {
			if err := beatsOn(other, c); err != nil {
				t.Fatal(err)
			}
		}
		if other.Version() != 2 {
			t.Fatal("the other isn't change 2")
		}
		if beat {
			if err := beatsOn(s, a); !hasEnded(err, beats.TurnedBack) {
				t.Errorf("%s: %s beats on: %v", name, a, err)
			}
			if err := beatsOn(s, b); !hasEnded(err, beats.Gone) {
				t.Errorf("%s: %s beats on: %v", name, b, err)
			}
		} else {
			ctx, done := context.WithTimeout(context.Background(), 100*time.Millisecond)
			if err := s.Leave(ctx, a); err == nil {
				t.Errorf("%s: it decides a change on top of another's", name)
			}
			done()
			s.Reread()
		}
		store.at().Compact() // the watches end
		until(t, name+": the first has a fault", func() bool { s.Reread(); return s.Fault() != nil })
		if other.Version() != 2 || other.Fault() != nil {
			t.Errorf("%s: the other has %d changes, and the fault %v", name, other.Version(), other.Fault())
		}
	}
}

// A change with the revision of the one that was read, and another value, isn't that one.
func TestSameRevision(t *testing.T) {
	store, backup, h, s, a, _ := turnedBack(t)
	store.swap(backup)
	c := join(t, follow(t, store, h), 1003) // at the revision of b's
	ctx, done := context.WithTimeout(context.Background(), 50*time.Millisecond)
	defer done()
	if err := s.Leave(ctx, a); err == nil {
		t.Errorf("it decides a change on top of the join of %s", c)
	}
}

// A store that is wiped is a fault at once, by its watch; or by the next beat, and by whatever is decided.
func TestWiped(t *testing.T) {
	store, h := &swapped{inner: memorystore.New()}, &hands{at: 1}
	s := follow(t, store, h)
	a := join(t, s, 1001)
	entries, _, _ := store.Read(context.Background(), "")
	var all []string
	for _, entry := range entries {
		all = append(all, entry.Key)
	}
	if _, _, err := store.Commit(context.Background(), Transaction{Delete: all}); err != nil {
		t.Fatal(err)
	}
	until(t, "it has a fault", func() bool { return s.Fault() != nil })

	store.swap(memorystore.New())
	s = follow(t, store, h)
	a = join(t, s, 1001)
	for i := 0; i < 5; i++ {
		if err := beatsOn(s, a); err != nil {
			t.Fatal(err)
		}
	}
	store.swap(memorystore.New())
	if err := beatsOn(s, a); err == nil {
		t.Error("it beats on")
	}
	if err := s.Fault(); err == nil || !strings.Contains(err.Error(), "answers at revision 0, and had answered at") {
		t.Errorf("the fault is %v", err)
	}
}

// Two copies of an agent: one of them is told at its second beat, at the latest, and declares its silo dead no more.
func TestTwoCopies(t *testing.T) {
	store, h := memorystore.New(), &hands{at: 1}
	one, two := follow(t, store, h), follow(t, store, h)
	a := join(t, one, 1001)
	one.Copy(a, two)
	if err := beatsOn(one, a); err != nil {
		t.Fatal(err)
	}
	if err := beatsOn(two, a); !hasEnded(err, beats.Another) {
		t.Errorf("the copy beats on: %v", err)
	}
	until(t, "the copy knows the silo", func() bool { return two.Version() == 1 })
	if err := two.Die(context.Background(), a); err == nil || two.Owns(a) {
		t.Errorf("the copy declares the other dead: %v", err)
	}
	if err := beatsOn(one, a); err != nil || one.Status(a) != directory.IsActive || !one.Owns(a) {
		t.Errorf("the other has ended: %v", err)
	}
}

// A beat whose answer was lost doesn't end its silo, be it that it comes late.
func TestLateBeats(t *testing.T) {
	store := &late{Store: memorystore.New()}
	s := follow(t, store, &hands{at: 1})
	a := join(t, s, 1001)
	for i := 0; i < 8; i++ {
		for _, what := range []string{"lost before", "lost behind", "late", ""} {
			store.what = what
			if err := beatsOn(s, a); (err == nil) != (what == "") {
				t.Fatalf("%s: %v", what, err)
			}
			store.what = ""
			if i%2 == 0 {
				store.comes(t)
			}
			if err := beatsOn(s, a); err != nil {
				t.Fatalf("behind one that was %s: %v", what, err)
			}
			store.comes(t)
		}
	}
}

// late is a store whose transactions or answers are lost, or come late.
type late struct {
	*memorystore.Store
	what    string
	pending []Transaction
}

func (l *late) Commit(ctx context.Context, transaction Transaction) (bool, Revision, error) {
	switch l.what {
	case "lost behind":
		l.Store.Commit(ctx, transaction)
	case "late":
		l.pending = append(l.pending, transaction)
	}
	if l.what != "" {
		return false, 0, errors.New(l.what)
	}
	return l.Store.Commit(ctx, transaction)
}

func (l *late) comes(t *testing.T) {
	for _, transaction := range l.pending {
		if _, _, err := l.Store.Commit(context.Background(), transaction); err != nil {
			t.Fatal(err)
		}
	}
	l.pending = nil
}

// The first agent of a directory waits for those that an earlier one of its name may have; another waits until each member has beaten before its
// eyes, or was silent for long enough.
func TestWaitsForOthers(t *testing.T) {
	store := memorystore.New()
	h := &hands{at: 1}
	begin := func(port int) (s *Sequence, joined chan directory.Silo, why *string) {
		ctx, stop := context.WithCancel(context.Background())
		t.Cleanup(stop)
		s, joined, why = New(store, timing, h.now), make(chan directory.Silo, 1), new(string)
		go s.Follow(ctx)
		var mu sync.Mutex
		go func() {
			silo, _ := s.Join(ctx, JoinOptions{Endpoint: "10.0.0.1:" + string(rune('0'+port)), Token: "t", Sent: func(clock.Time) {},
				Waits: func(what string, _ time.Duration) { mu.Lock(); *why = what; mu.Unlock() }})
			joined <- silo
		}()
		return s, joined, why
	}
	waits := func(joined chan directory.Silo) {
		t.Helper()
		select {
		case silo := <-joined:
			t.Fatalf("%s has joined already", silo)
		case <-time.After(50 * time.Millisecond):
		}
	}
	one, joined, _ := begin(1)
	waits(joined)
	h.advance(timing.TTL)
	waits(joined)
	h.advance(timing.LockDelay)
	a := <-joined
	_, joined, _ = begin(2)
	waits(joined)
	if err := beatsOn(one, a); err != nil {
		t.Fatal(err)
	}
	<-joined
	_, joined, _ = begin(3)
	waits(joined)
	h.advance(timing.TTL + timing.LockDelay) // all are silent
	<-joined
}

// Who declares others dead is one whose own beats stand: where they were turned back, nobody is.
func TestTurnedBackBuriesNobody(t *testing.T) {
	store, h := &swapped{inner: memorystore.New()}, &hands{at: 1}
	s := follow(t, store, h)
	a, b := join(t, s, 1001), join(t, s, 1002)
	until(t, "both joined", func() bool { return s.Version() == 2 && s.HasBeat(a) && s.HasBeat(b) })
	backup := store.at().Copy()
	if err := beatsOn(s, b); err != nil {
		t.Fatal(err)
	}
	h.advance(timing.TTL + timing.LockDelay)
	at := store.at()
	store.swap(backup)
	if dead, _ := s.Bury(context.Background(), b); dead != "" || s.Fault() == nil {
		t.Errorf("%q is declared dead, though the store was restored; the fault is %v", dead, s.Fault())
	}
	store.swap(at)
	s = follow(t, store, h)
	c := join(t, s, 1003)
	until(t, "all are known", func() bool { return s.HasBeat(a) && s.HasBeat(c) })
	h.advance(timing.TTL + timing.LockDelay)
	if dead, err := s.Bury(context.Background(), c); dead == "" {
		t.Errorf("nobody is declared dead where it wasn't: %v", err)
	}
}
