package membership_test

import (
	"context"
	"fmt"
	"strings"
	"testing"

	"agent/clock"
	"agent/directory"
	. "agent/membership"
	"agent/membership/memorystore"
)

// many is a store with so many changes, joins and deaths of one endpoint, as an agent makes that is started again and again.
func many(t *testing.T, count int) *memorystore.Store {
	store := memorystore.New()
	for version := 1; version <= count; version++ {
		text := fmt.Sprintf("joined 10.0.0.9:7000@%d token%d", (version+1)/2, version)
		if version%2 == 0 {
			text = fmt.Sprintf("dead 10.0.0.9:7000@%d", version/2)
		}
		put := Entry{Key: fmt.Sprintf("change/%010d", version), Value: text}
		if _, _, err := store.Commit(context.Background(), Transaction{Put: []Entry{put}}); err != nil {
			t.Fatal(err)
		}
	}
	return store
}

func changesIn(store Store) int {
	entries, _, _ := store.Read(context.Background(), "change/")
	return len(entries)
}

// compact compacts as far as may be.
func compact(t *testing.T, s *Sequence, seen uint64) {
	t.Helper()
	until(t, "it is compacted", func() bool {
		more, err := s.Compact(context.Background(), seen)
		if err != nil {
			t.Fatal(err)
		}
		return !more
	})
}

// rows are what a sequence's last view lists.
func rows(s *Sequence) (text string) {
	s.Look(func(views *directory.Views, _ map[directory.Silo]string) {
		text = fmt.Sprint(views.Version(), views.Listing())
	})
	return text
}

// Changes that all have seen are compacted into a view: who knew them goes on, and who comes begins with it.
func TestCompacted(t *testing.T) {
	store, h := many(t, 4000), &hands{at: 1}
	one, other := follow(t, store, h), follow(t, store, h)
	a := join(t, one, 1001)
	until(t, "all is known", func() bool { return other.Version() == 4001 })
	for _, seen := range []uint64{0, 500} {
		if compact(t, one, seen); changesIn(store) != 4001-int(seen) {
			t.Errorf("%d changes stand in the store, though all have seen %d", changesIn(store), seen)
		}
	}
	compact(t, one, 4001)
	if count := changesIn(store); count != 1000 {
		t.Errorf("%d changes stand in the store", count)
	}
	compact(t, one, 4001)
	for i := 0; i < 3; i++ {
		one.Reread()
		other.Reread()
		store.Compact()
	}
	fresh := follow(t, store, h)
	for _, s := range []*Sequence{one, other, fresh} {
		until(t, "all is known", func() bool { return rows(s) == rows(one) })
		if s.Fault() != nil {
			t.Error(s.Fault())
		}
	}
	if changes := fresh.Changes(0); changes != nil {
		t.Errorf("it has %d changes behind version 0", len(changes))
	}
	b := join(t, fresh, 1002)
	if version, listed := fresh.Before(b); version != 4001 || !strings.Contains(fmt.Sprint(listed), string(a)+":active") || len(listed) != 2 {
		t.Errorf("before %s: version %d, %v", b, version, listed)
	}
	if changes := fresh.Changes(4001); len(changes) != 1 || changes[0].Silo != b {
		t.Errorf("behind that: %v", changes)
	}
	again, err := fresh.Join(context.Background(), JoinOptions{Endpoint: "10.0.0.9:7000", Token: "again", Sent: func(clock.Time) {}})
	if err != nil || again != "10.0.0.9:7000@2001" {
		t.Errorf("%s joins, behind generation 2000: %v", again, err)
	}
	until(t, "the first knows all", func() bool { return rows(one) == rows(fresh) })
	if err := one.Die(context.Background(), a); err != nil {
		t.Error(err)
	}
}

// What was compacted may be gone, and nothing else: the view mustn't, nor may it fall, nor what comes behind it.
func TestHurtCompacted(t *testing.T) {
	for name, hurt := range map[string]Transaction{
		"the view is gone":       {Delete: []string{"view"}},
		"the view has fallen":    {Put: []Entry{{Key: "view", Value: "2000 10.0.0.9:7000@1000/dead"}}},
		"the view can't be read": {Put: []Entry{{Key: "view", Value: "3001 nonsense"}}},
		"a change is gone":       {Delete: []string{"change/0000003500"}},
		"a change is another":    {Put: []Entry{{Key: "change/0000003500", Value: "dead 10.0.0.9:7000@1"}}},
	} {
		store, h := many(t, 4000), &hands{at: 1}
		s := follow(t, store, h)
		compact(t, s, 4000)
		if _, _, err := store.Commit(context.Background(), hurt); err != nil {
			t.Fatal(err)
		}
		until(t, name, func() bool { return s.Fault() != nil })
	}
}

// Who has no silo, and was cut off while changes were compacted that it hasn't read, begins with the view.
func TestCutOffWhileCompacted(t *testing.T) {
	store, h := many(t, 10), &hands{at: 1}
	cut := &deaf{Store: store}
	s := follow(t, cut, h)
	cut.isDeaf = 1
	for version := 11; version <= 4000; version++ {
		text := fmt.Sprintf("joined 10.0.0.9:7000@%d token%d", (version+1)/2, version)
		if version%2 == 0 {
			text = fmt.Sprintf("dead 10.0.0.9:7000@%d", version/2)
		}
		if _, _, err := store.Commit(context.Background(), Transaction{Put: []Entry{{Key: fmt.Sprintf("change/%010d", version), Value: text}}}); err != nil {
			t.Fatal(err)
		}
	}
	compact(t, follow(t, store, h), 4000)
	if s.Version() != 10 {
		t.Fatal("it wasn't cut off")
	}
	s.Reread()
	until(t, "it begins with the view", func() bool { return s.Version() == 4000 })
	if s.Fault() != nil {
		t.Error(s.Fault())
	}
	join(t, s, 1001)
}
