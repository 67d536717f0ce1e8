// Package storetest has the tests that every store meets.
package storetest

import (
	"context"
	"fmt"
	"reflect"
	"sync"
	"testing"
	"time"

	"agent/membership"
)

// Test tests a store; open opens the directory of a name, which is empty at first. compact, if there is one, has the store forget what watches
// might still have to tell.
func Test(t *testing.T, open func(t *testing.T, directory string) membership.Store, compact func(t *testing.T)) {
	ctx, cancel := context.WithTimeout(context.Background(), 30*time.Second)
	defer cancel()
	t.Run("transactions", func(t *testing.T) { transactions(ctx, t, open(t, "transactions")) })
	t.Run("one of many", func(t *testing.T) { oneOfMany(ctx, t, open(t, "one")) })
	t.Run("watch", func(t *testing.T) { watch(ctx, t, open(t, "watch"), compact) })
	t.Run("directories are apart", func(t *testing.T) { apart(ctx, t, open(t, "apart"), open(t, "aparted")) })
}

func put(keys ...string) (entries []membership.Entry) {
	for _, key := range keys {
		entries = append(entries, membership.Entry{Key: key, Value: "value of " + key})
	}
	return entries
}

func keys(t *testing.T, store membership.Store, ctx context.Context, prefix string) (keys []string) {
	t.Helper()
	entries, _, err := store.Read(ctx, prefix)
	if err != nil {
		t.Fatal(err)
	}
	for _, entry := range entries {
		if entry.Value != "value of "+entry.Key {
			t.Errorf("%+v", entry)
		}
		keys = append(keys, entry.Key)
	}
	return keys
}

func transactions(ctx context.Context, t *testing.T, store membership.Store) {
	var last membership.Revision // of the answers, which never falls
	commit := func(made bool, transaction membership.Transaction) {
		t.Helper()
		if got, at, err := store.Commit(ctx, transaction); err != nil || got != made || at < last {
			t.Fatalf("%+v: %v at %d, %v", transaction, got, at, err)
		} else {
			last = at
		}
	}
	absent, present := membership.Absent, membership.Present
	commit(false, membership.Transaction{If: []membership.Condition{{Key: "a", Revision: present}}, Put: put("b")})
	commit(true, membership.Transaction{If: []membership.Condition{{Key: "a", Revision: absent}}, Put: put("a", "c")})
	commit(false, membership.Transaction{If: []membership.Condition{{Key: "a", Revision: absent}}, Put: put("b")})
	commit(false, membership.Transaction{If: []membership.Condition{{Key: "a", Revision: present}, {Key: "b", Revision: present}}, Put: put("d"), Delete: []string{"a"}})
	before, at, err := store.Read(ctx, "a")
	if err != nil || len(before) != 1 || before[0].Revision <= 0 || before[0].Revision > at {
		t.Fatalf("%+v at %d, %v", before, at, err)
	}
	commit(true, membership.Transaction{If: []membership.Condition{{Key: "a", Revision: before[0].Revision}}, Put: put("a")})
	commit(false, membership.Transaction{If: []membership.Condition{{Key: "a", Revision: before[0].Revision}}, Put: put("e")})
	after, _, err := store.Read(ctx, "a")
	if err != nil || len(after) != 1 || after[0].Revision != last || after[0].Revision <= before[0].Revision {
		t.Fatalf("%+v, %v", after, err)
	}
	for value, made := range map[string]bool{"another": false, "value of a": true} {
		commit(made, membership.Transaction{If: []membership.Condition{{Key: "a", Revision: after[0].Revision, Value: value}}, Put: put("c")})
		commit(made, membership.Transaction{If: []membership.Condition{{Key: "a", Revision: present, Value: value}}, Put: put("c")})
	}
	commit(true, membership.Transaction{If: []membership.Condition{{Key: "a", Revision: present}}, Put: put("b/1", "b/2"), Delete: []string{"a", "nothing"}})
	commit(false, membership.Transaction{If: []membership.Condition{{Key: "a", Revision: after[0].Revision}}})
	commit(true, membership.Transaction{If: []membership.Condition{{Key: "a", Revision: absent}}, Put: put("a")})
	if got := keys(t, store, ctx, ""); !reflect.DeepEqual(got, []string{"a", "b/1", "b/2", "c"}) {
		t.Errorf("%q", got)
	}
	if got := keys(t, store, ctx, "b/"); !reflect.DeepEqual(got, []string{"b/1", "b/2"}) {
		t.Errorf("%q", got)
	}
}

func oneOfMany(ctx context.Context, t *testing.T, store membership.Store) {
	const many = 8
	made := make([]bool, many)
	var wait sync.WaitGroup
	for i := range made {
		wait.Add(1)
		go func(i int) {
			defer wait.Done()
			var err error
			for {
				made[i], _, err = store.Commit(ctx, membership.Transaction{If: []membership.Condition{{Key: "k"}},
					Put: []membership.Entry{{Key: "k", Value: fmt.Sprint(i)}}})
				if err == nil {
					return
				}
				t.Log(err)
			}
		}(i)
	}
	wait.Wait()
	entries, _, err := store.Read(ctx, "k")
	if err != nil || len(entries) != 1 {
		t.Fatalf("%+v, %v", entries, err)
	}
	for i, one := range made {
		if one != (entries[0].Value == fmt.Sprint(i)) {
			t.Errorf("%d: %v, and there is %+v", i, one, entries[0])
		}
	}
}

func watch(ctx context.Context, t *testing.T, store membership.Store, compact func(t *testing.T)) {
	commit := func(transaction membership.Transaction) {
		t.Helper()
		if made, _, err := store.Commit(ctx, transaction); !made || err != nil {
			t.Fatal(made, err)
		}
	}
	commit(membership.Transaction{Put: put("before")})
	_, at, err := store.Read(ctx, "")
	if err != nil {
		t.Fatal(err)
	}
	commit(membership.Transaction{Put: put("meanwhile")})
	events := make(chan membership.Event, 100)
	tell := func(some []membership.Event) {
		for _, event := range some {
			events <- event
		}
	}
	watching, stop := context.WithCancel(ctx)
	ended := make(chan error, 1)
	go func() { ended <- store.Watch(watching, at, tell) }()
	expect := func(key string, gone bool) {
		t.Helper()
		select {
		case event := <-events:
			if event.Key != key || event.Gone != gone || event.Revision <= at || !gone && event.Value != "value of "+key {
				t.Fatalf("%+v, not %s", event, key)
			}
			at = event.Revision
		case <-time.After(10 * time.Second):
			t.Fatalf("nothing is told of %s", key)
		}
	}
	expect("meanwhile", false)
	commit(membership.Transaction{Put: put("next")})
	expect("next", false)
	commit(membership.Transaction{Put: put("last"), Delete: []string{"next"}})
	both := []membership.Event{<-events, <-events} // of one transaction, in any order
	if both[0].Key == "last" {
		both[0], both[1] = both[1], both[0]
	}
	if !both[0].Gone || both[0].Key != "next" || both[1].Gone || both[1].Key != "last" || both[0].Revision != both[1].Revision {
		t.Errorf("%+v", both)
	}
	stop()
	select {
	case <-ended:
	case <-time.After(10 * time.Second):
		t.Fatal("a watch doesn't end")
	}
	if compact == nil {
		return
	}
	_, old, err := store.Read(ctx, "")
	if err != nil {
		t.Fatal(err)
	}
	commit(membership.Transaction{Put: put("compacted")})
	commit(membership.Transaction{Put: put("compacted")})
	compact(t)
	if err := store.Watch(ctx, old, tell); err == nil || ctx.Err() != nil {
		t.Errorf("a watch of what was compacted ends with %v", err)
	}
}

func apart(ctx context.Context, t *testing.T, one, other membership.Store) {
	if _, _, err := one.Commit(ctx, membership.Transaction{Put: put("k")}); err != nil {
		t.Fatal(err)
	}
	if got := keys(t, other, ctx, ""); len(got) != 0 {
		t.Errorf("%q is in another directory", got)
	}
	if made, _, err := other.Commit(ctx, membership.Transaction{If: []membership.Condition{{Key: "k"}}, Put: put("k", "l")}); !made || err != nil {
		t.Error(made, err)
	}
	if got := keys(t, one, ctx, ""); !reflect.DeepEqual(got, []string{"k"}) {
		t.Errorf("%q", got)
	}
}
