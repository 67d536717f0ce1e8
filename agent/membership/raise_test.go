package membership_test

import (
	"context"
	"errors"
	"testing"

	"agent/directory"
	. "agent/membership"
	"agent/membership/memorystore"
)

// A directory's version is raised, and never lowered; the other settings stay.
func TestRaise(t *testing.T) {
	ctx, store, settings := context.Background(), memorystore.New(), directory.DefaultSettings()
	if _, err := Raise(ctx, store, 2); !errors.Is(err, ErrNoDirectory) {
		t.Error(err)
	}
	store.Commit(ctx, Transaction{Put: []Entry{{Key: "settings", Value: directory.WithVersion(settings.Text(), 1)}}})
	for _, one := range []struct{ to, from, has int }{{2, 1, 2}, {2, 2, 2}, {1, 2, 2}} {
		if from, err := Raise(ctx, store, one.to); err != nil || from != one.from {
			t.Errorf("to %d: from %d, %v", one.to, from, err)
		}
		if version, err := Agree(ctx, store, settings); err != nil || version != one.has {
			t.Errorf("to %d: %d, %v", one.to, version, err)
		}
	}
	Raise(ctx, store, 9)
	var other directory.OtherVersion
	if _, err := Agree(ctx, store, settings); !errors.As(err, &other) || other.Theirs != 9 {
		t.Error(err)
	}
}
