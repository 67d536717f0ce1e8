package membership_test

import (
	"context"
	"testing"
	"time"

	. "agent/membership"
	"agent/membership/memorystore"
)

// slow is a store of which a reading of all takes a while.
type slow struct {
	*memorystore.Store
	while time.Duration
}

func (s slow) Read(ctx context.Context, prefix string) ([]Entry, Revision, error) {
	if prefix == "" {
		select {
		case <-ctx.Done():
			return nil, 0, ctx.Err()
		case <-time.After(s.while):
		}
	}
	return s.Store.Read(ctx, prefix)
}

// A directory that takes longer to read than a call may is read all the same.
func TestSlowReading(t *testing.T) {
	s := New(slow{memorystore.New(), 300 * time.Millisecond}, Timing{TTL: time.Second, LockDelay: time.Millisecond, Call: 50 * time.Millisecond, Retry: time.Millisecond},
		(&hands{}).now)
	ctx, stop := context.WithTimeout(context.Background(), 10*time.Second)
	defer stop()
	read := s.Moved()
	go s.Follow(ctx)
	select {
	case <-read:
	case <-ctx.Done():
		t.Error("it is never read")
	}
}
