package fence

import (
	"context"
	"errors"
	"fmt"
	"strings"
	"sync/atomic"
	"testing"
	"time"

	"agent/beats"
	"agent/clock"
)

type hands struct{ at int64 }

func (h *hands) now() clock.Time      { return clock.Time(atomic.LoadInt64(&h.at)) }
func (h *hands) set(at time.Duration) { atomic.StoreInt64(&h.at, int64(at)) }
func reason(f *Fence, wait time.Duration) string {
	select {
	case <-f.Given():
		return f.Reason()
	case <-time.After(wait):
		return ""
	}
}

const ttl = 10 * time.Second

// The deadline is the sending of the last confirmed beat, and four fifths of a TTL; behind it nothing is allowed any more.
func TestDeadline(t *testing.T) {
	h := &hands{}
	f := New(ttl, 0, h.now)
	var told []clock.Time
	f.OnExtended(func(until clock.Time) { told = append(told, until) })
	if f.Until() != clock.Time(8*time.Second) {
		t.Error(f.Until())
	}
	h.set(3 * time.Second)
	if !f.Confirm(clock.Time(2*time.Second)) || f.Until() != clock.Time(10*time.Second) {
		t.Error(f.Until())
	}
	if !f.Confirm(clock.Time(time.Second)) || f.Until() != clock.Time(10*time.Second) {
		t.Error("a beat that was sent earlier took from the deadline", f.Until())
	}
	h.set(10*time.Second - 1)
	if !f.May() {
		t.Error("may not, before the deadline")
	}
	h.set(10 * time.Second)
	if f.May() {
		t.Error("may, at the deadline")
	}
	if f.Confirm(clock.Time(9*time.Second)) || f.May() {
		t.Error("a beat confirmed behind the deadline gave it back")
	}
	if len(told) != 1 || told[0] != clock.Time(10*time.Second) {
		t.Error(told)
	}
}

func TestGiven(t *testing.T) {
	h := &hands{}
	f := New(ttl, 0, h.now)
	f.Give("first")
	f.Give("second")
	if f.May() || f.Confirm(1) || reason(f, time.Second) != "first" {
		t.Error(f.Reason())
	}
}

// The agent gives its silo up when its beat is gone, and at the deadline where the store doesn't answer, or answers too late.
func TestKeep(t *testing.T) {
	for _, one := range []struct {
		name   string
		beat   func(h *hands) error
		reason string
	}{
		{"gone", func(*hands) error { return fmt.Errorf("beat: %w", beats.Ended{Verdict: beats.Gone}) }, "this silo's beat is gone"},
		{"cut off", func(h *hands) error { h.set(8 * time.Second); return errors.New("cut off") }, "no beat was confirmed for 8s"},
		{"late", func(h *hands) error { h.set(8 * time.Second); return nil }, ""},
	} {
		h := &hands{}
		f := New(ttl, 0, h.now)
		ctx, stop := context.WithCancel(context.Background())
		ended := make(chan bool)
		go func() {
			f.Keep(ctx, func(context.Context) error { return one.beat(h) })
			close(ended)
		}()
		if got := reason(f, 5*time.Second); got == "" || !strings.HasPrefix(got, one.reason) {
			t.Errorf("%s: given up by %q", one.name, got)
		}
		if f.May() {
			t.Errorf("%s: may go on", one.name)
		}
		stop()
		<-ended
	}
}

func TestKeptOn(t *testing.T) {
	f := New(500*time.Millisecond, clock.Boot(), clock.Boot)
	ctx, stop := context.WithCancel(context.Background())
	defer stop()
	go f.Keep(ctx, func(context.Context) error { return nil })
	if got := reason(f, time.Second); got != "" || !f.May() {
		t.Errorf("given up by %q", got)
	}
	if count, _ := f.Beats(); count < 5 {
		t.Errorf("%d beats in two TTLs", count)
	}
}
