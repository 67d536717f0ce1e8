package member

import (
	"context"
	"testing"
	"time"

	"agent/clock"
	"agent/fence"
)

// While those who are told a deadline stand still, as applications behind a lock, beats go on, and the fence doesn't fall; then they are told the
// last deadline.
func TestBeatsDontWaitForApplications(t *testing.T) {
	var at clock.Time
	f := fence.New(time.Second, at, func() clock.Time { return at })
	later := newDeadlines()
	f.OnExtended(later.set)
	ctx, done := context.WithCancel(context.Background())
	defer done()
	told, goOn := make(chan clock.Time, 10), make(chan bool)
	go later.run(ctx, func(until clock.Time) {
		told <- until
		<-goOn
	})
	for i := 0; i < 20; i++ {
		at = at.Add(100 * time.Millisecond)
		confirmed := make(chan bool, 1)
		go func() { confirmed <- f.Confirm(at) }()
		select {
		case isIn := <-confirmed:
			if !isIn {
				t.Fatal("it is fenced")
			}
		case <-time.After(5 * time.Second):
			t.Fatal("a beat waits for applications")
		}
	}
	close(goOn)
	for until := clock.Time(0); until != f.Until(); {
		select {
		case until = <-told:
		case <-time.After(5 * time.Second):
			t.Fatalf("the last that is told is %d, not %d", until, f.Until())
		}
	}
}
