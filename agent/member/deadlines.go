package member

import (
	"context"
	"sync/atomic"

	"agent/clock"
)

// deadlines hands deadlines on to who may be slow to take them, of several the last: so that no beat waits for applications.
type deadlines struct {
	last int64 // atomic
	some chan struct{}
}

func newDeadlines() *deadlines { return &deadlines{some: make(chan struct{}, 1)} }

// set takes a later deadline, and doesn't wait.
func (d *deadlines) set(until clock.Time) {
	atomic.StoreInt64(&d.last, int64(until))
	select {
	case d.some <- struct{}{}:
	default:
	}
}

// run tells someone each deadline that is the last one when there is time for it, until ctx ends.
func (d *deadlines) run(ctx context.Context, tell func(until clock.Time)) {
	for {
		select {
		case <-ctx.Done():
			return
		case <-d.some:
			tell(clock.Time(atomic.LoadInt64(&d.last)))
		}
	}
}
