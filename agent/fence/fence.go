// Package fence keeps the deadline of a silo.
//
// A beat that was *sent* at s and confirmed stands in the store from some time after s on. Others declare the silo dead when they have seen a beat
// unchanged for a whole TTL by their own clocks, which began after s, and a lock delay more. So the silo may work until s+TTL-margin by the clock
// of this machine: the margin pays for a difference of the clocks' rates, for the time that ending takes, and for being scheduled late. Nobody's
// time of day matters, nor the store's clock.
//
// That is so of an agent that runs. One that was stopped (a signal, swapping, a paused machine) ends its silo when it wakes, which may be too late:
// so applications are told the deadline itself, and have tokens for storage that can test them.
package fence

import (
	"context"
	"errors"
	"fmt"
	"log"
	"sync"
	"time"

	"agent/beats"
	"agent/clock"
	"agent/planted"
)

// Margin is the part of a TTL by which a silo ends before others may take it for dead: a fifth.
func Margin(ttl time.Duration) time.Duration { return ttl / 5 }

// Fence is the deadline of one silo. Behind it, or once it was given up, May never says yes again.
type Fence struct {
	ttl time.Duration
	now clock.Clock

	mu       sync.Mutex
	until    clock.Time
	isGiven  bool
	reason   string
	given    chan struct{}
	extended func(until clock.Time)
	beats    int64
	slowest  time.Duration
}

// New has a deadline by a beat that was sent at a time and confirmed.
func New(ttl time.Duration, sent clock.Time, now clock.Clock) *Fence {
	if planted.NoFence {
		sent = sent.Add(24 * time.Hour)
	}
	return &Fence{ttl: ttl, now: now, until: sent.Add(ttl - Margin(ttl)), given: make(chan struct{}), extended: func(clock.Time) {}}
}

// OnExtended has someone told each later deadline.
func (f *Fence) OnExtended(extended func(until clock.Time)) {
	f.mu.Lock()
	defer f.mu.Unlock()
	f.extended = extended
}

// May says whether the silo may work, and be told anything, now.
func (f *Fence) May() bool {
	f.mu.Lock()
	defer f.mu.Unlock()
	return !f.isGiven && f.now() < f.until
}

// Until is the deadline so far.
func (f *Fence) Until() clock.Time {
	f.mu.Lock()
	defer f.mu.Unlock()
	return f.until
}

// Beats is how many beats were confirmed, and how long the slowest took since this was asked last.
func (f *Fence) Beats() (count int64, slowest time.Duration) {
	f.mu.Lock()
	defer f.mu.Unlock()
	slowest, f.slowest = f.slowest, 0
	return f.beats, slowest
}

// Confirm takes a beat that was sent at a time and confirmed. It comes too late where the deadline has passed.
func (f *Fence) Confirm(sent clock.Time) bool {
	f.mu.Lock()
	now := f.now()
	if f.isGiven || now >= f.until {
		f.mu.Unlock()
		return false
	}
	f.beats++
	if took := now.Sub(sent); took > f.slowest {
		f.slowest = took
	}
	until := sent.Add(f.ttl - Margin(f.ttl))
	if until <= f.until {
		f.mu.Unlock()
		return true
	}
	f.until = until
	extended := f.extended
	f.mu.Unlock()
	extended(until)
	return true
}

// Give gives the silo up; the first reason stays.
func (f *Fence) Give(reason string) {
	f.mu.Lock()
	defer f.mu.Unlock()
	if !f.isGiven {
		f.isGiven, f.reason = true, reason
		close(f.given)
	}
}

// Given is closed once the silo was given up; Reason says why.
func (f *Fence) Given() <-chan struct{} { return f.given }

func (f *Fence) wasGiven() bool {
	f.mu.Lock()
	defer f.mu.Unlock()
	return f.isGiven
}

// Reason is why the silo was given up.
func (f *Fence) Reason() string {
	f.mu.Lock()
	defer f.mu.Unlock()
	return f.reason
}

// Keep beats until ctx ends, and gives the silo up at its deadline, or once its beats have ended. A beat that is confirmed has no fault.
func (f *Fence) Keep(ctx context.Context, beat func(context.Context) error) {
	go f.watch(ctx)
	for ctx.Err() == nil && !f.wasGiven() {
		wait := f.ttl / 10
		sent := f.now()
		calling, done := context.WithTimeout(ctx, f.ttl/6) // so that others of the store's servers are tried before the deadline
		err := beat(calling)
		done()
		var ended beats.Ended
		switch {
		case ctx.Err() != nil:
			return
		case errors.As(err, &ended) && planted.NoFence:
		case errors.As(err, &ended):
			f.Give(ended.Error())
			return
		case err != nil:
			log.Printf("warning: the beat isn't confirmed, %v are left: %v", f.Until().Sub(f.now()).Round(time.Millisecond), err)
			wait /= 10
		case !f.Confirm(sent):
			f.Give("a beat was confirmed behind the deadline")
			return
		}
		sleep(ctx, wait)
	}
}

// watch gives the silo up at its deadline. It looks often instead of sleeping for long: timers stand still while the machine sleeps.
func (f *Fence) watch(ctx context.Context) {
	look := f.ttl / 500
	if look > 20*time.Millisecond {
		look = 20 * time.Millisecond
	}
	for ctx.Err() == nil {
		if left := f.Until().Sub(f.now()); left <= 0 {
			f.Give(fmt.Sprintf("no beat was confirmed for %v: the store can't be reached, or this machine stood still", f.ttl-Margin(f.ttl)))
			return
		}
		sleep(ctx, look)
	}
}

func sleep(ctx context.Context, wait time.Duration) {
	timer := time.NewTimer(wait)
	defer timer.Stop()
	select {
	case <-ctx.Done():
	case <-timer.C:
	}
}
