package main

import (
	"time"

	"agent/member"
)

// How long a generation has to live so that it didn't end soon, whether it was ready or not, and how long to wait at most.
const (
	lasting      = time.Minute
	lastingReady = 10 * time.Second
	mostPause    = 30 * time.Second
)

// pauses says how long to wait before the next generation joins. A join is for ever, and all silos install it: so pauses grow while generations end soon.
type pauses struct{ soon uint } // how many in a row did

// after is the pause behind a generation that lived so long, joining included, and ended so. One that didn't join ended in no way.
func (p *pauses) after(lived time.Duration, outcome member.Outcome) time.Duration {
	if lived > lasting || outcome.Ready && lived > lastingReady {
		p.soon = 0
		return 0
	}
	pause := time.Duration(1<<p.soon-1) * time.Second
	if pause >= mostPause {
		return mostPause
	}
	p.soon++
	if pause == 0 && !outcome.Ended {
		return time.Second
	}
	return pause
}
