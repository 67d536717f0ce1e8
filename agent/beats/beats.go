// Package beats decides what an agent makes of beats: of its own silo's, and of those of others. It has no input and no output, so that its tests try
// all orders in which beats, answers, deaths, copies of an agent and restored backups can come.
//
// The beats of a silo are a chain. Each is written in a transaction that wants the one before to stand in the store, by its revision and its value,
// and has a value that no other has. So of two copies of an agent, which go on from one beat, one is refused; and so is an agent whose store was turned
// back. Others declare a silo dead by a transaction that wants the beat which they have seen stand still.
package beats

import (
	"time"

	"agent/clock"
)

// Beat is a beat as it stands in the store. The zero Beat is none.
type Beat struct {
	Revision int64
	Value    string
}

// Chain is what an agent knows of its own silo's beats.
type Chain struct {
	Last  Beat     // the last that stood in the store; none: that isn't known
	Tries []string // the values of those that were sent since. Any of them may come to stand there, whatever was answered
	Lost  Verdict  // Mine, or why this agent beats for its silo no more
}

// Verdict is what the beat in the store is to the agent of its silo.
type Verdict int

// The verdicts. All but Mine end the silo.
const (
	Mine       Verdict = iota // this agent wrote it
	Gone                      // it was taken away: the silo was declared dead, replaced or voted out
	TurnedBack                // it is an older one: a backup was restored
	Another                   // another agent wrote it: a copy of this one
)

// Ended says that an agent beats for its silo no more.
type Ended struct{ Verdict Verdict }

func (e Ended) Error() string {
	switch e.Verdict {
	case TurnedBack:
		return "the store has an older beat of this silo: it was turned back, as to a backup"
	case Another:
		return "another agent beats for this silo: a copy of this one, as of a virtual machine"
	}
	return "this silo's beat is gone from the store: it was declared dead, replaced or voted out"
}

// Begin begins a chain by a beat that is sent now, with the join.
func Begin(value string) Chain { return Chain{Tries: []string{value}} }

// Sent notes a beat that is sent now. It wants Last to stand in the store.
func (c Chain) Sent(value string) Chain {
	c.Tries = append(append([]string(nil), c.Tries...), value)
	return c
}

// Made notes a beat that the store wrote. No earlier one can be written any more: each wants one that stands there no longer.
func (c Chain) Made(beat Beat) Chain { return Chain{Last: beat, Lost: c.Lost} }

// Saw judges what stands in the store, read behind a refusal or a lost answer.
func (c Chain) Saw(beat Beat) (Chain, Verdict) {
	verdict := Another
	switch {
	case c.Lost != Mine:
		return c, c.Lost
	case beat == Beat{}:
		verdict = Gone
	case beat == c.Last || c.hasSent(beat.Value):
		return c.seen(beat), Mine
	case beat.Revision <= c.Last.Revision:
		verdict = TurnedBack
	}
	c.Lost = verdict
	return c, verdict
}

func (c Chain) hasSent(value string) bool {
	for _, one := range c.Tries {
		if one == value {
			return true
		}
	}
	return false
}

// seen goes on from a beat that stands in the store. Where that is the last one, those sent since may still come.
func (c Chain) seen(beat Beat) Chain {
	if beat == c.Last {
		return c
	}
	return c.Made(beat)
}

// Seen is what an agent has seen of another silo's beat, by its own clock.
type Seen struct {
	Beat  Beat
	Since clock.Time // since when it stands still
	Old   bool       // it stood so when this agent first read the store, and hasn't moved since
}

// Saw notes what stands in the store.
func (s Seen) Saw(beat Beat, now clock.Time) Seen {
	if beat == s.Beat {
		return s
	}
	return Seen{Beat: beat, Since: now}
}

// IsOverdue says whether a beat has stood still for so long, be it that it is gone. With a TTL and a lock delay, the silo has ended by then: its
// agent's deadline is a TTL, less a margin, behind the *sending* of its last beat that was confirmed.
func (s Seen) IsOverdue(now clock.Time, wait time.Duration) bool { return now.Sub(s.Since) >= wait }
