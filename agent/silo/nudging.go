package silo

import (
	"sync/atomic"
	"time"

	"agent/settling"
)

// busy is how many bytes may wait for the silo's process when it is nudged: with more, letters under way haven't been read yet.
const busy = 1 << 20

// Nudge has the silo send again what it has waited for too long by now (package settling): about grains, each by itself, and for its ranges.
func (s *Silo) Nudge(status Status) {
	if s.Pending() > busy {
		return
	}
	grains, ranges := s.patience.Late(status.Unsettled > 0)
	for _, grain := range grains {
		s.nudge(grain)
	}
	if ranges {
		s.nudge("ranges")
	}
}

func (s *Silo) nudge(what string) {
	atomic.AddInt64(&s.counts.Nudges, 1)
	s.send("nudge "+what, func(string) {}) // where that is too much it is nudged later
}

// Hurry says that the transport is back, so that letters may come that were lost.
func (s *Silo) Hurry() { s.patience.Anew() }

// Look is how long to wait until the silo is to be nudged again, if it is.
func (s *Silo) Look() time.Duration { return s.patience.Look() }

// begins are the lines by which the silo waits for something about a grain from then on, and ends those by which it has it, with the place of the
// grain; getsOn are those by which it got on with its ranges.
var (
	begins = map[string]int{"started": 2, "closing": 2, "offered": 2, "finding": 1}
	ends   = map[string]int{"firm": 2, "taken": 1, "ended": 2, "found": 2, "nothing": 1}
	getsOn = map[string]bool{"page gathering": true, "page installed": true, "missing recovering": true, "report more": true, "report complete": true,
		"empty more": true, "empty complete": true}
)

// note tells what a line of the silo says of what it waits for.
func note(patience *settling.Patience, words []string) {
	if len(words) < 3 {
		words = append(words, "", "")
	}
	if at := begins[words[0]]; at > 0 {
		patience.Asked(words[at])
	} else if at := ends[words[0]]; at > 0 {
		patience.Answered(words[at])
	}
	switch {
	case words[0] == "cancelled":
		patience.AskedOtherwise(words[2])
	case words[0] == "delivered" && getsOn[words[1]+" "+words[2]]:
		patience.GotOn()
	case words[1] == "sees": // ADDR sees V next: what is outstanding goes out again
		patience.Anew()
	}
}
