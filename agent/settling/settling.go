// Package settling says what of a silo is nudged, and when. A nudge of a grain gives each request about it a new number, and an answer under an
// old one counts no more: a grain that is nudged faster than its letters go round is never done. So each grain is nudged by itself, once no answer
// has come for a pause of a few round trips; and each pause is twice as long as the one before. What the silo's unsettled ranges want is nudged in
// the same way, and nothing is undone by that. So what is under way for one never ends by a nudge for another, and nobody nudges all at once.
//
// Pauses that were doubled as often are equally long, whatever round trips take by now. So grains wait in lines, one for each number of doublings:
// in each, who was sent first is late first, and a look at the silo costs what is late, not what waits.
package settling

import (
	"container/list"
	"sync"
	"time"

	"agent/clock"
)

// Bounds of a pause.
const (
	Shortest = 50 * time.Millisecond
	Longest  = 16 * time.Second
)

// trips is how many round trips a pause has at least.
const trips = 4

// mostDoubled is how often a pause is doubled at most: from the shortest one on that makes it the longest.
const mostDoubled = 9

// Patience is with what one silo waits for.
type Patience struct {
	now clock.Clock

	mu     sync.Mutex
	trip   time.Duration // a longer one counts at once, so that a backlog isn't taken for a loss; a shorter one by and by
	grains map[string]*wait
	lines  [mostDoubled + 1]list.List // the waits for grains, by how often their pause was doubled; in each by when they were sent
	ranges *wait                      // nil: all are settled
}

// wait is for the answers about a grain, or to what ranges want.
type wait struct {
	grain    string
	requests int           // about the grain
	sent     clock.Time    // when, for the last time
	doubled  int           // how often the pause was
	place    *list.Element // in its line; nil for the ranges
}

// New has patience with a silo that waits for nothing yet.
func New(now clock.Clock) *Patience { return &Patience{now: now, grains: map[string]*wait{}} }

// Asked says that the silo has asked for something about a grain. What is asked beside it already keeps its time: else who asks again and again
// would hold its nudge up.
func (p *Patience) Asked(grain string) {
	p.mu.Lock()
	defer p.mu.Unlock()
	w := p.grains[grain]
	if w == nil {
		w = &wait{grain: grain}
		p.grains[grain] = w
		p.begin(w, p.now())
	}
	w.requests++
}

// AskedOtherwise says that the silo asks for something else about a grain, in place of what it asked for.
func (p *Patience) AskedOtherwise(grain string) {
	p.mu.Lock()
	defer p.mu.Unlock()
	if w := p.grains[grain]; w != nil {
		p.begin(w, p.now())
	}
}

// Answered says that an answer came about a grain. It was to what was sent last, since one to an old number is none: so it tells of a round trip.
func (p *Patience) Answered(grain string) {
	p.mu.Lock()
	defer p.mu.Unlock()
	w := p.grains[grain]
	if w == nil {
		return
	}
	now := p.now()
	if w.requests--; w.requests > 0 {
		p.begin(w, now)
		return
	}
	p.lines[w.doubled].Remove(w.place)
	delete(p.grains, grain)
	if took := now.Sub(w.sent); took > p.trip {
		p.trip = took
	} else {
		p.trip += (took - p.trip) / 8
	}
}

// GotOn says that something came that a range wants, so that it wants less, or something else.
func (p *Patience) GotOn() {
	p.mu.Lock()
	defer p.mu.Unlock()
	if p.ranges != nil {
		p.begin(p.ranges, p.now())
	}
}

// Anew begins with the shortest pause for all: where the silo has sent all again, as when it sees a view; or letters may come again that were lost.
func (p *Patience) Anew() {
	p.mu.Lock()
	defer p.mu.Unlock()
	p.anew()
}

func (p *Patience) anew() {
	now := p.now()
	for _, w := range p.grains {
		p.begin(w, now)
	}
	if p.ranges != nil {
		p.begin(p.ranges, now)
	}
}

// Late tells which grains are to be nudged now, and whether the ranges are, by whether any is unsettled. Who is told so nudges. Once this silo's
// ranges are settled those of others may be, too, and serve what they refused; so all pauses begin anew.
func (p *Patience) Late(areUnsettled bool) (grains []string, ranges bool) {
	p.mu.Lock()
	defer p.mu.Unlock()
	now, shortest := p.now(), p.shortest()
	switch {
	case areUnsettled && p.ranges == nil:
		p.ranges = &wait{}
		p.begin(p.ranges, now)
	case areUnsettled && p.ranges.isLate(now, shortest):
		ranges = true
		p.again(p.ranges, now, shortest)
	case !areUnsettled && p.ranges != nil:
		p.ranges = nil
		p.anew()
	}
	for doubled := range p.lines {
		line := &p.lines[doubled]
		for first := line.Front(); first != nil && first.Value.(*wait).isLate(now, shortest); first = line.Front() {
			w := first.Value.(*wait)
			grains = append(grains, w.grain)
			p.again(w, now, shortest)
		}
	}
	return grains, ranges
}

// Look is how long to wait until the silo is looked at again.
func (p *Patience) Look() time.Duration {
	p.mu.Lock()
	defer p.mu.Unlock()
	if look := p.shortest() / 5; look < Shortest && (p.ranges != nil || len(p.grains) > 0) {
		return look
	}
	return Shortest
}

func (p *Patience) shortest() time.Duration {
	switch shortest := trips * p.trip; {
	case shortest < Shortest:
		return Shortest
	case shortest > Longest/8:
		return Longest / 8
	default:
		return shortest
	}
}

// begin begins the shortest pause of what was sent now; again begins the next one.
func (p *Patience) begin(w *wait, now clock.Time) { p.sent(w, now, 0) }

func (p *Patience) again(w *wait, now clock.Time, shortest time.Duration) {
	doubled := w.doubled
	if w.pause(shortest) < Longest {
		doubled++
	}
	p.sent(w, now, doubled)
}

// sent puts what was sent now last in the line of its pause: nothing there was sent later.
func (p *Patience) sent(w *wait, now clock.Time, doubled int) {
	if w.place != nil {
		p.lines[w.doubled].Remove(w.place)
	}
	w.sent, w.doubled = now, doubled
	if w != p.ranges {
		w.place = p.lines[doubled].PushBack(w)
	}
}

func (w *wait) pause(shortest time.Duration) time.Duration {
	if pause := shortest << w.doubled; pause < Longest {
		return pause
	}
	return Longest
}

func (w *wait) isLate(now clock.Time, shortest time.Duration) bool {
	return now.Sub(w.sent) >= w.pause(shortest)
}
