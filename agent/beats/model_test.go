package beats

import (
	"fmt"
	"strconv"
	"strings"
	"testing"
	"time"

	"agent/clock"
)

// A small world: one silo, whose agent may be copied; a store, which may be turned back to a backup; and another agent that looks, and declares the
// silo dead. Time is counted in ticks: a silo works for `work` ticks from the sending of a beat that was confirmed, others wait for `wait`.
const (
	work = 3
	wait = 4
)

// rules are how agents go about beats. The right ones are those of this package; the others are planted, and have to be found.
type rules struct {
	beatsAnyway  bool // a beat wants any to stand there, as it was before beats were a chain
	fromAnswer   bool // the deadline counts from the answer
	buriesAnyway bool // a death doesn't compare the beat
	looksBriefly bool // others wait for as long as the silo works, less a tick
}

// bounds are how much may happen in a run.
type bounds struct {
	ticks, beats    int
	copied, restore bool
}

type call struct {
	want, beat Beat // what is to stand there, and what is written
	sent       int
}

// one is a copy of the silo's agent.
type one struct {
	chain     Chain
	deadline  int
	under     []call // on their way to the store, in any order; an answer that is lost is one that nobody waits for
	awaits    int    // of which call an answer is awaited, by its number; -1: of none
	made      *call  // it was written, and its answer is under way
	confirmed int    // beats since it was copied
	isOver    bool
}

type world struct {
	now, revision, values int
	beat                  Beat
	ones                  []one
	seen                  Seen
	dead                  bool
	backup                *Beat
	backupAt              int
	wasRestored, isCopied bool
	since                 int // confirmed beats behind the backup
}

func (w world) clone() world {
	ones := make([]one, len(w.ones))
	for i, o := range w.ones {
		o.under = append([]call(nil), o.under...)
		if o.made != nil {
			made := *o.made
			o.made = &made
		}
		ones[i] = o
	}
	w.ones = ones
	if w.backup != nil {
		backup := *w.backup
		w.backup = &backup
	}
	return w
}

// key tells worlds apart, in few bytes: there are many.
func (w world) key() string {
	key := make([]byte, 0, 128)
	number := func(numbers ...int) {
		for _, n := range numbers {
			key = strconv.AppendInt(key, int64(n), 36)
			key = append(key, ' ')
		}
	}
	truth := func(is bool) {
		if is {
			key = append(key, '!')
		}
		key = append(key, ' ')
	}
	beat := func(b Beat) {
		key = append(key, b.Value...)
		number(int(b.Revision))
	}
	sent := func(c call) {
		beat(c.want)
		beat(c.beat)
		number(c.sent)
	}
	number(w.now, w.revision, w.values, w.backupAt, w.since, int(w.seen.Since))
	beat(w.beat)
	beat(w.seen.Beat)
	for _, is := range []bool{w.dead, w.wasRestored, w.isCopied, w.backup != nil} {
		truth(is)
	}
	if w.backup != nil {
		beat(*w.backup)
	}
	for _, o := range w.ones {
		key = append(key, ';')
		beat(o.chain.Last)
		for _, try := range o.chain.Tries {
			key = append(append(key, try...), ',')
		}
		number(int(o.chain.Lost), o.deadline, o.awaits, o.confirmed, len(o.under))
		for _, c := range o.under {
			sent(c)
		}
		truth(o.isOver)
		if o.made != nil {
			sent(*o.made)
		}
	}
	return string(key)
}

// next are all worlds that may come next; a fault says which promise the step broke.
func (w world) next(r rules, b bounds) (nexts []world, fault string) {
	add := func(n world, broken string) {
		if nexts = append(nexts, n); broken != "" && fault == "" {
			fault = broken
		}
	}
	if w.now < b.ticks {
		n := w.clone()
		n.now++
		add(n, "")
	}
	for i := range w.ones {
		w.beats(i, r, b, add)
	}
	if seen := w.seen.Saw(w.beat, clock.Time(w.now)); seen != w.seen && !w.dead {
		n := w.clone()
		n.seen = seen
		add(n, "")
	}
	if n, broken, may := w.buried(r); may {
		add(n, broken)
	}
	if b.copied && !w.isCopied {
		n := w.clone()
		n.isCopied = true
		copied := n.clone().ones[0]
		copied.under, copied.made, copied.awaits = nil, nil, -1 // what was sent was sent once, and its answer comes once
		copied.confirmed, n.ones[0].confirmed = 0, 0
		n.ones = append(n.ones, copied)
		add(n, "")
	}
	if b.restore && w.backup == nil {
		n := w.clone()
		backup := w.beat
		n.backup, n.backupAt, n.since = &backup, w.revision, 0
		add(n, "")
	}
	if w.backup != nil && !w.wasRestored && !w.dead {
		n := w.clone()
		n.wasRestored, n.beat, n.revision = true, *w.backup, w.backupAt
		add(n, "")
	}
	return nexts, fault
}

// beats is what one agent, and the store with its calls, may do.
func (w world) beats(i int, r rules, b bounds, add func(world, string)) {
	o := w.ones[i]
	if !o.isOver && w.now < o.deadline && o.awaits < 0 && o.made == nil && w.values < b.beats {
		n := w.clone()
		n.values++
		value := fmt.Sprint(n.values)
		a := &n.ones[i]
		a.chain = o.chain.Sent(value)
		a.under = append(a.under, call{o.chain.Last, Beat{Value: value}, w.now})
		a.awaits = len(a.under) - 1
		add(n, "")
	}
	if o.made != nil {
		n := w.clone()
		made := *o.made
		n.ones[i].made = nil
		broken := ""
		if !o.isOver {
			broken = n.confirms(i, made, r)
		}
		add(n, broken)
	}
	if o.awaits >= 0 || o.made != nil { // it waits no longer, and looks at what stands there
		n := w.clone()
		n.ones[i].awaits, n.ones[i].made = -1, nil
		n.looks(i, r)
		add(n, "")
	}
	for c, under := range o.under {
		isAwaited := c == o.awaits
		n := w.clone()
		a := &n.ones[i]
		a.under = append(a.under[:c:c], a.under[c+1:]...)
		switch {
		case isAwaited:
			a.awaits = -1
		case a.awaits > c:
			a.awaits--
		}
		made := w.beat == under.want && w.beat != Beat{} || r.beatsAnyway && w.beat != Beat{}
		if !made {
			if isAwaited {
				n.looks(i, r)
			}
			add(n, "")
			continue
		}
		n.revision++
		n.beat = Beat{int64(n.revision), under.beat.Value}
		if isAwaited {
			a.made = &call{under.want, n.beat, under.sent}
		}
		add(n, "")
	}
}

// confirms is that an agent is told that its beat was written.
func (w *world) confirms(i int, c call, r rules) string {
	a := &w.ones[i]
	a.chain = a.chain.Made(c.beat)
	if w.now >= a.deadline {
		a.isOver = true // a beat that is confirmed behind the deadline doesn't give it back
		return ""
	}
	sent := c.sent
	if r.fromAnswer {
		sent = w.now
	}
	if sent+work > a.deadline {
		a.deadline = sent + work
	}
	a.confirmed++
	if w.backup != nil && !w.wasRestored && c.beat.Revision > int64(w.backupAt) {
		w.since++
	}
	switch {
	case w.dead && w.now < a.deadline && !w.wasRestored:
		return "a beat was confirmed for a silo that is dead"
	case w.wasRestored && w.since > 0 && w.beat == c.beat && len(w.ones) == 1:
		return "an agent goes on, though the store was turned back behind its beat"
	case w.isCopied && w.ones[0].confirmed > 1 && w.ones[1].confirmed > 1:
		return "two copies of an agent go on"
	}
	return ""
}

// looks is that an agent reads its silo's beat.
func (w *world) looks(i int, r rules) {
	a := &w.ones[i]
	if r.beatsAnyway {
		a.isOver = a.isOver || w.beat == Beat{}
		return
	}
	var verdict Verdict
	if a.chain, verdict = a.chain.Saw(w.beat); verdict != Mine {
		a.isOver, a.deadline = true, 0
	}
}

// buried is that the other declares the silo dead.
func (w world) buried(r rules) (n world, broken string, may bool) {
	long := wait
	if r.looksBriefly {
		long = work - 1
	}
	if w.dead || !w.seen.IsOverdue(clock.Time(w.now), time.Duration(long)) {
		return n, "", false
	}
	if w.beat != w.seen.Beat && !r.buriesAnyway {
		return n, "", false
	}
	n = w.clone()
	n.dead, n.beat = true, Beat{}
	for _, o := range n.ones {
		if !o.isOver && n.now < o.deadline && !n.wasRestored {
			broken = "a silo was declared dead that works"
		}
	}
	return n, broken, true
}

// explore tries all runs within bounds, and gives the first promise that is broken, with the run's length.
func explore(r rules, b bounds) (fault string, worlds int) {
	join := Beat{1, "join"}
	first := world{revision: 1, beat: join, ones: []one{{chain: Begin("join").Made(join), deadline: work, awaits: -1}}, seen: Seen{Beat: join}}
	known := map[string]bool{first.key(): true}
	for layer := []world{first}; len(layer) > 0; {
		var below []world
		for _, w := range layer {
			nexts, fault := w.next(r, b)
			if fault != "" {
				return fault, len(known)
			}
			for _, n := range nexts {
				if key := n.key(); !known[key] {
					known[key] = true
					below = append(below, n)
				}
			}
		}
		layer = below
	}
	return "", len(known)
}

// In no order of beats, answers, looks and deaths is a silo declared dead that works, nor with a copy of its agent. Of two copies one ends; and an
// agent whose store was turned back behind its beat has no further one confirmed, so that it ends by the next.
func TestAllOrders(t *testing.T) {
	if isRace {
		t.Skip("one goroutine alone, for minutes")
	}
	for name, b := range map[string]bounds{
		"nothing else": {ticks: 7, beats: 3},
		"a copy":       {ticks: 5, beats: 2, copied: true},
		"more beats":   {ticks: 0, beats: 4, copied: true},
		"a backup":     {ticks: 3, beats: 3, restore: true},
		"both":         {ticks: 2, beats: 2, copied: true, restore: true},
	} {
		began := time.Now()
		fault, worlds := explore(rules{}, b)
		t.Logf("%s: %d worlds in %v", name, worlds, time.Since(began).Round(time.Millisecond))
		if fault != "" {
			t.Errorf("%s: %s", name, fault)
		}
	}
}

// Rules that are wrong are found.
func TestPlanted(t *testing.T) {
	if isRace {
		t.Skip("one goroutine alone, for minutes")
	}
	for name, planted := range map[string]struct {
		rules
		bounds
		fault string
	}{
		"beats that are no chain, and a copy":   {rules{beatsAnyway: true}, bounds{ticks: 0, beats: 4, copied: true}, "two copies"},
		"beats that are no chain, and a backup": {rules{beatsAnyway: true}, bounds{ticks: 2, beats: 3, restore: true}, "turned back"},
		"the deadline from the answer":          {rules{fromAnswer: true}, bounds{ticks: 7, beats: 3}, "that works"},
		"a death that compares nothing":         {rules{buriesAnyway: true}, bounds{ticks: 7, beats: 3}, "that works"},
		"others who wait too briefly":           {rules{looksBriefly: true}, bounds{ticks: 7, beats: 2}, "that works"},
	} {
		if fault, worlds := explore(planted.rules, planted.bounds); !strings.Contains(fault, planted.fault) {
			t.Errorf("%s: found %q in %d worlds", name, fault, worlds)
		}
	}
}
