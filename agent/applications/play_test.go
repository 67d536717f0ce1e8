package applications

import (
	"fmt"
	"math/rand"
	"strings"

	"agent/clock"
	"agent/directory"
)

// party is a connection and the application at its other end, with the lines that are on their way. It does as agent/README.md asks: it works on a
// grain from `firm` on until it asks for the end, and begins no work while an end of the grain has no answer.
type party struct {
	number   int
	obeys    bool // else it asks what comes to its mind; it is not looked at whether it works
	app      *application
	up, down []string
	isClosed bool // the agent says nothing more
	isHung   bool
	works    map[string]bool
	ends     map[string]string // ends of grains that aren't answered, by tag; which grain
	began    map[string]bool   // by tag of an end: whether it ended a work
	asked    map[string]bool   // grains that it asked for, or had
	tags     int
	hears    func(number int, line string)
}

// Add, Size, AwaitRoom and Close make it an outbox.
func (p *party) Add(line []byte, _ int) bool {
	if p.isHung || p.isClosed {
		return false
	}
	p.hears(p.number, string(line))
	p.down = append(p.down, string(line))
	return true
}
func (p *party) Size() int     { return 0 }
func (p *party) AwaitRoom(int) {}
func (p *party) Close()        { p.isClosed = true }

// world is an agent's service between two parties and a silo.
type world struct {
	random  *rand.Rand
	silo    *slots
	watch   *watch
	service *Service
	parties []*party
	count   int
	isGiven bool // the fence says no
	steps   int
	trace   []string // what was said, where that is wanted
	isKept  bool
}

func newWorld(seed int64, obeys, isKept bool) *world {
	random := rand.New(rand.NewSource(seed))
	w := &world{random: random, isKept: isKept, silo: newSlots(random, []string{"a/1", "a/2", "a/3", "b/1", "b/2"})}
	w.watch = newWatch(w.silo)
	w.silo.tells = func(verb, grain string) {
		w.note("silo is told %s %s", verb, grain)
		if verb != "wake" && verb != "find" && verb != "forget" {
			w.watch.tells(verb, grain)
		}
	}
	w.service = New(Options{Silo: w.silo, May: func() bool { return !w.isGiven }, Until: func() clock.Time { return 42 },
		Now: func() clock.Time { return clock.Time(w.steps) }, Another: func(place directory.Silo) directory.Silo { return place },
		Status: func() string { return "S" }, Members: func() string { return "1" }})
	w.silo.hears = w.service.Said
	for i := 0; i < 2; i++ {
		w.parties = append(w.parties, w.connects(obeys))
	}
	return w
}

func (w *world) note(format string, words ...any) {
	if w.steps++; w.isKept {
		w.trace = append(w.trace, fmt.Sprintf(format, words...))
	}
}

func (w *world) connects(obeys bool) *party {
	w.count++
	p := &party{number: w.count, obeys: obeys, works: map[string]bool{}, ends: map[string]string{}, began: map[string]bool{}, asked: map[string]bool{},
		hears: func(number int, line string) {
			w.note("%d is told %s", number, line)
			w.watch.says(number, line)
		}}
	p.app = &application{out: p, number: int64(w.count), serves: map[string]bool{}, expects: map[string]bool{}}
	w.service.mu.Lock()
	w.service.apps[p.app] = true
	w.service.mu.Unlock()
	return p
}

// asks has a party ask something, if it obeys: an end only of what it asked for, and one at a time.
func (w *world) asks(p *party, verb, grain string) {
	isEnd := verb == "deactivate" || verb == "migrate"
	if isEnd && p.obeys && (!p.asked[grain] || p.isEnding(grain)) {
		return
	}
	p.tags++
	tag := fmt.Sprint(p.tags)
	words := tag + " " + verb + " " + grain
	switch {
	case verb == "migrate":
		words += []string{" any", " any", " 10.0.0.2:1@1"}[w.random.Intn(3)]
	case verb == "find" && w.random.Intn(2) == 0:
		words += " fresh"
	case verb == "serve":
		words = tag + " serve " + strings.Split(grain, "/")[0]
	case verb == "activate":
		p.asked[grain] = true
	}
	if isEnd {
		p.ends[tag], p.began[tag] = grain, p.works[grain]
		delete(p.works, grain)
	}
	p.up = append(p.up, words)
}

func (p *party) isEnding(grain string) bool {
	for _, one := range p.ends {
		if one == grain {
			return true
		}
	}
	return false
}

// isRead has the agent read a line of a party, or find that it has hung up.
func (w *world) isRead(i int) {
	p := w.parties[i]
	if len(p.up) == 0 {
		if p.isHung {
			w.watch.hangsUp(p.number)
			w.note("%d has hung up", p.number)
			w.service.hungUp(p.app)
			w.parties[i] = w.connects(p.obeys)
		}
		return
	}
	line := p.up[0]
	p.up = p.up[1:]
	w.note("%d asks %s", p.number, line)
	w.watch.asks(p.number, line)
	words := strings.Fields(line)
	w.service.asked(ask{p.app, words[0]}, words[1:], false)
}

// reads has a party read a line of the agent.
func (w *world) reads(p *party) {
	if len(p.down) == 0 || p.isHung {
		return
	}
	words := strings.Fields(p.down[0])
	p.down = p.down[1:]
	switch {
	case words[0] == "event" && words[1] == "lost":
		w.hangsUp(p)
	case words[0] == "event" && words[1] == "firm":
		p.begins(words[3])
	case words[0] == "event":
	case words[1] == "firm":
		p.begins(words[3])
	case p.ends[words[0]] != "":
		grain, hadWork := p.ends[words[0]], p.began[words[0]]
		delete(p.ends, words[0])
		if words[1] == "refused" && words[2] != "lost" && hadWork {
			p.begins(grain)
		}
	}
}

func (p *party) begins(grain string) {
	p.asked[grain] = true
	if !p.isEnding(grain) {
		p.works[grain] = true
	}
}

func (w *world) hangsUp(p *party) {
	p.isHung, p.works, p.down = true, map[string]bool{}, nil
}

// tests says what is wrong now: of parties that obey two never work at once, and who works has the grain firm.
func (w *world) tests() string {
	for _, grain := range w.silo.grains {
		count := 0
		for _, p := range w.parties {
			if p.obeys && p.works[grain] {
				count++
				if !w.watch.isLost && !w.silo.of(grain).staysFirm() {
					return fmt.Sprintf("%d works on %s, which isn't firm", p.number, grain)
				}
			}
		}
		if count > 1 {
			return "two really work on " + grain
		}
	}
	return w.watch.wrong
}
