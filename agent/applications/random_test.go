package applications

import (
	"fmt"
	"os"
	"strconv"
	"strings"
	"testing"
)

var verbs = []string{"activate", "activate", "activate", "activate", "deactivate", "deactivate", "migrate", "migrate", "find", "serve", "expect", "unexpect"}

// step does one thing, at random.
func (w *world) step(mayEnd bool) {
	grain := w.silo.grains[w.random.Intn(len(w.silo.grains))]
	i := w.random.Intn(len(w.parties))
	p := w.parties[i]
	switch n := w.random.Intn(100); {
	case n < 18:
		if !p.isHung && len(p.up) < 4 {
			w.asks(p, verbs[w.random.Intn(len(verbs))], grain)
		}
	case n < 36:
		w.isRead(i)
	case n < 52:
		w.reads(p)
	case n < 66:
		w.silo.reads(grain)
	case n < 76:
		if w.silo.of(grain).has != "" || w.random.Intn(6) == 0 {
			w.silo.lives(grain)
		}
	case n < 92:
		w.silo.isRead(grain)
	case n < 94:
		w.service.Sweep()
	case n < 96:
		w.silo.isBusy = w.random.Intn(4) == 0
	case n < 97:
		w.silo.finds(grain)
	case n < 98:
		w.hangsUp(p)
	case mayEnd && n == 98:
		w.note("leaves")
		w.service.Leave()
	case mayEnd && w.random.Intn(8) == 0:
		w.note("is fenced")
		w.isGiven, w.watch.isLost = true, true
	case mayEnd && w.isGiven:
		w.note("is lost")
		w.service.Lost("cut off")
	}
}

// rests lets all that is under way come to its end, and says what is wrong then.
func (w *world) rests() string {
	w.silo.isBusy = false
	for turn := 0; turn < 100; turn++ {
		for i := range w.parties {
			for len(w.parties[i].up) > 0 || w.parties[i].isHung {
				w.isRead(i)
			}
			for len(w.parties[i].down) > 0 {
				w.reads(w.parties[i])
			}
		}
		for _, grain := range w.silo.grains {
			for s := w.silo.of(grain); len(s.in)+len(s.out) > 0; {
				w.silo.reads(grain)
				w.silo.isRead(grain)
			}
			w.silo.finds(grain)
			if s := w.silo.of(grain); s.has == "asks" || s.has == "closing" {
				w.silo.lives(grain)
			}
		}
		w.service.Sweep()
		if wrong := w.tests(); wrong != "" {
			return wrong
		}
	}
	if !w.isGiven {
		w.watch.rests(w.service.Held())
	}
	return w.tests()
}

// play plays one run; what is wrong, if anything is, and what was said up to then, if that is kept.
func play(seed int64, isKept bool) (wrong string, trace []string) {
	w := newWorld(seed, seed%2 == 0, isKept)
	for n := 20 + w.random.Intn(300); n > 0 && wrong == ""; n-- {
		w.step(seed%4 < 2)
		wrong = w.tests()
	}
	if wrong == "" {
		wrong = w.rests()
	}
	return wrong, w.trace
}

// found plays runs until something is wrong, and says what; or plays them all.
func found(runs int64) string {
	for seed := int64(1); seed <= runs; seed++ {
		if wrong, _ := play(seed, false); wrong != "" {
			_, trace := play(seed, true)
			if len(trace) > 60 {
				trace = trace[len(trace)-60:]
			}
			return fmt.Sprintf("run %d: %s, behind\n  %s", seed, wrong, strings.Join(trace, "\n  "))
		}
	}
	return ""
}

// Whatever applications ask and whatever becomes of it, two never work on a grain, and no question and no activation is forgotten. AGENT_RUNS is how
// many runs there are.
func TestRandomly(t *testing.T) {
	runs, err := strconv.ParseInt(os.Getenv("AGENT_RUNS"), 10, 64)
	if err != nil {
		runs = 2000
	}
	if wrong := found(runs); wrong != "" {
		t.Error(wrong)
	}
}
