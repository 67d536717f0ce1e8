package applications

import (
	"fmt"
	"sort"
	"strings"
)

// watch says who may work, by what applications say to an agent, what it says to them, and what it tells its silo. It knows nothing of how the
// agent decides that. A work begins with `firm` or `event firm`, or when its end is refused, and ends when its connection says so, or hangs up.
type watch struct {
	silo   *slots
	works  map[string]map[int]bool // of each grain, the connections that may work
	open   map[string]question     // questions without an answer, by connection and tag
	told   map[string]uint64       // the highest token of each grain that was told
	count  int                     // of questions
	isLost bool                    // all is lost: nobody is granted anything any more
	wrong  string                  // the first rule that was broken
}

// question is one that waits for its answer.
type question struct {
	number      int
	count       int // of all questions
	verb, grain string
	hadWork     bool // it ended a work, which goes on where it is refused
}

func newWatch(silo *slots) *watch {
	return &watch{silo: silo, works: map[string]map[int]bool{}, open: map[string]question{}, told: map[string]uint64{}}
}

func (w *watch) breaks(format string, words ...any) {
	if w.wrong == "" {
		w.wrong = fmt.Sprintf(format, words...)
	}
}

// asks takes a question that the agent reads.
func (w *watch) asks(number int, line string) {
	words := strings.Fields(line)
	w.count++
	q := question{number: number, count: w.count, verb: words[1]}
	if len(words) > 2 {
		q.grain = words[2]
	}
	if q.verb == "deactivate" || q.verb == "migrate" {
		q.hadWork = w.works[q.grain][number]
		delete(w.works[q.grain], number)
	}
	w.open[tagOf(number, words[0])] = q
}

func tagOf(number int, tag string) string { return fmt.Sprintf("%d:%s", number, tag) }

// hangsUp takes the end of a connection, by which its works end, and nobody waits for its questions.
func (w *watch) hangsUp(number int) {
	for _, works := range w.works {
		delete(works, number)
	}
	for tag, q := range w.open {
		if q.number == number {
			delete(w.open, tag)
		}
	}
}

// says takes a line of the agent to a connection.
func (w *watch) says(number int, line string) {
	words := strings.Fields(line)
	if words[0] == "event" {
		if words[1] == "firm" { // event firm ACTIVATION GRAIN token V
			w.begins(number, words[2], words[3], words[5])
		}
		return
	}
	q, isOpen := w.open[tagOf(number, words[0])]
	if !isOpen {
		w.breaks("a question is answered that isn't open: %d hears %s", number, line)
		return
	}
	delete(w.open, tagOf(number, words[0]))
	switch {
	case words[1] == "firm" && q.verb == "activate":
		w.begins(number, words[2], words[3], words[5])
	case words[1] == "ended":
		for tag, before := range w.open {
			if before.number == number && before.grain == q.grain && before.verb == "activate" && before.count < q.count {
				w.breaks("an end is answered, and the activate before it isn't: %s", tag)
			}
		}
	case words[1] == "refused" && q.hadWork && words[2] != "lost":
		w.goesOn(number, q.grain)
	}
}

func (w *watch) begins(number int, activation, grain, token string) {
	s := w.silo.of(grain)
	if fmt.Sprint(s.token) != token || s.activation != activation {
		w.breaks("%s is granted as %s with token %s, and the silo has %s with %d", grain, activation, token, s.activation, s.token)
	}
	if s.token < w.told[grain] {
		w.breaks("the token of %s falls", grain)
	}
	w.told[grain] = s.token
	w.goesOn(number, grain)
}

func (w *watch) goesOn(number int, grain string) {
	switch {
	case w.isLost:
		w.breaks("%s is granted though all is lost", grain)
	case len(w.works[grain]) > 0:
		w.breaks("two works of %s: %v, and that of %d", grain, w.works[grain], number)
	case !w.silo.of(grain).staysFirm():
		w.breaks("%s is worked on, and isn't firm", grain)
	}
	if w.works[grain] == nil {
		w.works[grain] = map[int]bool{}
	}
	w.works[grain][number] = true
}

// tells takes a line of the agent to the silo by which an activation ends, or may: its work has ended before.
func (w *watch) tells(verb, grain string) {
	if len(w.works[grain]) > 0 {
		w.breaks("the silo is told %s %s under the work of %v", verb, grain, w.works[grain])
	}
}

// rests tells what is wrong where nothing is under way any more: questions without an answer, and firm activations that nobody works on.
func (w *watch) rests(held int) {
	var forgotten []string
	for tag, q := range w.open {
		forgotten = append(forgotten, tag+" "+q.verb+" "+q.grain)
	}
	sort.Strings(forgotten)
	if len(forgotten) > 0 {
		w.breaks("without an answer stay %v", forgotten)
	}
	there := 0
	for grain, s := range w.silo.all {
		if s.has != "" {
			there++
		}
		if s.has != "" && len(w.works[grain]) == 0 {
			w.breaks("%s stays %s at the silo, and nobody works on it", grain, s.has)
		}
	}
	if there != held {
		w.breaks("the silo has %d activations, and the agent %d", there, held)
	}
}
