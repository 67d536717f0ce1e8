package peers

import (
	"fmt"
	"testing"
	"time"

	"agent/clock"
	"agent/directory"
)

// deaf makes what members report of "ab": a doesn't hear b.
func deaf(members []directory.Silo, pairs ...string) Deaf {
	reports := map[directory.Silo]Report{}
	for _, pair := range pairs {
		by := directory.Silo(pair[:1])
		report := reports[by]
		report.Deaf = append(report.Deaf, directory.Silo(pair[1:]))
		reports[by] = report
	}
	return DeafOf(members, reports)
}

func TestThrough(t *testing.T) {
	all := []directory.Silo{d, c, b, a}
	for _, one := range []struct {
		members []directory.Silo
		pairs   []string
		through string // of a, by whom it is cut from
	}{
		{all, nil, "map[]"},
		{all, []string{"ab"}, "map[b:c]"},
		{all, []string{"ba"}, "map[b:c]"}, // one way is enough
		{all, []string{"ab", "ba", "bc"}, "map[b:d]"},
		{all, []string{"ab", "bc", "db"}, "map[b:]"},
		{all, []string{"ab", "ac"}, "map[b:d c:d]"},
		{all, []string{"cb"}, "map[]"},
		{all, []string{"ax", "xa", "aa"}, "map[]"}, // who isn't a member, or is oneself
		{[]directory.Silo{a, b}, []string{"ab", "ba"}, "map[b:]"},
	} {
		if got := fmt.Sprint(deaf(one.members, one.pairs...).CutFrom(a, one.members)); got != one.through {
			t.Errorf("%v: %s, not %s", one.pairs, got, one.through)
		}
	}
	suspects := map[directory.Silo]Report{a: {Suspects: []directory.Silo{b}}}
	if !DeafOf(all, suspects).IsCut(b, a) {
		t.Error("who is suspected is heard")
	}
}

func TestYields(t *testing.T) {
	e := directory.Silo("e")
	for _, one := range []struct {
		members []directory.Silo
		pairs   []string
		yield   string
	}{
		{[]directory.Silo{a, b}, []string{"ab"}, "b"},
		{[]directory.Silo{a, b, c}, []string{"ab", "ac"}, "a"},                                // alone
		{[]directory.Silo{d, c, b, a}, []string{"ab", "ac", "db", "dc"}, "bc"},                // halves
		{[]directory.Silo{a, b, c, d, e}, []string{"ac", "ad", "ae", "bc", "bd", "be"}, "ab"}, // the smaller side
		{[]directory.Silo{a, b, c, d}, []string{"ac", "ad", "bd"}, "d"},                       // a chain
	} {
		deaf := deaf(one.members, one.pairs...)
		yield := ""
		for _, me := range []directory.Silo{a, b, c, d, e} {
			for _, other := range one.members {
				if through, isCut := deaf.CutFrom(me, one.members)[other]; isCut && through == "" && deaf.Yields(me, other, one.members) {
					yield += string(me)
					break
				}
			}
		}
		if yield != one.yield {
			t.Errorf("%v: %s end, not %s", one.pairs, yield, one.yield)
		}
	}
}

func TestSevered(t *testing.T) {
	s := Severed{}
	for _, one := range []struct {
		at      clock.Time
		through map[directory.Silo]directory.Silo
		over    string
	}{
		{0, map[directory.Silo]directory.Silo{b: "", c: ""}, "[]"},
		{6, map[directory.Silo]directory.Silo{b: "", c: d}, "[]"},
		{11, map[directory.Silo]directory.Silo{b: "", c: ""}, "[b]"},
		{17, map[directory.Silo]directory.Silo{c: ""}, "[]"},
		{22, map[directory.Silo]directory.Silo{b: "", c: ""}, "[c]"}, // b is cut anew
		{33, map[directory.Silo]directory.Silo{b: "", c: ""}, "[b c]"},
		{34, nil, "[]"},
		{99, map[directory.Silo]directory.Silo{b: ""}, "[]"},
	} {
		if over := fmt.Sprint(s.Note(one.through, one.at*clock.Time(time.Second), 10*time.Second)); over != one.over {
			t.Errorf("at %d: %s, not %s", one.at, over, one.over)
		}
	}
}
