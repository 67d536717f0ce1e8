package member

import (
	"testing"

	"agent/directory"
	"agent/peers"
)

func TestCuts(t *testing.T) {
	for _, one := range []struct {
		me      directory.Silo
		through map[directory.Silo]directory.Silo
		text    string
		yields  bool
	}{
		{"x", nil, "", false},
		{"x", map[directory.Silo]directory.Silo{"b": "c"}, "letters to b go through c", false},
		{"a", map[directory.Silo]directory.Silo{"d": "", "b": "c"}, "letters to b go through c, no letters go to d", false},
		{"x", map[directory.Silo]directory.Silo{"d": "", "b": "c"}, "letters to b go through c, no letters go to d", true},
	} {
		if text := cutText(one.through); text != one.text {
			t.Errorf("%v: %q", one.through, text)
		}
		if yields(peers.Deaf{}, one.me, one.through, []directory.Silo{one.me, "b", "c", "d"}) != one.yields {
			t.Errorf("%s, %v: it yields, or doesn't", one.me, one.through)
		}
	}
}
