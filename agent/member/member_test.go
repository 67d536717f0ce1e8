package member

import (
	"testing"

	"agent/directory"
)

// A grain goes to its place, or to the next silo behind it.
func TestFromOn(t *testing.T) {
	const a, b, c = directory.Silo("10.0.0.1:1000@1"), directory.Silo("10.0.0.2:1000@1"), directory.Silo("10.0.0.3:1000@1")
	for _, one := range []struct {
		place  directory.Silo
		others []directory.Silo
		to     directory.Silo
	}{
		{b, []directory.Silo{c, b, a}, b}, {b, []directory.Silo{c, a}, c}, {c, []directory.Silo{b, a}, a}, {a, []directory.Silo{c, b}, b},
		{"", []directory.Silo{c, b}, b}, {a, nil, ""},
	} {
		if to := fromOn(one.place, one.others); to != one.to {
			t.Errorf("from %s on of %v: %s", one.place, one.others, to)
		}
	}
}
