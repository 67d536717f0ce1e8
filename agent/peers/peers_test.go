package peers

import (
	"fmt"
	"reflect"
	"testing"
	"time"

	"agent/clock"
	"agent/directory"
)

const a, b, c, d = directory.Silo("a"), directory.Silo("b"), directory.Silo("c"), directory.Silo("d")

// Who beat when its silence began, or was seen to a moment later, may be dead; who beats on isn't.
func TestBeats(t *testing.T) {
	const ttl = 10 * time.Second
	for seen, expected := range map[clock.Time]bool{0: false, 100: false, clock.Time(100 + time.Second): false, clock.Time(101 + time.Second): true} {
		if Beats(100, seen, ttl) != expected {
			t.Errorf("silent since 100, seen to beat at %d", seen)
		}
	}
}

func TestSilence(t *testing.T) {
	var at clock.Time
	s := New(func() clock.Time { return at })
	members := []directory.Silo{a, b, c, d}
	expect := func(expected ...directory.Silo) {
		t.Helper()
		if got := s.Suspects(5*time.Second, members); fmt.Sprint(got) != fmt.Sprint(expected) {
			t.Errorf("%v, not %v", got, expected)
		}
	}
	s.Asked(b, "find")
	s.Asked(c, "registered") // which nobody answers
	s.Asked("gone", "find")
	at = clock.Time(4 * time.Second)
	s.Asked(b, "find") // again: it has been silent since the first
	expect()
	at = clock.Time(6 * time.Second)
	expect(b)
	s.Heard(b)
	expect()
	s.Asked(b, "query")
	s.Asked(c, "ask")
	at = clock.Time(20 * time.Second)
	expect() // half of all: the fault is here
	s.Heard(c)
	expect(b)
	s.Forget()
	expect()
	for kind, isAnswered := range map[string]bool{"register": true, "deregister": true, "find": true, "ask": true, "query": true, "survey": true,
		"taken": false, "page": false, "done": false, "report": false, "empty": false, "behind": false, "offer": false} {
		s.Asked(b, kind)
		if at += clock.Time(6 * time.Second); isAnswered {
			expect(b)
		} else {
			expect()
		}
		s.Forget()
	}
}

func TestVotedOut(t *testing.T) {
	members := []directory.Silo{a, b, c, d}
	for _, one := range []struct {
		suspicions map[directory.Silo][]directory.Silo
		out        directory.Silo
	}{
		{nil, ""},
		{map[directory.Silo][]directory.Silo{a: {d}, b: {d}}, ""},
		{map[directory.Silo][]directory.Silo{a: {d}, b: {d}, c: {d}}, d},
		{map[directory.Silo][]directory.Silo{a: {d}, b: {d}, d: {d}}, ""},       // nobody votes on itself
		{map[directory.Silo][]directory.Silo{a: {d}, b: {d}, "gone": {d}}, ""},  // nor do those who aren't members
		{map[directory.Silo][]directory.Silo{a: {"x"}, b: {"x"}, c: {"x"}}, ""}, // nor is there a vote on others
	} {
		if out := VotedOut(members, one.suspicions); out != one.out {
			t.Errorf("%v: %q", one.suspicions, out)
		}
	}
}

func TestReport(t *testing.T) {
	for text, report := range map[string]Report{
		"7 6 up": {7, 6, true, nil, nil, nil}, "18446744073709551615 0 down a b": {1<<64 - 1, 0, false, []directory.Silo{a, b}, nil, nil},
		"7 6 up =x@h": {7, 6, true, nil, nil, []string{"x@h"}}, "7 6 up a =x@h,y": {7, 6, true, []directory.Silo{a}, nil, []string{"x@h", "y"}},
		"7 6 up a ~a ~b =y": {7, 6, true, []directory.Silo{a}, []directory.Silo{a, b}, []string{"y"}},
	} {
		if got := ReadReport(text); !reflect.DeepEqual(got, report) || report.Text() != text {
			t.Errorf("%q: %+v, %q", text, got, report.Text())
		}
	}
	if got := ReadReport("x"); !reflect.DeepEqual(got, Report{}) {
		t.Errorf("%+v", got)
	}
}
