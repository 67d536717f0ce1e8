package main

import (
	"testing"
	"time"

	"agent/member"
)

// Generations that end soon are followed after pauses that grow, the first at once if it has surely ended; one that lasted is followed at once.
func TestPauses(t *testing.T) {
	ready, ended, neither := member.Outcome{Ended: true, Ready: true}, member.Outcome{Ended: true}, member.Outcome{}
	for _, row := range []struct {
		name    string
		lived   time.Duration
		outcome member.Outcome
		seconds []int
	}{
		{"never ready", time.Second, ended, []int{0, 1, 3, 7, 15, 30, 30}},
		{"never ready, and slowly so", 20 * time.Second, ended, []int{0, 1, 3, 7, 15, 30, 30}},
		{"not joined", time.Second, neither, []int{1, 1, 3, 7, 15, 30, 30}},
		{"ready, and ended at once", time.Second, ready, []int{0, 1, 3, 7, 15, 30, 30}},
		{"ready for a while", 11 * time.Second, ready, []int{0, 0, 0}},
		{"there for a minute", 61 * time.Second, neither, []int{0, 0, 0}},
	} {
		var p pauses
		for i, seconds := range row.seconds {
			if pause := p.after(row.lived, row.outcome); pause != time.Duration(seconds)*time.Second {
				t.Errorf("%s, number %d: %v", row.name, i, pause)
			}
		}
	}
	var p pauses
	for i := 0; i < 4; i++ {
		p.after(time.Second, ended)
	}
	if p.after(11*time.Second, ready) != 0 || p.after(time.Second, ended) != 0 || p.after(time.Second, ended) != time.Second {
		t.Error("a generation that lasted doesn't begin the pauses anew")
	}
}
