package applications

import (
	"fmt"
	"testing"
	"time"

	"agent/clock"
	"agent/silo"
)

// holder makes a connection that has so many grains.
func (x *test) holder(count int) *application {
	app := &application{out: &party{hears: func(int, string) {}}, serves: map[string]bool{}, expects: map[string]bool{}}
	x.service.mu.Lock()
	defer x.service.mu.Unlock()
	x.service.apps[app] = true
	for i := 0; i < count; i++ {
		g := &grain{name: fmt.Sprintf("user/%d", i), activation: fmt.Sprintf("S!%d", i), phase: firm, token: 1}
		x.service.grains[g.name] = g
		x.service.give(g, app)
	}
	return app
}

// ended has the silo say of what it was told to close that it has ended; of how many.
func (x *test) ended() int {
	x.silo.mu.Lock()
	lines, waits := x.silo.lines, x.silo.waits
	x.silo.lines, x.silo.waits = nil, nil
	x.silo.mu.Unlock()
	for i, line := range lines {
		grain := line[len("close "):]
		waits[i](silo.Answer{Activation: "S!1"})
		x.service.Said(silo.Said{What: silo.Ended, Grain: grain, How: "removed"})
	}
	return len(lines)
}

// However much a connection had that hangs up, the silo has few of its closings before it at any time; a question and a deadline come between.
func TestHolderOfManyHangsUp(t *testing.T) {
	const count = 100000
	x := start(t)
	other := x.dial()
	app := x.holder(count)
	x.service.hungUp(app)
	if pending := x.silo.pending(); pending == 0 || pending > mostEnding {
		t.Fatalf("of %d closings %d are under way at once", count, pending)
	}
	x.service.Deadline(43)
	other.hears("event valid 43")
	if left := x.service.Figures().Left; left != count-mostEnding {
		t.Errorf("%d wait for their end", left)
	}
	closed := x.ended()
	for end := time.Now().Add(20 * time.Second); x.service.Held() > 0 && time.Now().Before(end); {
		if pending := x.silo.pending(); pending > mostEnding {
			t.Fatalf("%d closings are under way at once", pending)
		}
		closed += x.ended()
	}
	if closed != count || x.service.Held() != 0 || len(x.service.whose) != 0 || x.service.underWay != 0 || x.service.Figures().Left != 0 {
		t.Errorf("%d were closed, %d are held, of %d connections, %d under way", closed, x.service.Held(), len(x.service.whose), x.service.underWay)
	}
}

// What waits for its end is nobody's: who asks for it has it at once, and keeps it.
func TestHasWhatIsLeft(t *testing.T) {
	x := start(t)
	other := x.dial()
	x.service.hungUp(x.holder(1000)) // the last ones end first
	other.says("1 activate user/3")
	other.hears("1 firm S!3 user/3 token 1")
	for x.ended() > 0 {
	}
	x.held(1)
	other.says("2 deactivate user/3")
	x.silo.answers(t, "close user/3", silo.Answer{})
	x.service.Said(silo.Said{What: silo.Ended, Grain: "user/3", How: "removed"})
	other.hears("2 ended user/3 removed")
}

// Where the silo takes nothing more, the rest waits for Sweep.
func TestLeftToABusySilo(t *testing.T) {
	x := start(t)
	x.silo.isBusy(true)
	x.service.hungUp(x.holder(1000))
	x.service.Sweep()
	x.silo.isTold(t, "nothing: it is busy")
	x.silo.isBusy(false)
	x.service.Sweep()
	for x.ended() > 0 {
	}
	x.held(0)
	if x.service.underWay != 0 {
		t.Errorf("%d are under way", x.service.underWay)
	}
}

// Giving and taking any of a million takes no longer than of few.
func TestPile(t *testing.T) {
	var p pile
	all := make([]*grain, 100000)
	for i := range all {
		all[i] = &grain{}
		p.add(all[i])
	}
	began := clock.Boot()
	for i, g := range all {
		if !p.remove(g) || p.remove(g) || p.size() != len(all)-i-1 {
			t.Fatalf("%d: %d are there", i, p.size())
		}
	}
	if took := clock.Boot().Sub(began); took > 5*time.Second {
		t.Errorf("taking %d took %v", len(all), took)
	}
}
