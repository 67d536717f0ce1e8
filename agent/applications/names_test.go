package applications

import (
	"fmt"
	"strings"
	"testing"
	"time"

	"agent/clock"
	"agent/silo"
)

// What a connection expects is its own when it moves here, before those that serve its kind; once, and not when it has hung up.
func TestExpecting(t *testing.T) {
	x := start(t)
	a, b := x.dial(), x.dial()
	moved := func(grain string) {
		x.service.Said(silo.Said{What: silo.Started, Activation: "S!5", Grain: grain})
		x.service.Said(silo.Said{What: silo.Firm, Activation: "S!5", Grain: grain, Token: 3})
	}
	ended := func(l *line, grain string) {
		l.says("e deactivate " + grain)
		x.silo.answers(t, "close "+grain, silo.Answer{Activation: "S!5"})
		x.service.Said(silo.Said{What: silo.Ended, Grain: grain, How: "removed"})
		l.hears("e ended " + grain + " removed")
	}
	a.says("1 serve")
	a.hears("1 ok")
	b.says("2 expect user/ann")
	b.hears("2 ok")
	moved("user/ann")
	b.hears("event firm S!5 user/ann token 3")
	ended(b, "user/ann")
	moved("user/ann") // expected once
	a.hears("event firm S!5 user/ann token 3")
	ended(a, "user/ann")
	for _, word := range []string{"expect", "unexpect"} {
		b.says("3 " + word + " user/bob")
		b.hears("3 ok")
	}
	moved("user/bob")
	a.hears("event firm S!5 user/bob token 3")
	a.says("4 expect user/eve")
	a.hears("4 ok")
	b.says("5 expect user/eve") // the last one has it
	b.hears("5 ok")
	b.conn.Close()
	for end := time.Now().Add(5 * time.Second); x.service.Figures().Applications > 1 && time.Now().Before(end); {
		time.Sleep(time.Millisecond)
	}
	moved("user/eve")
	a.hears("event firm S!5 user/eve token 3")
	x.service.mu.Lock()
	defer x.service.mu.Unlock()
	if len(x.service.expected) > 0 {
		t.Errorf("expected is %v", x.service.expected)
	}
}

func TestExpectingTooMany(t *testing.T) {
	x := start(t)
	a := x.dial()
	for i := 0; i < mostExpected; i++ {
		a.says(fmt.Sprintf("1 expect user/%d", i))
		a.hears("1 ok")
	}
	a.says("2 expect user/ann")
	a.hears("2 refused many ")
	a.says("3 unexpect user/0")
	a.hears("3 ok")
	a.says("4 expect user/ann")
	a.hears("4 ok")
}

func TestNames(t *testing.T) {
	x := start(t)
	a, b := x.dial(), x.dial()
	expect := func(names string) {
		t.Helper()
		if got := NamesText(x.service.Names()); got != names {
			t.Errorf("%q, not %q", got, names)
		}
	}
	expect("-")
	for _, one := range []struct {
		l           *line
		says, names string
	}{{a, " b@host", "b@host"}, {b, " a@host", "a@host,b@host"}, {b, " b@host", "b@host"}, {b, " c@host", "b@host,c@host"}, {a, "", "c@host"}} {
		one.l.says("1 named" + one.says)
		one.l.hears("1 ok")
		expect(one.names)
	}
	a.says("2 named a,b")
	a.hears("2 refused name ")
	a.says("2 named " + strings.Repeat("x", longestName+1))
	a.hears("2 refused name ")
	a.says("3 members")
	a.hears("3 members 1 S active c@host")
	x.service.Named("S", []string{"c@host"})
	a.hears("event named S c@host")
	x.service.Named("S", nil)
	a.hears("event named S -")
	b.conn.Close()
	for end := time.Now().Add(5 * time.Second); len(x.service.Names()) > 0; time.Sleep(time.Millisecond) {
		if time.Now().After(end) {
			t.Fatal("who hung up has a name")
		}
	}
	for i := 0; i <= mostNames; i++ {
		l := x.dial()
		l.says(fmt.Sprintf("4 named n%d", i))
		if i < mostNames {
			l.hears("4 ok")
		} else {
			l.hears("4 refused many ")
		}
	}
}

// The clock is that of the deadline: what one machine's processes read without asking.
func TestClock(t *testing.T) {
	x := start(t)
	a := x.dial()
	before := clock.Boot()
	a.says("1 clock")
	var now int64
	got, err := a.in.ReadString('\n')
	if _, scanned := fmt.Sscanf(got, "1 clock %d\n", &now); err != nil || scanned != nil || clock.Time(now) < before || clock.Time(now) > clock.Boot() {
		t.Errorf("%q: %v", got, err)
	}
}
