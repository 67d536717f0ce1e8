package applications

import (
	"fmt"
	"sync/atomic"
	"testing"
	"time"

	"agent/clock"
	"agent/silo"
)

// An activation ends with its connection: it is closed where it is firm, and given up where it asks; who asked beside it has it instead.
func TestHangingUp(t *testing.T) {
	x := start(t)
	a, b, c, d := x.dial(), x.dial(), x.dial(), x.dial()
	x.firm(a, "user/ann", "S!1", 1)
	a.conn.Close()
	x.silo.answers(t, "close user/ann", silo.Answer{Activation: "S!1"})
	x.service.Said(silo.Said{What: silo.Ended, Grain: "user/ann"})
	b.says("1 activate user/bob")
	x.silo.answers(t, "wake user/bob", silo.Answer{Activation: "S!2"})
	b.conn.Close()
	x.silo.answers(t, "cancel user/bob", silo.Answer{Activation: "S!2"})
	x.service.Said(silo.Said{What: silo.Ended, Grain: "user/bob", How: "absent"})
	x.held(0)
	c.says("2 activate user/eve")
	x.silo.answers(t, "wake user/eve", silo.Answer{Activation: "S!3"})
	d.says("3 activate user/eve")
	d.says("4 find x/y")
	x.silo.answers(t, "find x/y", silo.Answer{})
	c.conn.Close()
	x.silo.isTold(t, "nothing")
	x.service.Said(silo.Said{What: silo.Firm, Activation: "S!3", Grain: "user/eve", Token: 2})
	d.hears("3 firm S!3 user/eve token 2")
	x.held(1)
}

// Whoever has asked for an activation may give it up; who asked beside it has it instead, and who asks meanwhile has it anew.
func TestGivingUp(t *testing.T) {
	x := start(t)
	a, b := x.dial(), x.dial()
	a.says("1 activate user/ann")
	x.silo.answers(t, "wake user/ann", silo.Answer{Activation: "S!1"})
	a.says("2 migrate user/ann 10.0.0.2:1000@1")
	a.hears("2 refused 803 ")
	a.says("3 deactivate user/ann")
	a.hears("1 refused given ")
	b.says("4 activate user/ann")
	b.says("5 status")
	b.hears("5 status S version 1 held 1")
	x.silo.answers(t, "cancel user/ann", silo.Answer{Activation: "S!1"})
	x.service.Said(silo.Said{What: silo.Ended, Activation: "S!1", Grain: "user/ann", How: "absent"})
	a.hears("3 ended user/ann absent")
	x.silo.answers(t, "wake user/ann", silo.Answer{Activation: "S!2"})
	a.says("6 activate user/ann")
	a.says("7 status")
	a.hears("7 status S version 1 held 1")
	b.says("8 deactivate user/ann")
	b.hears("4 refused given ")
	b.hears("8 ended user/ann absent")
	x.silo.isTold(t, "nothing")
	x.service.Said(silo.Said{What: silo.Firm, Activation: "S!2", Grain: "user/ann", Token: 1})
	a.hears("6 firm S!2 user/ann token 1")
}

// Who wants an ending activation anew may give that up, too; what another wants anew is asked for.
func TestGivingUpBehindAnEnd(t *testing.T) {
	x := start(t)
	a, b := x.dial(), x.dial()
	x.firm(a, "user/ann", "S!1", 1)
	a.says("1 deactivate user/ann")
	x.silo.answers(t, "close user/ann", silo.Answer{Activation: "S!1"})
	a.says("2 activate user/ann")
	a.says("3 status")
	a.hears("3 status S version 1 held 1")
	b.says("4 activate user/ann")
	b.says("5 status")
	b.hears("5 status S version 1 held 1")
	a.says("6 deactivate user/ann")
	a.hears("2 refused given ")
	x.service.Said(silo.Said{What: silo.Ended, Activation: "S!1", Grain: "user/ann", How: "removed"})
	a.hears("1 ended user/ann removed")
	a.hears("6 ended user/ann removed")
	x.silo.answers(t, "wake user/ann", silo.Answer{Activation: "S!2"})
	x.service.Said(silo.Said{What: silo.Firm, Activation: "S!2", Grain: "user/ann", Token: 1})
	b.hears("4 firm S!2 user/ann token 1")
	b.says("7 deactivate user/ann")
	x.silo.answers(t, "close user/ann", silo.Answer{Activation: "S!2"})
	b.says("8 activate user/ann")
	b.says("9 deactivate user/ann")
	b.hears("8 refused given ")
	x.service.Said(silo.Said{What: silo.Ended, Activation: "S!2", Grain: "user/ann", How: "removed"})
	b.hears("7 ended user/ann removed")
	b.hears("9 ended user/ann removed")
	x.silo.isTold(t, "nothing")
	x.held(0)
}

// What became firm just before it was given up is closed, and nobody is told of it.
func TestGivenUpTooLate(t *testing.T) {
	x := start(t)
	a, b := x.dial(), x.dial()
	b.says("1 serve")
	b.hears("1 ok")
	a.says("2 activate user/ann")
	x.silo.answers(t, "wake user/ann", silo.Answer{Activation: "S!1"})
	a.says("3 deactivate user/ann")
	a.hears("2 refused given ")
	x.service.Said(silo.Said{What: silo.Firm, Activation: "S!1", Grain: "user/ann", Token: 1})
	x.silo.answers(t, "cancel user/ann", silo.Answer{Refused: "808"})
	x.silo.answers(t, "close user/ann", silo.Answer{Activation: "S!1"})
	x.service.Said(silo.Said{What: silo.Ended, Activation: "S!1", Grain: "user/ann", How: "removed"})
	a.hears("3 ended user/ann removed")
	b.says("4 status")
	b.hears("4 status S version 1 held 0")
}

// What was taken, or refused, just before it was given up is gone; who asked for it meanwhile has it asked for anew.
func TestGivenUpInVain(t *testing.T) {
	x := start(t)
	a, b := x.dial(), x.dial()
	a.says("1 activate user/ann")
	x.silo.answers(t, "wake user/ann", silo.Answer{Activation: "S!1"})
	a.says("2 deactivate user/ann")
	a.hears("1 refused given ")
	b.says("3 activate user/ann")
	b.says("4 status")
	b.hears("4 status S version 1 held 1")
	x.service.Said(silo.Said{What: silo.Taken, Activation: "T!1", Grain: "user/ann"})
	x.silo.answers(t, "cancel user/ann", silo.Answer{Refused: "802"})
	a.hears("2 ended user/ann absent")
	x.silo.answers(t, "wake user/ann", silo.Answer{Activation: "S!2"})
	x.service.Said(silo.Said{What: silo.Taken, Activation: "T!1", Grain: "user/ann"})
	b.hears("3 taken T!1 user/ann")
	a.says("5 activate user/bob")
	a.says("6 deactivate user/bob")
	a.hears("5 refused given ")
	x.silo.answers(t, "wake user/bob", silo.Answer{Refused: "806"})
	x.silo.answers(t, "cancel user/bob", silo.Answer{Refused: "802"})
	a.hears("6 ended user/bob absent")
	x.held(0)
}

// Where the silo can't be told that something is given up, that goes on; what nobody has is given up later.
func TestGivingUpRefused(t *testing.T) {
	x := start(t)
	a := x.dial()
	a.says("1 activate user/ann")
	x.silo.answers(t, "wake user/ann", silo.Answer{Activation: "S!1"})
	x.silo.isBusy(true)
	a.says("2 deactivate user/ann")
	a.hears("2 refused busy ")
	a.conn.Close()
	for end := time.Now().Add(5 * time.Second); x.service.Figures().Applications > 0 && time.Now().Before(end); {
		time.Sleep(time.Millisecond)
	}
	x.silo.isBusy(false)
	x.service.Sweep()
	x.silo.answers(t, "cancel user/ann", silo.Answer{Refused: "805"})
	x.service.Said(silo.Said{What: silo.Firm, Activation: "S!1", Grain: "user/ann", Token: 1})
	x.silo.answers(t, "close user/ann", silo.Answer{Activation: "S!1"})
}

// What was fenced while the silo is asked for a place isn't moved.
func TestLostBeforeItsPlace(t *testing.T) {
	x := start(t)
	a := x.dial()
	x.firm(a, "user/ann", "S!1", 1)
	a.says("2 migrate user/ann any")
	x.silo.isAsked(t)
	atomic.StoreInt32(&x.may, 0)
	x.silo.answers(t, "place user/ann", silo.Answer{Activation: "10.0.0.2:1000@1"})
	a.hears("2 refused lost ")
	x.silo.isTold(t, "nothing more")
}

// All are told that all is lost, and nobody gets anything behind it; who hangs up has ended.
func TestLost(t *testing.T) {
	x := start(t)
	a, b := x.dial(), x.dial()
	x.firm(a, "user/ann", "S!1", 1)
	a.says("1 activate user/bob")
	x.silo.answers(t, "wake user/bob", silo.Answer{Activation: "S!2"})
	atomic.StoreInt32(&x.may, 0)
	x.service.Said(silo.Said{What: silo.Firm, Activation: "S!2", Grain: "user/bob", Token: 1}) // behind the deadline: nobody is told
	a.says("2 activate user/eve")
	a.hears("2 refused lost ")
	x.service.Lost("cut off")
	x.service.Lost("twice")
	for _, l := range []*line{a, b} {
		l.hears("event lost cut off")
		if _, err := l.in.ReadString('\n'); err == nil {
			t.Error("more is said")
		}
	}
	if x.service.AwaitHangUp(clock.Boot().Add(30 * time.Millisecond)) {
		t.Error("they hung up?")
	}
	a.conn.Close()
	b.conn.Close()
	if !x.service.AwaitHangUp(clock.Boot().Add(5 * time.Second)) {
		t.Error("they haven't hung up")
	}
	x.silo.isTold(t, "nothing")
}

// What an application has is told apart from what others have, and from what nobody has, through all of it.
func TestWhose(t *testing.T) {
	x := start(t)
	a, b := x.dial(), x.dial()
	for i := 0; i < 5; i++ {
		x.firm(a, fmt.Sprintf("a/%d", i), "S!1", 1)
		x.firm(b, fmt.Sprintf("b/%d", i), "S!1", 1)
	}
	b.says("1 deactivate b/0")
	x.silo.answers(t, "close b/0", silo.Answer{Activation: "S!1"})
	x.service.Said(silo.Said{What: silo.Ended, Grain: "b/0", How: "removed"})
	b.hears("1 ended b/0 removed")
	a.conn.Close()
	closed := map[string]bool{}
	for i := 0; i < 5; i++ {
		until := time.Now().Add(5 * time.Second)
		for line := ""; line == ""; time.Sleep(time.Millisecond) {
			x.silo.mu.Lock()
			if len(x.silo.lines) > 0 {
				line, x.silo.lines, x.silo.waits = x.silo.lines[0], x.silo.lines[1:], x.silo.waits[1:]
				closed[line] = true
			}
			x.silo.mu.Unlock()
			if time.Now().After(until) {
				t.Fatalf("closed are %v", closed)
			}
		}
	}
	for i := 0; i < 5; i++ {
		if !closed[fmt.Sprintf("close a/%d", i)] {
			t.Errorf("closed are %v", closed)
		}
		x.service.Said(silo.Said{What: silo.Ended, Grain: fmt.Sprintf("a/%d", i)})
	}
	x.held(4)
	x.service.mu.Lock()
	defer x.service.mu.Unlock()
	if len(x.service.whose) != 1 {
		t.Errorf("%d have something", len(x.service.whose))
	}
	for _, grains := range x.service.whose {
		if grains.size() != 4 {
			t.Errorf("%d are held", grains.size())
		}
	}
}
