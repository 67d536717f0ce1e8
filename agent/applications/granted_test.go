package applications

import (
	"sync/atomic"
	"testing"
	"time"

	"agent/silo"
)

// Who migrates a grain to `any` has it no more from the question on: who activates it at once waits for its end, also while its place is asked for.
func TestMigratesAnyAndActivates(t *testing.T) {
	x := start(t)
	a, b := x.dial(), x.dial()
	x.firm(a, "user/ann", "S!1", 7)
	a.says("1 migrate user/ann any")
	x.silo.isAsked(t)
	a.says("2 activate user/ann")
	a.says("3 status")
	a.hears("3 status S version 1 held 1") // and no firm before it
	b.says("4 activate user/ann")
	b.says("5 status")
	b.hears("5 status S version 1 held 1")
	x.silo.answers(t, "place user/ann", silo.Answer{Activation: "10.0.0.2:1000@1"})
	x.silo.answers(t, "offer user/ann 10.0.0.2:1000@1", silo.Answer{Activation: "S!1"})
	x.service.Said(silo.Said{What: silo.Ended, Activation: "S!1", Grain: "user/ann", How: "absent"})
	a.hears("1 ended user/ann absent")
	x.silo.answers(t, "wake user/ann", silo.Answer{Activation: "S!2"})
	x.service.Said(silo.Said{What: silo.Taken, Activation: "T!1", Grain: "user/ann"})
	a.hears("2 taken T!1 user/ann")
	b.hears("4 taken T!1 user/ann")
}

// Where its place is refused, the work of who migrates goes on; it isn't granted anew, and others hear whose it is.
func TestMigratesNowhere(t *testing.T) {
	x := start(t)
	a, b := x.dial(), x.dial()
	x.firm(a, "user/ann", "S!1", 7)
	a.says("1 migrate user/ann any")
	x.silo.isAsked(t)
	a.says("2 activate user/ann")
	a.says("3 status")
	a.hears("3 status S version 1 held 1")
	b.says("4 activate user/ann")
	b.says("5 status")
	b.hears("5 status S version 1 held 1")
	x.silo.answers(t, "place user/ann", silo.Answer{})
	a.hears("1 refused 807 ")
	a.hears("2 refused yours ")
	b.hears("4 taken S!1 user/ann")
	a.says("6 deactivate user/ann")
	x.silo.answers(t, "close user/ann", silo.Answer{Activation: "S!1"})
}

// What a connection has it isn't granted again: neither when it asks twice before it is firm, nor behind that, nor for what moved here.
func TestGrantedOnce(t *testing.T) {
	x := start(t)
	a := x.dial()
	a.says("1 activate user/ann")
	x.silo.isAsked(t)
	a.says("2 activate user/ann")
	a.says("3 serve")
	a.hears("3 ok")
	x.silo.answers(t, "wake user/ann", silo.Answer{Activation: "S!1"})
	x.service.Said(silo.Said{What: silo.Firm, Activation: "S!1", Grain: "user/ann", Token: 1})
	a.hears("1 firm S!1 user/ann token 1")
	a.hears("2 refused yours ")
	a.says("4 activate user/ann")
	a.hears("4 refused yours ")
	x.service.Said(silo.Said{What: silo.Started, Activation: "S!2", Grain: "user/bob"})
	x.service.Said(silo.Said{What: silo.Firm, Activation: "S!2", Grain: "user/bob", Token: 1})
	a.hears("event firm S!2 user/bob token 1")
	a.says("5 activate user/bob")
	a.hears("5 refused yours ")
}

// What is firm and nobody's, since its end was refused, is granted to who asks for it.
func TestNobodysIsGranted(t *testing.T) {
	x := start(t)
	a, b := x.dial(), x.dial()
	x.firm(a, "user/ann", "S!1", 7)
	x.silo.isBusy(true)
	a.conn.Close()
	for end := time.Now().Add(5 * time.Second); x.service.Figures().Applications > 1 && time.Now().Before(end); {
		time.Sleep(time.Millisecond)
	}
	b.says("1 activate user/ann")
	b.hears("1 firm S!1 user/ann token 7")
	x.silo.isBusy(false)
	x.service.Sweep()
	x.silo.isTold(t, "nothing")
}

// A grain may move here and be taken before the silo has read that it is asked for: who asks waits for what comes of that.
func TestTakenBeforeItIsAskedFor(t *testing.T) {
	x := start(t)
	a := x.dial()
	a.says("1 activate user/ann")
	x.silo.isAsked(t)
	x.service.Said(silo.Said{What: silo.Started, Activation: "S!5", Grain: "user/ann"})
	x.service.Said(silo.Said{What: silo.Taken, Activation: "T!1", Grain: "user/ann"})
	x.silo.answers(t, "wake user/ann", silo.Answer{Activation: "S!6"})
	x.service.Said(silo.Said{What: silo.Firm, Activation: "S!6", Grain: "user/ann", Token: 3})
	a.hears("1 firm S!6 user/ann token 3")
	x.held(1)
}

// Behind the deadline no work goes on whose end is refused.
func TestRefusedBehindTheDeadline(t *testing.T) {
	x := start(t)
	a := x.dial()
	x.firm(a, "user/ann", "S!1", 1)
	a.says("2 migrate user/ann 10.0.0.2:1@1")
	x.silo.isAsked(t)
	atomic.StoreInt32(&x.may, 0)
	x.silo.answers(t, "offer user/ann 10.0.0.2:1@1", silo.Answer{Refused: "807"})
	a.hears("2 refused lost ")
}
