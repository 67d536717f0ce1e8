package applications

import (
	"fmt"
	"os"
	"os/exec"
	"path/filepath"
	"strings"
	"testing"
	"time"

	"agent/directory"
	"agent/silo"
)

func TestOneLife(t *testing.T) {
	x := start(t)
	a, b := x.dial(), x.dial()
	x.firm(a, "user/ann", "S!1", 7)
	a.says("2 activate user/ann")
	a.hears("2 refused yours ")
	b.says("3 activate user/ann")
	b.hears("3 taken S!1 user/ann")
	b.says("4 deactivate user/ann")
	b.hears("4 refused 803 ")
	b.says("4 migrate user/ann any")
	b.hears("4 refused 803 ")
	a.says("5 deactivate user/ann")
	x.silo.answers(t, "close user/ann", silo.Answer{Activation: "S!1"})
	a.says("7 deactivate user/ann")
	a.says("6 activate user/ann") // while it ends: again behind its end
	a.says("8 status")
	a.hears("8 status S version 1 held 1")
	x.service.Said(silo.Said{What: silo.Ended, Activation: "S!1", Grain: "user/ann", How: "removed"})
	a.hears("5 ended user/ann removed")
	a.hears("7 ended user/ann removed")
	x.silo.answers(t, "wake user/ann", silo.Answer{Activation: "S!2"})
	x.service.Said(silo.Said{What: silo.Taken, Activation: "T!9", Grain: "user/ann"})
	a.hears("6 taken T!9 user/ann")
	x.held(0)
	a.says("9 deactivate user/ann")
	a.hears("9 refused 802 ")
	for _, what := range []string{"activate", "deactivate"} {
		if _, isThere := x.took.Load(what); !isThere {
			t.Errorf("nothing is told of how long %s took", what)
		}
	}
}

// Some ask at once: the first has it, the others hear where it is, but for one that gives up.
func TestSomeAsk(t *testing.T) {
	x := start(t)
	a, b, c := x.dial(), x.dial(), x.dial()
	a.says("1 activate user/ann")
	x.silo.answers(t, "wake user/ann", silo.Answer{Activation: "S!1"})
	b.says("2 activate user/ann")
	b.says("3 activate user/ann")
	b.says("4 status")
	b.hears("4 status S version 1 held 1")
	c.says("5 deactivate user/ann")
	c.hears("5 refused 803 ")
	c.says("6 activate user/ann")
	c.says("7 deactivate user/ann")
	c.hears("6 refused given ")
	c.hears("7 ended user/ann absent")
	x.service.Said(silo.Said{What: silo.Firm, Activation: "S!1", Grain: "user/ann", Token: 1})
	a.hears("1 firm S!1 user/ann token 1")
	b.hears("2 taken S!1 user/ann")
	b.hears("3 taken S!1 user/ann")
}

func TestRefusals(t *testing.T) {
	x := start(t)
	a := x.dial()
	for _, one := range []struct{ line, code string }{
		{"1", "what"}, {"1 wake user/ann", "what"}, {"1 activate", "what"}, {"1 activate a b", "what"}, {"1 find a old", "what"}, {"1 migrate user/ann", "what"},
		{"1 activate us\x01er/ann", "113"}, {"1 activate user/\u00e4nn", "113"}, {"1 migrate user/ann nowhere", "807"},
		{"1 activate " + strings.Repeat("x", 20000), "long"},
	} {
		a.says(one.line)
		a.hears("1 refused " + one.code + " ")
	}
	a.says("1 migrate user/ann any")
	a.hears("1 refused 802 ")
	a.says("")
	for _, code := range []string{"111", "804", "806", "999"} {
		a.says("2 activate user")
		x.silo.answers(t, "wake user", silo.Answer{Refused: code})
		a.hears("2 refused " + code + " ")
	}
	x.firm(a, "user/ann", "S!1", 1)
	a.says("3 migrate user/ann 10.0.0.9:1@1")
	x.silo.answers(t, "offer user/ann 10.0.0.9:1@1", silo.Answer{Refused: "807"})
	a.hears("3 refused 807 ")
	a.says("4 activate user/ann") // its work goes on
	a.hears("4 refused yours ")
	a.says("4 migrate user/ann any")
	x.silo.answers(t, "place user/ann", silo.Answer{})
	a.hears("4 refused 807 ")
	x.silo.isBusy(true)
	for _, line := range []string{"activate user/bob", "deactivate user/ann", "migrate user/ann any", "find user/bob", "find user/bob fresh"} {
		a.says("5 " + line)
		a.hears("5 refused busy ")
	}
	x.held(1)
	a.conn.Close() // its closing is refused, and swept later
	for end := time.Now().Add(5 * time.Second); x.service.Figures().Applications > 0 && time.Now().Before(end); {
		time.Sleep(time.Millisecond)
	}
	x.silo.isBusy(false)
	x.service.Sweep()
	x.silo.answers(t, "close user/ann", silo.Answer{Activation: "S!1"})
}

// What moves here goes to a connection that serves its kind; where none does, it is closed.
func TestMoves(t *testing.T) {
	x := start(t)
	a, b := x.dial(), x.dial()
	moved := func(grain string) {
		x.service.Said(silo.Said{What: silo.Started, Activation: "S!5", Grain: grain})
		x.service.Said(silo.Said{What: silo.Firm, Activation: "S!5", Grain: grain, Token: 3})
	}
	moved("user/ann")
	x.silo.answers(t, "close user/ann", silo.Answer{Activation: "S!5"})
	b.says("1 serve room user")
	b.hears("1 ok")
	moved("user/bob")
	b.hears("event firm S!5 user/bob token 3")
	moved("cart/bob")
	x.silo.answers(t, "close cart/bob", silo.Answer{Activation: "S!5"})
	a.says("2 serve")
	a.hears("2 ok")
	moved("cart/eve")
	a.hears("event firm S!5 cart/eve token 3")
	b.says("2 migrate user/bob any")
	x.silo.answers(t, "place user/bob", silo.Answer{Activation: "10.0.0.2:1000@1"})
	x.silo.answers(t, "offer user/bob 10.0.0.2:1000@1", silo.Answer{Activation: "S!5"})
	x.service.Said(silo.Said{What: silo.Ended, Grain: "user/bob", How: "absent"})
	b.hears("2 ended user/bob absent")
}

// A grain may move here before the silo reads that it is asked for, and refuses that then: who asks has what moved here, or gives that up.
func TestMovesWhileItIsAskedFor(t *testing.T) {
	x := start(t)
	a := x.dial()
	a.says("1 activate user/ann")
	x.silo.isAsked(t)
	x.service.Said(silo.Said{What: silo.Started, Activation: "S!5", Grain: "user/ann"})
	x.silo.answers(t, "wake user/ann", silo.Answer{Refused: "801"})
	x.service.Said(silo.Said{What: silo.Firm, Activation: "S!5", Grain: "user/ann", Token: 3})
	a.hears("1 firm S!5 user/ann token 3")
	a.says("2 activate user/bob")
	a.says("3 deactivate user/bob")
	a.hears("2 refused given ")
	x.service.Said(silo.Said{What: silo.Started, Activation: "S!6", Grain: "user/bob"})
	x.silo.answers(t, "wake user/bob", silo.Answer{Refused: "801"})
	x.silo.answers(t, "cancel user/bob", silo.Answer{Activation: "S!6"})
	x.held(2)
	x.service.Said(silo.Said{What: silo.Ended, Activation: "S!6", Grain: "user/bob", How: "removed"})
	a.hears("3 ended user/bob removed")
	a.says("4 activate user/eve") // held by nobody whom the agent knows
	x.silo.answers(t, "wake user/eve", silo.Answer{Refused: "801"})
	a.hears("4 refused 801 ")
	x.held(1)
}

// Ends and the reasons of retries are counted.
func TestCounts(t *testing.T) {
	x := start(t)
	x.service.Said(silo.Said{Kind: "retry", Effect: "noted", Grain: "user/ann", Why: "603"})
	x.service.Said(silo.Said{Kind: "retry", Effect: "ignored"})
	x.service.Said(silo.Said{What: silo.Ended, Grain: "user/ann", How: "absent"})
	counts := x.service.Figures().Counts
	for name, count := range map[string]int64{"retry 603": 1, "delivered retry noted": 1, "delivered retry ignored": 1, "ended absent": 1} {
		if counts[name] != count {
			t.Errorf("%s is counted %d times", name, counts[name])
		}
	}
}

func TestFinds(t *testing.T) {
	x := start(t)
	a, b := x.dial(), x.dial()
	a.says("1 find user/ann")
	x.silo.answers(t, "find user/ann", silo.Answer{Activation: "T!1", Cached: true})
	a.hears("1 at T!1 user/ann hint")
	a.says("2 find user/ann fresh")
	x.silo.answers(t, "forget user/ann", silo.Answer{})
	x.silo.answers(t, "find user/ann", silo.Answer{})
	b.says("3 find user/ann")
	b.says("4 status")
	b.hears("4 status S version 1 held 0")
	x.service.Said(silo.Said{What: silo.Found, Activation: "U!1", Grain: "user/ann"})
	a.hears("2 at U!1 user/ann")
	b.hears("3 at U!1 user/ann")
	a.says("5 find user/bob")
	x.silo.answers(t, "find user/bob", silo.Answer{})
	x.service.Said(silo.Said{What: silo.Nothing, Grain: "user/bob"})
	a.hears("5 nowhere user/bob")
	a.says("6 find user/bob")
	x.silo.answers(t, "find user/bob", silo.Answer{Refused: "806"})
	a.hears("6 refused 806 ")
}

// Who wants it fresh gets no hint, also while another's question is under way that may be answered by one.
func TestFreshFinds(t *testing.T) {
	x := start(t)
	a, b := x.dial(), x.dial()
	a.says("1 find user/ann")
	x.silo.isAsked(t)
	b.says("2 find user/ann fresh")
	b.says("3 status")
	b.hears("3 status S version 1 held 0")
	x.silo.answers(t, "find user/ann", silo.Answer{Activation: "T!1", Cached: true})
	a.hears("1 at T!1 user/ann hint")
	x.silo.answers(t, "forget user/ann", silo.Answer{})
	x.silo.answers(t, "find user/ann", silo.Answer{})
	x.service.Said(silo.Said{What: silo.Found, Activation: "U!1", Grain: "user/ann"})
	b.hears("2 at U!1 user/ann")
	for _, refused := range []bool{false, true} { // without a hint the directory's own answer is both ones'
		a.says("4 find user/bob")
		x.silo.isAsked(t)
		b.says("5 find user/bob fresh")
		b.says("6 status")
		b.hears("6 status S version 1 held 0")
		if refused {
			x.silo.answers(t, "find user/bob", silo.Answer{Refused: "806"})
			a.hears("4 refused 806 ")
			b.hears("5 refused 806 ")
			continue
		}
		x.silo.answers(t, "find user/bob", silo.Answer{})
		x.service.Said(silo.Said{What: silo.Nothing, Grain: "user/bob"})
		a.hears("4 nowhere user/bob")
		b.hears("5 nowhere user/bob")
	}
}

func TestEvents(t *testing.T) {
	x := start(t)
	a := x.dial()
	x.service.Deadline(99)
	a.hears("event valid 99")
	x.service.Changed(directory.Change{Version: 3, Kind: directory.Dead, Silo: "T"})
	a.hears("event member dead T version 3")
	x.service.Settled(3)
	a.hears("event settled 3")
	x.service.Leave()
	a.hears("event leaving")
	a.says("1 activate user/ann")
	a.hears("1 refused leaving ")
}

// An application that reads nothing costs a bounded amount of memory, and others go on.
func TestWhoDoesntRead(t *testing.T) {
	x := start(t)
	a, b := x.dial(), x.dial()
	go func() {
		for i := 0; i < 200000; i++ {
			if _, err := fmt.Fprintf(a.conn, "%d status\n", i); err != nil {
				return
			}
		}
	}()
	for i := 0; i < 20000; i++ {
		x.service.Changed(directory.Change{Version: uint64(i), Kind: directory.Dead, Silo: "10.0.0.1:1000@1"})
	}
	x.service.mu.Lock()
	for app := range x.service.apps {
		if app.out.Size() > mostOut/2+longestLine {
			t.Errorf("%d bytes wait", app.out.Size())
		}
	}
	x.service.mu.Unlock()
	b.says("1 status")
	for got := ""; !strings.HasPrefix(got, "1 status"); {
		b.conn.SetReadDeadline(time.Now().Add(5 * time.Second))
		var err error
		if got, err = b.in.ReadString('\n'); err != nil {
			t.Fatal(err)
		}
	}
}

func TestProcesses(t *testing.T) {
	x := start(t)
	x.dial()
	if processes := x.service.Processes(); processes[os.Getpid()] != Began(os.Getpid()) || Began(os.Getpid()) == "" {
		t.Errorf("%v", processes)
	}
	command := exec.Command("sleep", "60")
	if err := command.Start(); err != nil {
		t.Fatal(err)
	}
	when := Began(command.Process.Pid)
	KillProcess(command.Process.Pid, "1") // another process of that number
	KillProcess(command.Process.Pid, "")
	if Began(command.Process.Pid) != when {
		t.Fatal("the wrong process is killed")
	}
	KillProcess(command.Process.Pid, when)
	if err := command.Wait(); err == nil {
		t.Error("it goes on")
	}
}

func TestListen(t *testing.T) {
	path := filepath.Join(t.TempDir(), "s")
	first, err := Listen(path, 0o660)
	if err != nil {
		t.Fatal(err)
	}
	if info, err := os.Stat(path); err != nil || info.Mode().Perm() != 0o660 {
		t.Error(info.Mode(), err)
	}
	if _, err := Listen(path, 0o660); err == nil || !strings.Contains(err.Error(), "another agent listens") {
		t.Error(err)
	}
	first.SetUnlinkOnClose(false)
	first.Close()
	if again, err := Listen(path, 0o660); err != nil {
		t.Error(err)
	} else {
		again.Close()
	}
	file := filepath.Join(t.TempDir(), "f")
	os.WriteFile(file, nil, 0o600)
	if _, err := Listen(file, 0o660); err == nil || !strings.Contains(err.Error(), "no socket") {
		t.Error(err)
	}
}
