package silo

import (
	"bufio"
	"bytes"
	"fmt"
	"io"
	"log"
	"os"
	"reflect"
	"strings"
	"sync"
	"sync/atomic"
	"testing"
	"time"

	"agent/clock"
	"agent/directory"
	"agent/settling"
)

const me = directory.Silo("10.0.0.1:1000@1")

// fake is a silo's process of which a test writes the lines.
type fake struct {
	t   *testing.T
	in  *bufio.Reader
	out io.WriteCloser
}

func newFake(t *testing.T, listener Listener) (*fake, *Silo) {
	inReads, inWrites := io.Pipe()
	outReads, outWrites := io.Pipe()
	s := over(Options{Silo: me}, listener, inWrites, outReads)
	t.Cleanup(func() { s.in.Close(); inReads.Close(); outWrites.Close() })
	return &fake{t, bufio.NewReader(inReads), outWrites}, s
}

// expects reads a line that the process is given.
func (f *fake) expects(line string) {
	f.t.Helper()
	got, err := f.in.ReadString('\n')
	if err != nil || got != line+"\n" {
		f.t.Fatalf("given %q, not %q: %v", got, line, err)
	}
}

func (f *fake) writes(lines ...string) {
	fmt.Fprint(f.out, strings.Join(lines, "\n")+"\n")
}

// heard is a listener that keeps what it hears.
type heard struct {
	mu     sync.Mutex
	events []string
	some   chan bool
}

func newHeard() *heard { return &heard{some: make(chan bool, 1000)} }

func (h *heard) add(format string, words ...interface{}) {
	h.mu.Lock()
	h.events = append(h.events, fmt.Sprintf(format, words...))
	h.mu.Unlock()
	h.some <- true
}
func (h *heard) Letter(to directory.Silo, kind string, line []byte) {
	h.add("letter to %s %s: %s", to, kind, line)
}
func (h *heard) Quiet()               {}
func (h *heard) Said(said Said)       { h.add("%+v", said) }
func (h *heard) Broken(reason string) { h.add("broken: %s", reason) }

// awaits waits until something is heard, whatever else was before.
func (h *heard) awaits(t *testing.T, event string) {
	t.Helper()
	for end := time.Now().Add(5 * time.Second); time.Now().Before(end); time.Sleep(time.Millisecond) {
		h.mu.Lock()
		for _, one := range h.events {
			if one == event {
				h.mu.Unlock()
				return
			}
		}
		h.mu.Unlock()
	}
	t.Fatalf("%q isn't heard", event)
}

func (h *heard) expects(t *testing.T, events ...string) {
	t.Helper()
	for range events {
		select {
		case <-h.some:
		case <-time.After(5 * time.Second):
			t.Fatal("nothing is heard")
		}
	}
	h.mu.Lock()
	defer h.mu.Unlock()
	if !reflect.DeepEqual(h.events, events) {
		t.Fatalf("heard %q, not %q", h.events, events)
	}
	h.events = nil
}

func answers() (func(Answer), func() Answer) {
	answer := make(chan Answer, 1)
	return func(a Answer) { answer <- a }, func() Answer { return <-answer }
}

func TestActivation(t *testing.T) {
	h := newHeard()
	f, s := newFake(t, h)
	s.See(4, func(skipped bool, err error) { h.add("seen %v %v", skipped, err) })
	f.expects("see 4")
	f.writes(string(me) + " sees 4 skip")
	h.expects(t, "seen true <nil>")

	told, answer := answers()
	s.Wake("user/ann", told)
	f.expects("wake user/ann")
	f.writes("started "+string(me)+"!1 user/ann", "letter "+string(me)+" 10.0.0.2:1000@1 4 register 1 user/ann "+string(me)+"!1")
	if a := answer(); a != (Answer{Activation: string(me) + "!1"}) {
		t.Fatalf("%+v", a)
	}
	h.expects(t, "letter to 10.0.0.2:1000@1 register: letter 10.0.0.1:1000@1 10.0.0.2:1000@1 4 register 1 user/ann 10.0.0.1:1000@1!1")
	reply := "letter 10.0.0.2:1000@1 " + string(me) + " 4 registered 1 user/ann " + string(me) + "!1"
	s.Receive([]byte(reply))
	f.expects(reply)
	f.writes("firm " + string(me) + "!1 user/ann at 3")
	h.expects(t, fmt.Sprintf("%+v", Said{What: Firm, Activation: string(me) + "!1", Grain: "user/ann", Token: 3}))
	told, answer = answers()
	s.Wake("user/ann", told)
	f.expects("wake user/ann")
	f.writes("refused 801")
	if a := answer(); a.Refused != "801" {
		t.Fatalf("%+v", a)
	}
}

// What is said of an activation's end and of a retry; a `firm` that tells no version is none.
func TestSaid(t *testing.T) {
	activation := string(me) + "!1"
	for _, one := range []struct {
		line string
		said Said
	}{
		{"firm " + activation + " user/ann at 18446744073709551615", Said{What: Firm, Activation: activation, Grain: "user/ann", Token: 1<<64 - 1}},
		{"ended " + activation + " user/ann removed", Said{What: Ended, Activation: activation, Grain: "user/ann", How: "removed"}},
		{"ended " + activation + " user/ann absent", Said{What: Ended, Activation: activation, Grain: "user/ann", How: "absent"}},
		{"delivered retry noted user/ann 603", Said{Kind: "retry", Effect: "noted", Grain: "user/ann", Why: "603"}},
		{"delivered retry ignored", Said{Kind: "retry", Effect: "ignored"}},
		{"delivered register retry 601", Said{Kind: "register", Effect: "retry"}},
	} {
		if said, ok := readSaid(strings.Fields(one.line)); !ok || said != one.said {
			t.Errorf("%q: %+v %v", one.line, said, ok)
		}
	}
	for _, line := range []string{"firm " + activation + " user/ann", "firm " + activation + " user/ann at x", "firm " + activation + " user/ann at 1 2",
		"ended " + activation + " user/ann", "delivered retry", "moved " + activation + " user/ann"} {
		if said, ok := readSaid(strings.Fields(line)); ok {
			t.Errorf("%q: %+v", line, said)
		}
	}
}

func TestPlace(t *testing.T) {
	h := newHeard()
	f, s := newFake(t, h)
	for said, place := range map[string]string{"place user/ann 10.0.0.2:1000@1": "10.0.0.2:1000@1", "place user/ann none": "", "fault 111": ""} {
		s.Place("user/ann", func(place directory.Silo) { h.add("%s", place) })
		f.expects("place user/ann hash_based")
		f.writes(said)
		h.expects(t, place)
	}
}

// A letter to itself comes back as any other, and what concerns no application is noted.
func TestOwnLetters(t *testing.T) {
	h := newHeard()
	f, s := newFake(t, h)
	told, answer := answers()
	s.Find("user/ann", told)
	f.expects("find user/ann")
	find := "letter " + string(me) + " " + string(me) + " 1 find 1 user/ann"
	f.writes("finding user/ann", find)
	answer()
	f.expects(find)
	f.writes("delivered find nothing", "letter "+string(me)+" "+string(me)+" 1 nothing 1")
	f.expects("letter " + string(me) + " " + string(me) + " 1 nothing 1")
	f.writes("nothing user/ann")
	h.expects(t, fmt.Sprintf("%+v", Said{Kind: "find", Effect: "nothing"}), fmt.Sprintf("%+v", Said{What: Nothing, Grain: "user/ann"}))
	if counts := s.Counts(); counts.LettersIn != 2 || counts.LettersOut != 2 {
		t.Errorf("%+v", counts)
	}
}

func TestStatus(t *testing.T) {
	h := newHeard()
	f, s := newFake(t, h)
	for said, heard := range map[string]string{
		"status 3 known 4 held 7 asking 1 closing 2 finding 5 unsettled 6 kept 8": fmt.Sprintf("%+v",
			Status{Seen: 3, Known: 4, Held: 7, Asking: 1, Closing: 2, Finding: 5, Unsettled: 6, Kept: 8}),
		"fault 921":               "broken: the silo's process answers `status` by: fault 921",
		"status 3 known 4 held 7": "broken: the silo's process answers `status` by: status 3 known 4 held 7",
	} {
		s.Status(func(status Status) { h.add("%+v", status) })
		f.expects("status")
		f.writes(said)
		h.expects(t, heard)
	}
}

// An activation that asks is given up; the refusals are told as they are.
func TestCancel(t *testing.T) {
	h := newHeard()
	f, s := newFake(t, h)
	for _, one := range []struct {
		said   string
		answer Answer
	}{{"cancelled " + string(me) + "!1 user/ann", Answer{Activation: string(me) + "!1"}}, {"refused 808", Answer{Refused: "808"}},
		{"refused 802", Answer{Refused: "802"}}} {
		told, answer := answers()
		s.Cancel("user/ann", told)
		f.expects("cancel user/ann")
		f.writes(one.said)
		if a := answer(); a != one.answer {
			t.Errorf("%q: %+v", one.said, a)
		}
	}
}

// What the silo waits for about a grain ends by its answer alone.
func TestWaits(t *testing.T) {
	for _, one := range []struct{ lines, waits string }{
		{"started S!1 user/ann", "user/ann"},
		{"started S!1 user/ann; delivered retry noted user/ann 602; delivered registered ignored", "user/ann"},
		{"started S!1 user/ann; firm S!1 user/ann at 4", ""},
		{"started S!1 user/ann; taken user/ann by T!1", ""},
		{"started S!1 user/ann; cancelled S!1 user/ann", "user/ann"},
		{"started S!1 user/ann; cancelled S!1 user/ann; ended S!1 user/ann absent", ""},
		{"closing S!1 user/ann", "user/ann"},
		{"closing S!1 user/ann; ended S!1 user/ann removed", ""},
		{"offered S!1 user/ann to 10.0.0.2:1000@1", "user/ann"},
		{"finding user/ann; nothing cached user/ann", "user/ann"},
		{"finding user/ann; nothing user/ann", ""},
		{"finding user/ann; found T!1 user/ann", ""},
		{"started S!1 user/ann; finding user/ann; found T!1 user/ann", "user/ann"},
		{"cached T!1 user/ann; refused 801; fault 111; pong", ""},
	} {
		at := clock.Time(0)
		patience := settling.New(func() clock.Time { return at })
		for _, line := range strings.Split(one.lines, "; ") {
			note(patience, strings.Fields(line))
		}
		at += clock.Time(time.Hour)
		if grains, _ := patience.Late(false); strings.Join(grains, " ") != one.waits {
			t.Errorf("%s: it waits for %q", one.lines, grains)
		}
	}
}

// By these lines the pause of the ranges begins anew.
func TestRangesGetOn(t *testing.T) {
	for line, getsOn := range map[string]bool{"delivered page gathering": true, "delivered page installed": true, "delivered missing recovering": true,
		"delivered report more": true, "delivered report complete": true, "delivered empty more": true, "delivered empty complete": true,
		string(me) + " sees 4 next": true, "delivered page ignored": false, "delivered page refused 702": false, "delivered report ignored": false,
		"delivered empty ignored": false, "delivered ask page": false, "delivered query report": false, "delivered survey report": false} {
		at := clock.Time(0)
		patience := settling.New(func() clock.Time { return at })
		patience.Late(true)
		at += clock.Time(time.Hour)
		note(patience, strings.Fields(line))
		if _, isLate := patience.Late(true); isLate == getsOn {
			t.Errorf("%s: %v", line, isLate)
		}
	}
}

// A silo that waits is nudged of each grain by itself, and of its ranges; not while it has much to read.
func TestNudge(t *testing.T) {
	h := newHeard()
	f, s := newFake(t, h)
	var at int64
	s.patience = settling.New(func() clock.Time { return clock.Time(atomic.LoadInt64(&at)) })
	told, answer := answers()
	s.Wake("user/ann", told)
	f.expects("wake user/ann")
	f.writes("started " + string(me) + "!1 user/ann")
	answer()
	s.Nudge(Status{Asking: 1, Unsettled: 2})
	atomic.AddInt64(&at, int64(settling.Shortest))
	s.Nudge(Status{Asking: 1, Unsettled: 2})
	f.expects("nudge user/ann")
	f.expects("nudge ranges")
	f.writes("nudged "+string(me), "letter "+string(me)+" 10.0.0.2:1000@1 4 register 2 user/ann "+string(me)+"!1", "nudged "+string(me))
	h.expects(t, "letter to 10.0.0.2:1000@1 register: letter 10.0.0.1:1000@1 10.0.0.2:1000@1 4 register 2 user/ann 10.0.0.1:1000@1!1")
	atomic.AddInt64(&at, int64(time.Hour))
	s.send("ping x", func(string) {})
	for s.Pending() > 0 { // until it is being written
		time.Sleep(time.Millisecond)
	}
	long := "ping " + strings.Repeat("y", busy)
	s.send(long, func(string) {})
	s.Nudge(Status{Asking: 1, Unsettled: 2})
	f.expects("ping x")
	f.expects(long)
	s.Nudge(Status{Asking: 1, Unsettled: 2})
	f.expects("nudge user/ann")
	f.expects("nudge ranges")
	if nudges := s.Counts().Nudges; nudges != 4 {
		t.Errorf("%d nudges are counted", nudges)
	}
}

// Letters to others aren't given, since nothing answers them; nor what would be two lines.
func TestLettersToOthers(t *testing.T) {
	h := newHeard()
	f, s := newFake(t, h)
	for _, line := range []string{"letter 10.0.0.2:1000@1 10.0.0.3:1000@1 1 nothing 1", "wake user/eve", "letter a " + string(me) + " 1",
		"letter 10.0.0.2:1000@1 " + string(me) + " 1 nothing 1\nwake user/eve", ""} {
		s.Receive([]byte(line))
	}
	s.Status(func(Status) {})
	f.expects("status")
	if counts := s.Counts(); counts.LettersIn != 0 || counts.Faults != 5 {
		t.Errorf("%+v", counts)
	}
}

// That the silo can't read a letter is logged once; that it refuses one isn't.
func TestUnreadLetters(t *testing.T) {
	var text bytes.Buffer
	log.SetOutput(&text)
	defer log.SetOutput(os.Stderr)
	h := newHeard()
	f, s := newFake(t, h)
	line := "letter 10.0.0.2:1000@1 " + string(me) + " 1 nothing one"
	for _, said := range []string{"refused 901", "fault 923", "fault 927"} {
		s.Receive([]byte(line))
		f.expects(line)
		f.writes(said)
		words := strings.Fields(said)
		h.expects(t, fmt.Sprintf("%+v", Said{Kind: words[0], Effect: words[1]}))
	}
	if said := text.String(); strings.Count(said, "can't read a message") != 1 || !strings.Contains(said, "(fault 923)") || s.Counts().Faults != 3 {
		t.Errorf("%d faults, logged is %q", s.Counts().Faults, said)
	}
}

func TestBroken(t *testing.T) {
	for _, line := range []string{"hello", ""} {
		h := newHeard()
		f, _ := newFake(t, h)
		f.writes(line)
		h.expects(t, "broken: the silo's process wrote a line that nothing asked for: "+line)
	}
}

func TestRefusedChange(t *testing.T) {
	h := newHeard()
	f, s := newFake(t, h)
	for _, step := range []struct{ said, heard string }{
		{"view 7 joined 10.0.0.2:1000@1 dead 10.0.0.2:1000@1", "<nil>"}, {"known 7", "<nil>"},
		{"refused 208", `the silo doesn't take the change "joined 7 10.0.0.2:1000@1 token=t": refused 208`},
	} {
		s.Tell(directory.Change{Version: 7, Kind: directory.Joined, Silo: "10.0.0.2:1000@1", Token: "t"}, func(err error) { h.add("%v", err) })
		f.expects("joined 7 10.0.0.2:1000@1 token=t")
		f.writes(step.said)
		h.expects(t, step.heard)
	}
}

func TestBegin(t *testing.T) {
	h := newHeard()
	f, s := newFake(t, h)
	rows := []directory.Listed{{Silo: "10.0.0.1:1000@3", Status: directory.IsDead}, {Silo: "10.0.0.2:1000@1", Status: directory.IsActive}}
	for _, step := range []struct{ said, heard string }{{"view 7 begins", "<nil>"}, {"refused 211", "the silo doesn't begin with view 7: refused 211"}} {
		s.Begin(7, rows, func(err error) { h.add("%v", err) })
		f.expects("view 7 10.0.0.1:1000@3:dead 10.0.0.2:1000@1:active")
		f.writes(step.said)
		h.expects(t, step.heard)
	}
}

// What waits for the process is bounded: letters are lost before commands are refused.
func TestBounds(t *testing.T) {
	h := newHeard()
	_, s := newFake(t, h) // nobody reads
	letter := []byte("letter 10.0.0.2:1000@1 " + string(me) + " 1 report 0+1 " + strings.Repeat("x", 1<<20))
	for s.Counts().LettersLost < 3 {
		s.Receive(letter)
	}
	if pending := s.Pending(); pending > mostLetters {
		t.Errorf("%d bytes wait", pending)
	}
	if err := s.Wake("user/ann", func(Answer) {}); err != nil {
		t.Error(err)
	}
	if err := s.send(strings.Repeat("x", mostPending-s.Pending()), nil); err != ErrBusy {
		t.Error(err)
	}
}

// A dump that is too long is none, and a letter that is too long is lost; the silo goes on.
func TestLongLines(t *testing.T) {
	h := newHeard()
	f, s := newFake(t, h)
	for size, kept := range map[int]int{longestLine - 1: longestLine - 1, longestLine: 0, longestLine + 3<<20: 0} {
		s.Dump(func(dump string) { h.add("a dump of %d bytes", len(dump)) })
		f.expects("dump")
		f.writes(strings.Repeat("x", size))
		h.expects(t, fmt.Sprintf("a dump of %d bytes", kept))
	}
	survey := "letter " + string(me) + " 10.0.0.2:1000@1 1 survey"
	long := survey + strings.Repeat(" 0+1", longestLine/4)
	f.writes(long, long[:longestLine-1], survey+" 0+1")
	h.expects(t, "letter to 10.0.0.2:1000@1 survey: "+long[:longestLine-1], "letter to 10.0.0.2:1000@1 survey: "+survey+" 0+1")
	if counts := s.Counts(); counts.LettersLost != 1 || counts.LettersOut != 2 {
		t.Errorf("%+v", counts)
	}
}

// A process joins by its own join alone. One that is killed has surely ended behind Kill, and its lines have come.
func TestProcess(t *testing.T) {
	program := os.Getenv("SILO_PROGRAM")
	if program == "" {
		t.Skip("SILO_PROGRAM names no program")
	}
	h := newHeard()
	s, err := Start(Options{Program: program, Silo: me, Settings: directory.DefaultSettings(), Token: "mine"}, h)
	if err != nil {
		t.Fatal(err)
	}
	for _, one := range []struct{ token, line, refusal string }{{"", "joined 1 " + string(me), "208"}, {"theirs", "joined 1 " + string(me) + " token=theirs", "208"},
		{"mine", "", ""}} {
		s.Tell(directory.Change{Version: 1, Kind: directory.Joined, Silo: me, Token: one.token}, func(err error) { h.add("%v", err) })
		if one.refusal == "" {
			h.expects(t, "<nil>")
		} else {
			h.expects(t, fmt.Sprintf("the silo doesn't take the change %q: refused %s", one.line, one.refusal))
		}
	}
	statuses := make(chan Status, 1)
	s.See(1, func(bool, error) {})
	for settled := false; !settled; time.Sleep(time.Millisecond) {
		s.Status(func(status Status) { statuses <- status })
		status := <-statuses
		settled = status.Seen == 1 && status.Unsettled == 0
	}
	s.Place("user/ann", func(place directory.Silo) { h.add("place %s", place) })
	h.awaits(t, "place "+string(me))
	s.Wake("user/ann", func(Answer) {})
	h.awaits(t, fmt.Sprintf("%+v", Said{What: Firm, Activation: string(me) + "!1", Grain: "user/ann", Token: 1}))
	s.Close("user/ann", func(Answer) {})
	h.awaits(t, fmt.Sprintf("%+v", Said{What: Ended, Activation: string(me) + "!1", Grain: "user/ann", How: "removed"}))
	s.Kill()
	<-s.Ended()
}

func TestNoProgram(t *testing.T) {
	if _, err := Start(Options{Program: "/nowhere/grain-directory", Silo: me}, newHeard()); err == nil || !strings.Contains(err.Error(), "--program") {
		t.Error(err)
	}
}

func TestCheck(t *testing.T) {
	for _, program := range []string{"/bin/true", "/bin/false", "/nowhere"} {
		if err := Check(program, me, directory.DefaultSettings(), 1000); err == nil || !strings.Contains(err.Error(), "--program") {
			t.Errorf("%s: %v", program, err)
		}
	}
	if program := os.Getenv("SILO_PROGRAM"); program != "" {
		if err := Check(program, me, directory.DefaultSettings(), 1000); err != nil {
			t.Error(err)
		}
	}
}
