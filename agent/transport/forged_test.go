package transport

import (
	"fmt"
	"strings"
	"testing"
	"time"

	"agent/clock"
)

// A letter goes on if its sender may carry letters of the silo that it says it is from, be it whole or in parts.
func TestForgedSender(t *testing.T) {
	ear := newEar()
	p := New(c, func() bool { return true }, ear)
	ofA := func(endpoint string) bool { return endpoint == a.Endpoint() }
	letter := func(from string) string { return fmt.Sprintf("letter %s %s 3 find 1 user/ann", from, c) }
	p.Take([]byte("L"+letter(string(a))+"\n"+letter(string(b))+"\n"+letter("nobody")), ofA)
	for _, part := range cut(b, 1, []byte(letter(string(b))), 140) {
		p.Take(part, ofA)
	}
	for _, part := range cut(a, 1, []byte(letter(string(b))), 140) { // whose parts are another's
		p.Take(part, nil)
	}
	for _, part := range cut(a, 2, []byte(letter(string(a))), 140) {
		p.Take(part, ofA)
	}
	ear.has(t, letter(string(a)), letter(string(a)))
	if ear.heard[b] > 0 || p.Counts().Forged != 3 {
		t.Errorf("b was heard %d times, and %d letters were forged", ear.heard[b], p.Counts().Forged)
	}
}

// A request whose number is far above those before is lost, and the next ones come.
func TestForgedNumber(t *testing.T) {
	ear := newEar()
	p := New(c, func() bool { return true }, ear)
	letter := func(kind string, number int) string {
		return fmt.Sprintf("letter %s %s 3 %s %d user/ann", a, c, kind, number)
	}
	for _, one := range []string{letter("register", 1000), letter("deregister", 900000), letter("register", 1001), letter("found", 900000), letter("deregister", 40000),
		letter("register", 900000), letter("register", 40001)} {
		p.Take([]byte("L"+one), nil)
	}
	ear.has(t, letter("register", 1000), letter("register", 1001), letter("found", 900000), letter("deregister", 40000), letter("register", 40001))
}

// Numbers rise by so many at once, and by so many a second; earlier ones come late, and those of another silo are its own.
func TestNumbers(t *testing.T) {
	var n numbers
	at := clock.Time(time.Hour)
	for i, one := range []struct {
		number  uint64
		after   time.Duration
		expects bool
	}{{1 << 40, 0, true}, {5, 0, true}, {1<<40 + mostJump, 0, true}, {1<<40 + 2*mostJump + 1, 0, false}, {1<<40 + 2*mostJump + 2*mostPerSecond, 2 * time.Second, true},
		{1 << 60, time.Hour, false}} {
		at = at.Add(one.after)
		if n.takes(a, one.number, at) != one.expects {
			t.Errorf("%d: number %d", i, one.number)
		}
	}
	if !n.takes(b, 1<<60, at) {
		t.Error("another silo's first number is refused")
	}
}

// Heads of parts with names of a megabyte aren't kept, nor parts of who is no silo.
func TestLongNames(t *testing.T) {
	p := newParts()
	long := []byte("00" + strings.Repeat("x", 1<<20) + " 1 0 2 9\n")
	for i := byte(0); i < 20; i++ {
		long[0], long[1] = '0'+i/10, '0'+i%10
		p.take(long, "")
		p.take([]byte(fmt.Sprintf("%d 1 0 2 9\n", i)), "")
	}
	if len(p.letters) > 0 || p.size != 0 {
		t.Errorf("%d senders are kept", len(p.letters))
	}
}
