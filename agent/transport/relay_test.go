package transport

import (
	"fmt"
	"testing"
	"time"

	"agent/directory"
)

// lab is three silos' posts, and the wire between them that may be cut one way.
type lab struct {
	*testing.T
	ears  map[directory.Silo]*ear
	posts map[directory.Silo]*Post
	cut   map[string]bool
}

// end is one silo's end of the wire.
type end struct {
	*lab
	me directory.Silo
}

func (e *end) Publish(to directory.Silo, data []byte) error {
	if !e.cut[string(e.me+to)] {
		e.posts[to].Take(append([]byte(nil), data...), nil)
	}
	return nil
}
func (*end) Most() int { return 1000 }
func (*end) Up() bool  { return true }
func (*end) Close()    {}

func newLab(t *testing.T, cut ...string) *lab {
	l := &lab{t, map[directory.Silo]*ear{}, map[directory.Silo]*Post{}, map[string]bool{}}
	for _, way := range cut {
		l.cut[way] = true
	}
	for _, silo := range []directory.Silo{a, b, c} {
		l.ears[silo] = newEar()
		l.posts[silo] = New(silo, yes, l.ears[silo])
		l.posts[silo].Carry(&end{l, silo})
		t.Cleanup(l.posts[silo].Close)
	}
	return l
}

// route has all know that a and b don't hear one another, and c carries between them.
func (l *lab) route() {
	isCut := func(one, other directory.Silo) bool { return one == a && other == b || one == b && other == a }
	l.posts[a].Route(Routes{Through: map[directory.Silo]directory.Silo{b: c}, IsCut: isCut})
	l.posts[b].Route(Routes{Through: map[directory.Silo]directory.Silo{a: c}, IsCut: isCut})
	l.posts[c].Route(Routes{IsCut: isCut})
}

func (l *lab) sends(from, to directory.Silo, line string) {
	l.posts[from].Letter(to, "report", []byte(line))
	l.posts[from].Flush()
}

// Letters of two that don't hear one another come through a third, those in parts among them; and nobody takes that for hearing.
func TestThroughAThird(t *testing.T) {
	l := newLab(t, string(a+b), string(b+a))
	l.route()
	small, large, back := letter(a, b, 2, 60), letter(a, b, 3, 5000), letter(b, a, 1, 3000)
	l.sends(a, b, small)
	l.sends(a, b, large)
	l.ears[b].has(t, small, large)
	l.sends(b, a, back)
	l.ears[a].has(t, back)
	l.ears[c].has(t)
	if l.ears[b].heard[a] != 0 || l.ears[a].heard[b] != 0 || l.ears[b].heard[c] != 0 {
		t.Errorf("heard: %v, %v", l.ears[a].heard, l.ears[b].heard)
	}
	if l.posts[c].Counts().Relayed == 0 {
		t.Error("nothing is counted")
	}
}

// A hello goes straight, and is what is heard; a stranger's isn't.
func TestHello(t *testing.T) {
	l := newLab(t, string(b+a))
	l.route()
	l.posts[b].Hello(a)
	l.posts[b].Hello(c)
	l.posts[a].Hello(b)
	for end := time.Now().Add(5 * time.Second); l.ears[b].times(a) == 0 || l.ears[c].times(b) == 0; time.Sleep(time.Millisecond) {
		if time.Now().After(end) {
			t.Fatal("they aren't heard")
		}
	}
	l.posts[b].Take([]byte("H"+string(c)), func(endpoint string) bool { return endpoint == a.Endpoint() })
	l.posts[b].Take([]byte("Hnobody"), nil)
	if l.ears[a].times(b) != 0 || l.ears[b].times(c) != 0 || l.posts[b].Counts().Forged != 2 {
		t.Errorf("heard: %v, %v", l.ears[a].heard, l.ears[b].heard)
	}
}

func (e *ear) times(from directory.Silo) int {
	e.mu.Lock()
	defer e.mu.Unlock()
	return e.heard[from]
}

// Nobody is believed who says that he carries letters of others, but between two that don't hear one another; and nothing is handed on twice.
func TestStrangersEnvelopes(t *testing.T) {
	l := newLab(t)
	l.route()
	for i, message := range []string{
		fmt.Sprintf("R%s %s\nL%s", c, b, letter(c, b, 1, 60)),               // c and b hear one another
		fmt.Sprintf("R%s %s\nL%s", a, b, letter(c, b, 1, 60)),               // of another than it says
		fmt.Sprintf("R%s %s\nR%s %s\nL%s", a, b, a, b, letter(a, b, 1, 60)), // twice
		fmt.Sprintf("R%s %s\nP%s 1 0 1 3\nabc", a, b, a),                    // no letter
		fmt.Sprintf("R%s %s", a, b), "R", "R\n", "Rx y\nLz", "H", fmt.Sprintf("R%s\nL", a),
	} {
		l.posts[b].Take([]byte(message), nil)
		l.ears[b].has(t)
		if i == 0 {
			l.posts[c].Take([]byte(fmt.Sprintf("R%s %s\nL%s", b, c, letter(b, c, 1, 60))), nil)
			l.ears[c].has(t)
		}
	}
}

// Who hands a message on has it from whom it says, by the certificate; and whom it is for has it by what is reported alone.
func TestEnvelopesAreSigned(t *testing.T) {
	l := newLab(t, string(a+b), string(b+a))
	l.route()
	line := letter(a, b, 1, 60)
	message := []byte(fmt.Sprintf("R%s %s\nL%s", a, b, line))
	of := func(silo directory.Silo) Sender {
		return func(endpoint string) bool { return endpoint == silo.Endpoint() }
	}
	l.posts[c].Take(message, of(b))
	l.ears[b].has(t)
	l.posts[c].Take(message, of(a))
	l.ears[b].has(t, line)
	l.posts[b].Take(message, of(c))
	l.ears[b].has(t, line, line)
}
