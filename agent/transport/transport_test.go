package transport

import (
	"bytes"
	"fmt"
	"math/rand"
	"strings"
	"sync"
	"testing"
	"time"

	"agent/directory"
)

const (
	a = directory.Silo("10.0.0.1:1000@1")
	b = directory.Silo("10.0.0.2:1000@1")
	c = directory.Silo("10.0.0.3:1000@1")
)

// ear hears letters.
type ear struct {
	mu    sync.Mutex
	lines []string
	heard map[directory.Silo]int
	asked map[string]int
}

func newEar() *ear { return &ear{heard: map[directory.Silo]int{}, asked: map[string]int{}} }

func (e *ear) Receive(line []byte) {
	e.mu.Lock()
	defer e.mu.Unlock()
	e.lines = append(e.lines, string(line))
}
func (e *ear) Asked(to directory.Silo, kind string) { e.asked[kind+" "+string(to)]++ }
func (e *ear) Heard(from directory.Silo) {
	e.mu.Lock()
	defer e.mu.Unlock()
	e.heard[from]++
}

func (e *ear) has(t *testing.T, lines ...string) {
	t.Helper()
	for end := time.Now().Add(5 * time.Second); ; time.Sleep(time.Millisecond) {
		e.mu.Lock()
		got := append([]string(nil), e.lines...)
		e.mu.Unlock()
		if strings.Join(got, "\n") == strings.Join(lines, "\n") {
			return
		}
		if time.Now().After(end) {
			t.Fatalf("heard %d lines, not %d", len(got), len(lines))
		}
	}
}

// wire is a carrier to posts in this process.
type wire struct {
	most     int
	up       bool
	to       map[directory.Silo]*Post
	messages int
	lose     func(number int) bool
}

func (w *wire) Publish(to directory.Silo, message []byte) error {
	w.messages++
	if len(message) > w.most {
		return fmt.Errorf("%d bytes are too many", len(message))
	}
	if w.lose == nil || !w.lose(w.messages) {
		w.to[to].Take(message, nil)
	}
	return nil
}
func (w *wire) Most() int { return w.most }
func (w *wire) Up() bool  { return w.up }
func (w *wire) Close()    {}

func yes() bool { return true }

// letter is a letter of a number and a length.
func letter(from, to directory.Silo, number, size int) string {
	line := []byte(fmt.Sprintf("letter %s %s 1 report %d ", from, to, number))
	for len(line) < size {
		line = append(line, byte('a'+rand.Intn(26)))
	}
	return string(line)
}

func TestManyInAMessage(t *testing.T) {
	e := newEar()
	w := &wire{most: 1000 + headRoom, to: map[directory.Silo]*Post{b: New(b, yes, e)}}
	out := newEar()
	p := New(a, yes, out)
	p.Carry(w)
	defer p.Close()
	var sent []string
	for i := 0; i < 30; i++ {
		sent = append(sent, letter(a, b, i, 99))
		p.Letter(b, "report", []byte(sent[i]))
	}
	p.Flush()
	p.Flush()
	e.has(t, sent...)
	if w.messages != 3 || out.asked["report "+string(b)] != 30 || e.heard[a] != 30 {
		t.Errorf("%d messages, %v, %v", w.messages, out.asked, e.heard)
	}
}

// Letters of every length about the limit come whole; with a part lost they don't come, and the next one does.
func TestParts(t *testing.T) {
	const most = 500
	for _, size := range []int{most - 2, most - 1, most, most + 1, 2*(most-headRoom) - 1, 2 * (most - headRoom), 2*(most-headRoom) + 1, 5000} {
		for lost := 0; lost <= 3; lost++ {
			lost := lost
			e := newEar()
			w := &wire{most: most + headRoom, to: map[directory.Silo]*Post{b: New(b, yes, e)}, lose: func(number int) bool { return number == lost }}
			p := New(a, yes, newEar())
			p.Carry(w)
			first, second, third := letter(a, b, 1, size), letter(a, b, 2, size), letter(a, b, 3, 60)
			expected := []string{first, second, third}
			messages := 1
			if size+1 > most {
				messages = (size + most - headRoom - 1) / (most - headRoom)
			}
			if lost > 0 && lost <= messages {
				expected = expected[1:]
			} else if lost > 0 && lost <= 2*messages {
				expected = []string{first, third}
			} else if lost > 0 {
				expected = expected[:2]
			}
			for _, line := range []string{first, second, third} {
				p.Letter(b, "report", []byte(line))
				p.Flush()
			}
			e.has(t, expected...)
			p.Close()
		}
	}
}

// Parts of letters of two senders may come between one another; no letter is ever made of two.
func TestPartsOfTwo(t *testing.T) {
	first, second := letter(a, c, 1, 900), letter(b, c, 1, 900)
	ones, others := cut(a, 1, []byte(first), 400), cut(b, 1, []byte(second), 400)
	e := newEar()
	p := New(c, yes, e)
	for i := range ones {
		p.Take(ones[i], nil)
		p.Take(others[i], nil)
	}
	e.has(t, first, second)
	third, fourth := cut(a, 2, []byte(letter(a, c, 2, 900)), 400), cut(a, 3, []byte(letter(a, c, 3, 900)), 400)
	for _, order := range [][]int{{0, 1, 12, 0}, {0, 11, 2}, {10, 1, 2}, {0, 1, 11, 12}, {0, 0, 1, 1, 2, 2}, {2, 1, 0}} {
		for _, index := range order {
			if index >= 10 {
				p.Take(fourth[index-10], nil)
			} else {
				p.Take(third[index], nil)
			}
		}
		p.Take(cut(a, 9, []byte(letter(a, c, 9, 900)), 400)[0], nil) // whatever is under way ends
	}
	e.has(t, first, second)
	if p.Counts().PartsLost == 0 || p.parts.size > 400+besides {
		t.Errorf("%+v, %d bytes are kept", p.Counts(), p.parts.size)
	}
}

// What strangers send does no harm, and what isn't a letter to this silo goes nowhere.
func TestStrangers(t *testing.T) {
	e := newEar()
	p := New(a, yes, e)
	for _, message := range []string{"", "L", "X", "Lwake user/eve", "L\n\n", "Lletter " + string(b) + " " + string(c) + " 1 nothing 1", "P", "P\n", "Px 1 0 1 5\nab",
		"Px 1 -1 1 2\nab", "Px 1 1 1 2\nab", "Px 1 0 0 2\nab", "Px 1 0 1 99999999999\nab", "Px 1 0 2 1\nab", "Px 1 0 1 2\nab", "Px 1 0 1 5\na\nb\nc",
		"Px 1 0 1 56\nletter " + string(b) + " " + string(a) + " 1 nothing 1\nwake x/y"} {
		p.Take([]byte(message), nil)
	}
	e.has(t)
	if p.parts.size != 0 {
		t.Errorf("%d bytes are kept", p.parts.size)
	}
}

// Of letters that never come whole no more than a bound is kept, however many senders there are.
func TestPartsBound(t *testing.T) {
	p := newParts()
	big := bytes.Repeat([]byte("x"), 10<<20)
	for i := 0; i < 30; i++ {
		sender := directory.Silo(fmt.Sprintf("10.0.0.1:1000@%d", i+1))
		for _, part := range cut(sender, 1, big, 1<<20)[:9] {
			p.take(part[1:], "")
			if p.size > mostParts+1<<20 {
				t.Fatalf("%d bytes are kept", p.size)
			}
		}
	}
}

// Nor is there of letters that have no bytes yet.
func TestSendersBound(t *testing.T) {
	p := newParts()
	for i := 0; i < mostParts/besides+1000; i++ {
		p.take([]byte(fmt.Sprintf("stranger%d 1 0 2 1\n", i)), "")
	}
	if len(p.letters) > mostParts/besides || p.size > mostParts {
		t.Errorf("%d letters are kept", len(p.letters))
	}
	for sender := range p.letters {
		p.drop(sender)
	}
	if p.size != 0 {
		t.Errorf("%d bytes are kept of nothing", p.size)
	}
}

// A carrier that is stuck loses letters and no memory; one that may send nothing sends nothing.
func TestBounds(t *testing.T) {
	p := New(a, yes, newEar())
	stuck := make(chan bool)
	p.Carry(&stuckWire{stuck})
	line := []byte(letter(a, b, 1, 100<<10))
	for i := 0; i < 2000; i++ {
		p.Letter(b, "report", line)
	}
	p.Flush()
	if p.Counts().MessagesLost < 100 || p.bytes > mostBytes {
		t.Errorf("%+v, %d bytes wait", p.Counts(), p.bytes)
	}
	close(stuck)
	p.Close()

	w := &wire{most: 1000}
	p = New(a, func() bool { return false }, newEar())
	p.Carry(w)
	p.Letter(b, "report", []byte("x"))
	p.Flush()
	for p.Counts().MessagesLost == 0 {
		time.Sleep(time.Millisecond)
	}
	if w.messages != 0 {
		t.Error("sent, though it may not be")
	}
}

type stuckWire struct{ stuck chan bool }

func (w *stuckWire) Publish(directory.Silo, []byte) error { <-w.stuck; return nil }
func (w *stuckWire) Most() int                            { return 1 << 20 }
func (w *stuckWire) Up() bool                             { return true }
func (w *stuckWire) Close()                               {}
