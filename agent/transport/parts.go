package transport

import (
	"bytes"
	"fmt"

	"agent/directory"
	"agent/planted"
)

// longestLine is that of a silo's process, in bytes.
const longestLine = 16 << 20

// mostParts is how many bytes of letters that haven't come whole are kept, of all senders, and with each what it takes besides.
const (
	mostParts = 64 << 20
	besides   = 256
)

// headRoom is what the head of a part has at most.
const headRoom = 128

// cut cuts a letter into messages of at most so many bytes.
func cut(sender directory.Silo, number uint64, line []byte, most int) (messages [][]byte) {
	size := most - headRoom
	if size < 1 {
		return nil // no carrier's messages are so short
	}
	count := (len(line) + size - 1) / size
	for index := 0; index < count; index++ {
		end := (index + 1) * size
		if end > len(line) {
			end = len(line)
		}
		head := fmt.Sprintf("P%s %d %d %d %d\n", sender, number, index, count, len(line))
		messages = append(messages, append([]byte(head), line[index*size:end]...))
	}
	return messages
}

// parts puts letters together again. The parts of a sender come in order, and those of one letter behind those of another: so of each sender
// there is one letter at a time, and any part that isn't the next one of that letter ends it.
type parts struct {
	letters map[string]*partial // by sender, and whether they came through another
	size    int                 // bytes of all, and what each takes besides
}

type partial struct {
	number      uint64
	next, count int
	size        int
	bytes       []byte
}

func newParts() parts { return parts{letters: map[string]*partial{}} }

// take takes a part, of a silo where it came through another, and gives the letter that is whole by it, or nil; lost says that a letter was given up.
// Parts that come straight and those that come through another silo aren't mixed: each way has them in order.
func (p *parts) take(data []byte, of directory.Silo) (line []byte, lost bool) {
	head, rest, found := bytes.Cut(data, []byte("\n"))
	if len(head) > headRoom { // so that what is kept of a sender is counted
		return nil, true
	}
	var sender string
	var number uint64
	var index, count, size int
	if _, err := fmt.Sscanf(string(head), "%s %d %d %d %d", &sender, &number, &index, &count, &size); !found || err != nil ||
		index < 0 || index >= count || size < 0 || size > longestLine || len(rest) > size || of != "" && sender != string(of) {
		return nil, true
	}
	way := sender
	if of != "" {
		way = "through another " + sender
	}
	letter := p.letters[way]
	if letter != nil && !planted.MixedParts && (letter.number != number || letter.next != index || letter.count != count || letter.size != size) {
		p.drop(way)
		letter, lost = nil, true
	}
	if letter == nil {
		if index != 0 {
			return nil, true
		}
		if _, err := directory.ReadSilo(sender); err != nil {
			return nil, true
		}
		letter = &partial{number: number, count: count, size: size}
		p.letters[way] = letter
		p.size += besides
	}
	if len(letter.bytes)+len(rest) > size {
		p.drop(way)
		return nil, true
	}
	letter.next++
	letter.bytes = append(letter.bytes, rest...)
	p.size += len(rest)
	if letter.next == count {
		p.drop(way)
		if len(letter.bytes) != size || !bytes.HasPrefix(letter.bytes, []byte("letter "+sender+" ")) {
			return nil, true
		}
		return letter.bytes, lost
	}
	for other := range p.letters { // any of the others is lost where there is too much
		if p.size <= mostParts {
			break
		}
		if other != way {
			p.drop(other)
			lost = true
		}
	}
	return nil, lost
}

func (p *parts) drop(way string) {
	p.size -= len(p.letters[way].bytes) + besides
	delete(p.letters, way)
}
