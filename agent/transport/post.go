// Package transport carries letters between silos over a carrier, which may lose any of them. Many letters go in one message; one that no message
// has room for goes in parts, and a part that is lost loses it. Every queue has a bound, and what is past it is lost: letters may be, and what is
// outstanding is sent again.
//
//	message = "L" LINE "\n" LINE ..
//	        | "P" SENDER " " NUMBER " " INDEX " " COUNT " " SIZE "\n" BYTES
//	        | "H" SENDER                          it is there
//	        | "R" SENDER " " TO "\n" MESSAGE     of one of the other two, by a third, since the two don't hear one another
package transport

import (
	"bytes"
	"log"
	"sync"
	"sync/atomic"

	"agent/clock"
	"agent/directory"
	"agent/planted"
)

// Bounds of what waits to be carried.
const (
	mostMessages = 4096
	mostBytes    = 64 << 20
)

// longestMessage is what a message has at most, whatever the carrier takes: letters of one silo go between those of others.
const longestMessage = 256 << 10

// Carrier brings messages to silos. What it can't do now it drops.
type Carrier interface {
	// Publish sends a message, which is the carrier's from then on.
	Publish(to directory.Silo, message []byte) error
	// Most is how many bytes a message may have.
	Most() int
	// Up says whether the carrier is connected.
	Up() bool
	// Close ends it.
	Close()
}

// Line is what a carrier is made of once the silo's generation is known: so that an agent that reaches nobody doesn't join.
type Line interface {
	Carry(me directory.Silo, take Receiver) (Carrier, error)
	Close()
}

// Receiver takes what carriers bring, and from whom. It may be called by several goroutines, and doesn't wait.
type Receiver func(message []byte, sender Sender)

// Sender says whether who sent a message may carry letters from an endpoint. nil: that isn't known, and who reaches the carrier may carry any.
type Sender func(endpoint string) bool

// Listener hears of letters.
type Listener interface {
	// Receive takes a letter to this silo; the line is the listener's until it returns.
	Receive(line []byte)
	// Asked says that a letter was handed over.
	Asked(to directory.Silo, kind string)
	// Heard says that some letter came from a silo.
	Heard(from directory.Silo)
}

// Counts are what was carried so far.
type Counts struct {
	Sent, Received, BytesSent, BytesReceived, MessagesLost, Cut, PartsLost int64
	Forged                                                                 int64 // not from whom they say, or not to be handed on
	Relayed                                                                int64 // through another silo, or for others
}

// Post carries the letters of one silo.
type Post struct {
	me       directory.Silo
	may      func() bool
	listener Listener
	carrier  Carrier
	counts   Counts
	routes   atomic.Value // Routes

	batches map[directory.Silo][]byte // of the goroutine that calls Letter and Flush
	number  uint64                    // of the last letter that was cut

	outbox chan message
	bytes  int64 // atomic: of the outbox
	ended  chan struct{}
	once   sync.Once

	mu        sync.Mutex
	parts     parts
	numbers   numbers
	complains sync.Once
}

type message struct {
	to         directory.Silo
	data       []byte
	isStraight bool // it goes through no other silo
}

// New makes the post of a silo; may says whether it may send anything now. It receives before it has a carrier, and sends behind Carry.
func New(me directory.Silo, may func() bool, listener Listener) *Post {
	p := &Post{me: me, may: may, listener: listener, batches: map[directory.Silo][]byte{}, outbox: make(chan message, mostMessages),
		ended: make(chan struct{}), parts: newParts()}
	p.Route(straight)
	return p
}

// Carry sends what is handed over by a carrier, until Close.
func (p *Post) Carry(carrier Carrier) {
	p.carrier = carrier
	go func() {
		for {
			select {
			case <-p.ended:
				return
			case m := <-p.outbox:
				atomic.AddInt64(&p.bytes, -int64(len(m.data)))
				size := int64(len(m.data))
				if !p.may() || planted.Loses() || p.send(carrier, m) != nil {
					atomic.AddInt64(&p.counts.MessagesLost, 1)
				} else {
					atomic.AddInt64(&p.counts.BytesSent, size)
				}
			}
		}
	}()
}

// Close ends the carrying, and the carrier.
func (p *Post) Close() {
	p.once.Do(func() {
		close(p.ended)
		if p.carrier != nil {
			p.carrier.Close()
		}
	})
}

// Up says whether the carrier is connected.
func (p *Post) Up() bool { return p.carrier != nil && p.carrier.Up() }

// Counts are what was carried so far.
func (p *Post) Counts() Counts {
	load := func(count *int64) int64 { return atomic.LoadInt64(count) }
	c := &p.counts
	return Counts{load(&c.Sent), load(&c.Received), load(&c.BytesSent), load(&c.BytesReceived), load(&c.MessagesLost), load(&c.Cut), load(&c.PartsLost),
		load(&c.Forged), load(&c.Relayed)}
}

func (p *Post) most() int {
	if planted.InParts {
		return headRoom + 32
	}
	if most := p.carrier.Most() - headRoom; most < longestMessage { // there is room for a head, where it goes through another silo
		return most
	}
	return longestMessage
}

// Letter hands a letter over. It and Flush are called by one goroutine.
func (p *Post) Letter(to directory.Silo, kind string, line []byte) {
	atomic.AddInt64(&p.counts.Sent, 1)
	p.listener.Asked(to, kind)
	most := p.most()
	if len(line)+1 > most || planted.InParts {
		p.number++
		atomic.AddInt64(&p.counts.Cut, 1)
		for _, part := range cut(p.me, p.number, line, most) {
			p.publish(to, part)
		}
		return
	}
	batch := p.batches[to]
	if len(batch)+1+len(line) > most {
		p.publish(to, batch)
		batch = nil
	}
	if len(batch) == 0 {
		batch = append(batch, 'L')
	} else {
		batch = append(batch, '\n')
	}
	p.batches[to] = append(batch, line...)
}

// Flush sends the letters that were handed over.
func (p *Post) Flush() {
	for to, batch := range p.batches {
		p.publish(to, batch)
		delete(p.batches, to)
	}
}

// publish puts a message out; where too much waits, it is lost. Who calls it reads what the silo says, and mustn't wait for a carrier.
func (p *Post) publish(to directory.Silo, data []byte) {
	if len(data) > 0 {
		p.put(message{to: to, data: data})
	}
}

func (p *Post) put(m message) {
	if atomic.AddInt64(&p.bytes, int64(len(m.data))) <= mostBytes {
		select {
		case p.outbox <- m:
			return
		default:
		}
	}
	atomic.AddInt64(&p.bytes, -int64(len(m.data)))
	atomic.AddInt64(&p.counts.MessagesLost, 1)
}

// Take is the post's Receiver. Letters to this silo go on, from silos whose letters the sender may carry, and nothing else: a stranger's command
// would be obeyed.
func (p *Post) Take(data []byte, sender Sender) {
	atomic.AddInt64(&p.counts.BytesReceived, int64(len(data)))
	switch {
	case len(data) == 0:
	case data[0] == 'R':
		p.relayed(data, sender)
	case data[0] == 'H':
		p.hello(data, sender)
	default:
		p.take(data, sender, "")
	}
}

// take takes a message of letters, or of a part of one; of a silo, which came through another, or "": straight.
func (p *Post) take(data []byte, sender Sender, of directory.Silo) {
	switch {
	case len(data) == 0:
	case data[0] == 'L':
		for rest := data[1:]; len(rest) > 0; {
			line := rest
			if end := bytes.IndexByte(rest, '\n'); end >= 0 {
				line, rest = rest[:end], rest[end+1:]
			} else {
				rest = nil
			}
			p.deliver(line, sender, of)
		}
	case data[0] == 'P':
		p.mu.Lock()
		line, lost := p.parts.take(data[1:], of)
		p.mu.Unlock()
		if lost {
			atomic.AddInt64(&p.counts.PartsLost, 1)
		}
		if line != nil {
			p.deliver(line, sender, of)
		}
	}
}

// deliver hands a letter on. One that came through another silo isn't heard: what is heard is that nothing is between two.
func (p *Post) deliver(line []byte, sender Sender, of directory.Silo) {
	words := bytes.SplitN(line, []byte(" "), 7) // letter FROM TO VERSION KIND NUMBER ..
	if len(words) < 5 || string(words[0]) != "letter" || string(words[2]) != string(p.me) || bytes.IndexByte(line, '\n') >= 0 {
		return
	}
	from, err := directory.ReadSilo(string(words[1]))
	if err != nil || sender != nil && !sender(from.Endpoint()) || of != "" && of != from || len(words) > 5 && !p.mayCome(from, words[4], words[5]) {
		p.forged(string(words[1]))
		return
	}
	atomic.AddInt64(&p.counts.Received, 1)
	if of == "" {
		p.listener.Heard(from)
	}
	p.listener.Receive(line)
}

// mayCome says whether a request may have its number.
func (p *Post) mayCome(from directory.Silo, kind, word []byte) bool {
	number, isNumbered := numberOf(kind, word)
	return !isNumbered || p.numbers.takes(from, number, clock.Boot())
}

func (p *Post) forged(from string) {
	atomic.AddInt64(&p.counts.Forged, 1)
	p.complains.Do(func() {
		log.Printf("warning: a letter came that says it is from %.64q, and isn't, or has a number that can't be: it is lost, and others like it", from)
	})
}
