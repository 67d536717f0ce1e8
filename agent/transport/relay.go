package transport

import (
	"bytes"
	"sync/atomic"

	"agent/directory"
	"agent/planted"
)

// Routes say which members don't hear one another, and through whom messages go between them.
type Routes struct {
	Through map[directory.Silo]directory.Silo    // of silos that this one is cut from: who carries messages to them; not those of nobody
	IsCut   func(one, other directory.Silo) bool // whether one of two doesn't hear the other
}

var straight = Routes{IsCut: func(directory.Silo, directory.Silo) bool { return false }}

// Route has messages go so from now on.
func (p *Post) Route(routes Routes) { p.routes.Store(routes) }

func (p *Post) route() Routes { return p.routes.Load().(Routes) }

// send has a carrier bring a message to a silo; one to a silo that this one is cut from goes through another.
func (p *Post) send(carrier Carrier, m message) error {
	through := p.route().Through[m.to]
	if through == "" || m.isStraight || planted.NoRelay {
		return carrier.Publish(m.to, m.data)
	}
	atomic.AddInt64(&p.counts.Relayed, 1)
	return carrier.Publish(through, p.envelope(m.to, m.data))
}

// Hello tells a silo straight that this one is there, and nothing else: it is how two that don't hear one another notice that they do again.
func (p *Post) Hello(to directory.Silo) {
	p.put(message{to: to, data: []byte("H" + string(p.me)), isStraight: true})
}

// hello takes a silo's hello.
func (p *Post) hello(data []byte, sender Sender) {
	from, err := directory.ReadSilo(string(data[1:]))
	if err != nil || sender != nil && !sender(from.Endpoint()) {
		p.forged(string(data[1:]))
		return
	}
	p.listener.Heard(from)
}

// envelope is a message to a silo, for one that hands it on.
func (p *Post) envelope(to directory.Silo, data []byte) []byte {
	return append([]byte("R"+string(p.me)+" "+string(to)+"\n"), data...)
}

// relayed takes a message of another silo that came through a third: it is for this one, or for one to which this one hands it on, once. It counts for
// two alone that are cut, by what is reported: else letters would be from whom they say by the word of all.
func (p *Post) relayed(data []byte, sender Sender) {
	head, rest, _ := bytes.Cut(data[1:], []byte("\n"))
	first, second, _ := bytes.Cut(head, []byte(" "))
	from, to := directory.Silo(first), directory.Silo(second)
	isOwn := to == p.me
	if len(rest) == 0 || rest[0] == 'R' || len(head) > headRoom || !p.route().IsCut(from, to) || !isOwn && sender != nil && !sender(from.Endpoint()) {
		p.forged(string(first))
		return
	}
	if isOwn {
		p.take(rest, nil, from)
		return
	}
	atomic.AddInt64(&p.counts.Relayed, 1)
	p.put(message{to: to, data: data, isStraight: true})
}
