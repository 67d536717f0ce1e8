package applications

import (
	"fmt"
	"math/rand"

	"agent/directory"
	"agent/silo"
)

// slots is a silo of which the lines are on their way for a while: it does as docs/RULES.md says of one grain at a time, and refuses at random what
// it may refuse.
type slots struct {
	random *rand.Rand
	grains []string
	all    map[string]*slot
	count  int
	token  uint64
	isBusy bool                     // too much waits to be read
	tells  func(verb, grain string) // told each line to it
	hears  func(silo.Said)          // told what comes of letters
}

// slot is what the silo has of a grain: nothing, or one that asks, is firm or closing.
type slot struct {
	has, activation string
	token           uint64
	in              []order  // lines that it hasn't read
	out             []func() // its lines that the agent hasn't read
}

// order is a line to the silo.
type order struct {
	verb   string
	answer func(silo.Answer)
}

func newSlots(random *rand.Rand, grains []string) *slots {
	f := &slots{random: random, grains: grains, all: map[string]*slot{}, token: 1}
	for _, grain := range grains {
		f.all[grain] = &slot{}
	}
	return f
}

func (f *slots) of(grain string) *slot { return f.all[grain] }

// staysFirm says whether an activation is firm, and nothing is on its way that ends it.
func (s *slot) staysFirm() bool {
	for _, one := range s.in {
		if one.verb == "close" || one.verb == "offer" || one.verb == "cancel" {
			return false
		}
	}
	return s.has == "firm"
}

func (f *slots) add(verb, grain string, answer func(silo.Answer)) error {
	if f.isBusy {
		return silo.ErrBusy
	}
	f.tells(verb, grain)
	s := f.of(grain)
	s.in = append(s.in, order{verb, answer})
	return nil
}

func (f *slots) Wake(grain string, answer func(silo.Answer)) error {
	return f.add("wake", grain, answer)
}
func (f *slots) Close(grain string, answer func(silo.Answer)) error {
	return f.add("close", grain, answer)
}
func (f *slots) Cancel(grain string, answer func(silo.Answer)) error {
	return f.add("cancel", grain, answer)
}
func (f *slots) Find(grain string, answer func(silo.Answer)) error {
	return f.add("find", grain, answer)
}
func (f *slots) Forget(grain string) error { return f.add("forget", grain, func(silo.Answer) {}) }
func (f *slots) Offer(grain string, _ directory.Silo, answer func(silo.Answer)) error {
	return f.add("offer", grain, answer)
}
func (f *slots) Place(grain string, answer func(directory.Silo)) error {
	return f.add("place", grain, func(place silo.Answer) { answer(directory.Silo(place.Activation)) })
}

// reads has the silo read a line about a grain, if there is one.
func (f *slots) reads(grain string) {
	s := f.of(grain)
	if len(s.in) == 0 {
		return
	}
	next := s.in[0]
	s.in = s.in[1:]
	answer := f.does(s, next.verb)
	s.out = append(s.out, func() { next.answer(answer) })
}

// does what a line says, in the order of refusals that the rules have.
func (f *slots) does(s *slot, verb string) silo.Answer {
	refused := func(code string) silo.Answer { return silo.Answer{Refused: code} }
	mayRefuse := f.random.Intn(8) == 0
	switch verb {
	case "wake":
		switch {
		case mayRefuse:
			return refused("804")
		case s.has != "":
			return refused("801")
		}
		f.starts(s)
	case "close", "offer":
		switch {
		case s.has == "":
			return refused("802")
		case s.has != "firm":
			return refused("803")
		case mayRefuse && verb == "offer":
			return refused("807")
		case mayRefuse:
			return refused("805")
		}
		s.has = "closing"
	case "cancel":
		switch {
		case s.has == "":
			return refused("802")
		case s.has != "asks":
			return refused("808")
		case mayRefuse:
			return refused("805")
		}
		s.has = "closing"
	case "place":
		return silo.Answer{Activation: []string{"", "10.0.0.2:1@1", "10.0.0.2:1@1", "10.0.0.3:1@1"}[f.random.Intn(4)]}
	case "find":
		switch f.random.Intn(4) {
		case 0:
			return refused("806")
		case 1:
			return silo.Answer{Activation: "T!1", Cached: true}
		}
		return silo.Answer{}
	}
	return silo.Answer{Activation: s.activation}
}

func (f *slots) starts(s *slot) {
	f.count++
	s.has, s.activation = "asks", fmt.Sprintf("S!%d", f.count)
}

// lives has something come of letters about a grain: what asks becomes firm, or is taken; what closes has ended; what isn't there is offered.
func (f *slots) lives(grain string) {
	s := f.of(grain)
	said := silo.Said{Grain: grain, Activation: s.activation}
	switch s.has {
	case "asks":
		said.What = silo.Taken
		s.has = ""
		if f.random.Intn(3) > 0 {
			f.token += uint64(f.random.Intn(2))
			s.has, s.token, said.What, said.Token = "firm", f.token, silo.Firm, f.token
		}
	case "closing":
		said.What, said.How = silo.Ended, []string{"removed", "absent"}[f.random.Intn(2)]
		s.has = ""
	case "":
		f.starts(s)
		said.What, said.Activation = silo.Started, s.activation
	default:
		return
	}
	s.out = append(s.out, func() { f.hears(said) })
}

// isRead has the agent read a line about a grain, if there is one.
func (f *slots) isRead(grain string) {
	if s := f.of(grain); len(s.out) > 0 {
		line := s.out[0]
		s.out = s.out[1:]
		line()
	}
}

// finds has the directory answer a search for a grain.
func (f *slots) finds(grain string) {
	said := silo.Said{What: []silo.What{silo.Found, silo.Nothing}[f.random.Intn(2)], Grain: grain, Activation: "T!2"}
	s := f.of(grain)
	s.out = append(s.out, func() { f.hears(said) })
}
