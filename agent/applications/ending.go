package applications

import (
	"agent/directory"
	"agent/planted"
	"agent/silo"
)

// anywhere is where `migrate GRAIN any` goes: the silo where the grain is placed, or another.
const anywhere = directory.Silo("any")

// close begins the end of an activation whose work has ended: it is closed, or offered to a silo. One that asks is given up. From here on nobody is
// granted it, whatever has to be asked first. mu is held, but in placed and cancelled, which take it.
func (s *Service) close(k ask, name string, to directory.Silo) {
	g := s.grains[name]
	switch {
	case g == nil:
		k.refuse("802")
	case g.phase == closing:
		g.again = without(g.again, k.app) // who asks for it anew gives that up, too
		g.ending = append(g.ending, k)
	case g.phase == asking && to == "" && g.isAskedBy(k.app):
		g.ending = append(g.ending, k)
		s.giveUp(g, k.app)
	case g.phase == asking || g.owner != k.app:
		k.refuse("803")
	case to == anywhere && planted.LateClosing:
		s.closeLate(k, g)
	default:
		g.phase, g.since = closing, s.options.Now()
		g.ending = append(g.ending, k)
		s.end(g, to)
	}
}

// closeLate is the planted fault: until its place is known the activation is nobody's, and doesn't close.
func (s *Service) closeLate(k ask, g *grain) {
	s.give(g, nil)
	err := s.options.Silo.Place(g.name, func(place directory.Silo) {
		to := s.options.Another(place)
		s.mu.Lock()
		defer s.mu.Unlock()
		if g.owner == nil {
			s.give(g, k.app)
		}
		s.close(k, g.name, to)
	})
	if err != nil {
		k.refuse("busy")
	}
}

// end tells the silo that a firm activation ends, which closes from here on.
func (s *Service) end(g *grain, to directory.Silo) {
	var err error
	switch to {
	case "":
		err = s.options.Silo.Close(g.name, func(answer silo.Answer) { s.notEnded(g, answer.Refused) })
	case anywhere:
		err = s.options.Silo.Place(g.name, func(place directory.Silo) { s.placed(g, place) })
	default:
		err = s.options.Silo.Offer(g.name, to, func(answer silo.Answer) { s.notEnded(g, answer.Refused) })
	}
	if err != nil {
		s.goesOn(g, firm, "busy")
	}
}

// notEnded takes the answer to `close` and `offer`: where it isn't refused, the end follows.
func (s *Service) notEnded(g *grain, code string) {
	if code != "" {
		s.mu.Lock()
		defer s.mu.Unlock()
		s.goesOn(g, firm, code)
	}
}

// placed offers an activation that closes to the silo where its grain is placed, or another.
func (s *Service) placed(g *grain, place directory.Silo) {
	to := s.options.Another(place)
	_, err := directory.ReadSilo(string(to))
	s.mu.Lock()
	defer s.mu.Unlock()
	if err != nil || s.isOver() {
		s.goesOn(g, firm, "807")
		return
	}
	s.end(g, to)
}

func (g *grain) isAskedBy(app *application) bool {
	for _, k := range g.asked {
		if k.app == app {
			return true
		}
	}
	return false
}

// without is what the others ask of these; to what the application asks, it gives up.
func without(asks []ask, app *application) (rest []ask) {
	for _, k := range asks {
		if k.app == app {
			k.refuse("given")
		} else {
			rest = append(rest, k)
		}
	}
	return rest
}

// giveUp ends an activation that asks, for an application that wants it no more. It is the first one's of those who ask for it, too.
func (s *Service) giveUp(g *grain, app *application) {
	var given, rest []ask
	for _, k := range g.asked {
		if k.app == app {
			given = append(given, k)
		} else if s.apps[k.app] {
			rest = append(rest, k)
		}
	}
	if len(rest) == 0 {
		if err := s.options.Silo.Cancel(g.name, func(answer silo.Answer) { s.cancelled(g, answer) }); err != nil {
			s.goesOn(g, asking, "busy")
			return
		}
		g.phase, g.since = closing, s.options.Now()
	}
	g.asked = rest
	for _, k := range given {
		k.refuse("given")
	}
	if len(rest) == 0 {
		s.give(g, nil)
		return
	}
	s.give(g, rest[0].app)
	s.answerEnding(g, "absent")
}

// cancelled takes the answer to `cancel`. Only now the silo has nothing to read any more by which another activation of the grain might end.
func (s *Service) cancelled(g *grain, answer silo.Answer) {
	s.mu.Lock()
	defer s.mu.Unlock()
	switch answer.Refused {
	case "": // it closes
	case "802": // it was taken before, or never there
		s.ended(g, "absent")
	case "808": // it became firm before
		s.end(g, "")
	default:
		s.goesOn(g, asking, answer.Refused)
	}
}

// isOver says whether nobody may work any more.
func (s *Service) isOver() bool { return s.over != "" || !s.options.May() }

// goesOn takes back that an activation ends: it is as it was, and its work may go on, but not behind the deadline. One that nobody has any more is
// closed later.
func (s *Service) goesOn(g *grain, phase phase, code string) {
	if s.isOver() {
		phase, code = closing, "lost"
	}
	ending, again := g.ending, g.again
	g.phase, g.ending, g.again = phase, nil, nil
	s.leftNoMore(g)
	for _, k := range ending {
		k.refuse(code)
	}
	s.anew(g.name, again)
}

func (s *Service) ended(g *grain, how string) {
	s.drop(g)
	s.took("deactivate", g.since)
	s.answerEnding(g, how)
	s.anew(g.name, g.again)
	s.endLeft()
}

// anew asks for an activation for those who wait for it and haven't hung up.
func (s *Service) anew(name string, asks []ask) {
	for _, k := range asks {
		if s.apps[k.app] {
			s.activate(k, name)
		}
	}
}

func (s *Service) answerEnding(g *grain, how string) {
	for _, k := range g.ending {
		k.answer("ended %s %s", g.name, how)
	}
	g.ending = nil
}
