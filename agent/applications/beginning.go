package applications

import (
	"strings"

	"agent/planted"
	"agent/silo"
)

// activate asks for an activation. mu is held, as in all that follows but Said and woken.
func (s *Service) activate(k ask, name string) {
	g := s.grains[name]
	switch {
	case s.leaving:
		k.refuse("leaving")
	case g == nil:
		g = &grain{name: name, phase: asking, isWaking: true, since: s.options.Now(), asked: []ask{k}}
		s.grains[name] = g
		s.give(g, k.app)
		if err := s.options.Silo.Wake(name, func(answer silo.Answer) { s.woken(g, answer) }); err != nil {
			s.notWoken(g, "busy")
		}
	case g.phase == asking:
		g.asked = append(g.asked, k)
		if s.isNobodys(g) {
			s.give(g, k.app)
		}
	case g.phase == closing:
		g.again = append(g.again, k)
	case s.isOver():
		k.refuse("lost")
	default:
		s.grant(k, g)
	}
}

// grant answers who asks for a firm activation: it is granted where nobody has it, and once.
func (s *Service) grant(k ask, g *grain) {
	switch {
	case s.isNobodys(g) || g.owner == k.app && planted.FirmAgain:
		s.give(g, k.app)
		k.answer("firm %s %s token %d", g.activation, g.name, g.token)
	case g.owner == k.app:
		k.refuse("yours")
	default:
		k.answer("taken %s %s", g.activation, g.name)
	}
}

// isNobodys says whether nobody has an activation, be it that who had it has hung up.
func (s *Service) isNobodys(g *grain) bool { return g.owner == nil || !s.apps[g.owner] }

// give makes an activation an application's, or nobody's.
func (s *Service) give(g *grain, owner *application) {
	s.take(g)
	g.owner = owner
	if s.whose[owner] == nil {
		s.whose[owner] = &pile{}
	}
	s.whose[owner].add(g)
}

func (s *Service) take(g *grain) {
	if p := s.whose[g.owner]; p != nil && p.remove(g) && p.size() == 0 {
		delete(s.whose, g.owner)
	}
}

// drop forgets an activation that the silo holds no more. Nothing that the silo was told about it waits to be answered.
func (s *Service) drop(g *grain) {
	s.take(g)
	delete(s.grains, g.name)
	s.leftNoMore(g)
}

// woken takes the answer to `wake`.
func (s *Service) woken(g *grain, answer silo.Answer) {
	s.mu.Lock()
	defer s.mu.Unlock()
	g.isWaking = false
	switch {
	case answer.Refused == "":
		g.activation = answer.Activation
	case g.activation != "": // it moved here just before: who asks for it waits for that one
	case g.phase == closing: // it was given up, and `cancel` is refused, too
	default:
		s.notWoken(g, answer.Refused)
	}
}

func (s *Service) notWoken(g *grain, code string) {
	s.drop(g)
	for _, k := range g.asked {
		k.refuse(code)
	}
}

// Said takes what came of a letter.
func (s *Service) Said(said silo.Said) {
	s.mu.Lock()
	defer s.mu.Unlock()
	g := s.grains[said.Grain]
	switch said.What {
	case silo.Firm:
		if g != nil {
			s.becameFirm(g, said)
		}
	case silo.Taken:
		if g != nil {
			s.taken(g, said.Activation)
		}
	case silo.Ended:
		s.counts["ended "+said.How]++
		if g != nil {
			s.ended(g, said.How)
		}
	case silo.Started: // by an offer
		if g == nil {
			g = &grain{name: said.Grain, phase: asking, since: s.options.Now()}
			s.grains[said.Grain] = g
			s.give(g, nil)
		} // else it came before the silo read `wake`, which it refuses then, or `cancel`
		g.activation = said.Activation
	case silo.Found:
		s.found(said.Grain, "at %s %s", said.Activation, said.Grain)
	case silo.Nothing:
		s.found(said.Grain, "nowhere %s", said.Grain)
	case silo.Noted:
		s.counts["delivered "+said.Kind+" "+said.Effect]++
		if said.Why != "" {
			s.counts["retry "+said.Why]++
		}
	}
}

// becameFirm grants an activation to who asked for it first; else to who takes what moves here.
func (s *Service) becameFirm(g *grain, said silo.Said) {
	g.token, g.activation = said.Token, said.Activation
	if g.phase != asking {
		return // it was given up, which the silo refuses
	}
	g.phase = firm
	s.took("activate", g.since)
	if s.isOver() {
		return // the silo may be dead by now: nobody is told
	}
	asked := g.asked
	g.asked = nil
	s.give(g, nil)
	for _, k := range asked {
		if s.apps[k.app] {
			s.grant(k, g)
		}
	}
	if g.owner == nil { // it moved here, or all have hung up
		if s.give(g, s.server(g.name)); g.owner != nil {
			g.owner.say("event firm %s %s token %d", g.activation, g.name, g.token)
		} else {
			s.close(ask{}, g.name, "") // nobody is there for it
		}
	}
}

func (s *Service) taken(g *grain, by string) {
	switch {
	case g.isWaking: // that moved here before the silo has read `wake`, of which more comes
		g.activation = ""
	case g.phase == closing: // it was given up, and `cancel` is refused
	default:
		s.drop(g)
		for _, k := range g.asked {
			k.answer("taken %s %s", by, g.name)
		}
	}
}

// server is a connection that takes a grain which moves here: who expects it, or else who serves its kind.
func (s *Service) server(name string) *application {
	if app := s.expected[name]; app != nil {
		s.unexpect(app, name)
		return app
	}
	kind, _, _ := strings.Cut(name, "/")
	var best *application
	for app := range s.apps {
		if (app.serves[""] || app.serves[kind]) && app.hasRoom() && (best == nil || app.number < best.number) {
			best = app
		}
	}
	return best
}
